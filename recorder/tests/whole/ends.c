/* Ends as its argument says. The trace is whole only where main ends, or exit is called with no spawned call open. */
#include <cilk/cilk.h>
#include <setjmp.h>
#include <signal.h>
#include <stdio.h>
#include <stdlib.h>
#include <string.h>
#include <unistd.h>

int g;
static const char *how;
static jmp_buf back;

static int is(const char *word) { return !strcmp(how, word); }

static void child(void)
{
    g = 1;
    if (is("exit-in-child"))
        exit(3);
    if (is("crash-in-child"))
        *(volatile int *)8 = 1;
    if (is("jump"))
        longjmp(back, 1);
    if (is("kill"))
        raise(SIGKILL);
}

static void finish(void)
{
    if (is("exit-in-call"))
        exit(4);
}

int main(int n, char **words)
{
    how = n > 1 ? words[1] : "return";
    if (!setjmp(back))
        cilk_spawn child();
    if (is("exit-before-sync"))
        exit(5);
    cilk_sync;
    finish();
    cilk_for (int i = 0; i < 4; i++)
        if (i == 2 && is("exit-in-turn"))
            exit(6);
    if (is("exit"))
        exit(0);
    if (is("_exit"))
        _exit(0);
    if (is("abort"))
        abort();
    if (is("much"))
        for (int k = 0; k < 50000; k++)
            cilk_spawn child();
    return 0;
}

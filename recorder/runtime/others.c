/* Calls of libraries that no model records. cilkrec links a stub round each such function that the program calls; it
 * tells here what is called, and with which first arguments, where something is parallel. Of functions that classes.c
 * doesn't follow, the names and places are kept for the trace's reader. */
#include <stdlib.h>
#include <string.h>
#include "recorder.h"

enum { MOST_CALLS = 256 };
static struct { const char *name; uint64_t site; } calls[MOST_CALLS];
static int call_count;
bool is_unseen_wanted; /* lines `unseen`, but for CILK_TRACE_UNSEEN=0 */

/* A stub gives the function's name in r11. All that the function takes is kept. */
__asm__(".pushsection .text\n"
        ".globl cilkrec_before_call\n"
        ".type cilkrec_before_call, @function\n"
        "cilkrec_before_call:\n"
        "  pushq %rbp\n"
        "  movq %rsp, %rbp\n"
        "  pushq %rax\n  pushq %r9\n  pushq %r8\n  pushq %rcx\n  pushq %rdx\n  pushq %rsi\n  pushq %rdi\n  pushq %r10\n"
        "  subq $528, %rsp\n"
        "  andq $-16, %rsp\n"
        "  fxsave (%rsp)\n"
        "  movq %r11, %rdi\n"
        "  leaq -56(%rbp), %rsi\n"
        "  movq 16(%rbp), %rdx\n"
        "  call call_began\n"
        "  fxrstor (%rsp)\n"
        "  leaq -64(%rbp), %rsp\n"
        "  popq %r10\n  popq %rdi\n  popq %rsi\n  popq %rdx\n  popq %rcx\n  popq %r8\n  popq %r9\n  popq %rax\n"
        "  popq %rbp\n"
        "  ret\n"
        ".size cilkrec_before_call, .-cilkrec_before_call\n"
        ".popsection\n");

void keep_unseen(const char *name, uint64_t site)
{
    for (int i = 0; i < call_count; i++)
        if (calls[i].site == site && calls[i].name == name)
            return;
    if (is_unseen_wanted)
        put_unseen(site);
    if (call_count < MOST_CALLS) {
        calls[call_count].name = name;
        calls[call_count++].site = site;
    }
}

/* The byte before a name says that what is called does its work later, so that it counts in series, too. */
__attribute__((used)) void call_began(const char *name, const uint64_t *arguments, const void *at)
{
    if (!recording || (span == UINTPTR_MAX && !name[-1]) || is_writing)
        return;
    bool is_frame = library_begin(at);
    if (!is_followed(name, arguments, at))
        keep_unseen(name, site_before(at));
    library_end(is_frame);
}

/* What isn't recorded at a site, or NULL. */
const char *unseen_at(uint64_t site)
{
    for (int i = 0; i < call_count; i++)
        if (calls[i].site == site)
            return readable_name(calls[i].name);
    return NULL;
}

/* At the end of the run. */
void print_calls(void)
{
    enum { SHOWN = 8 };
    const char *path = getenv("CILK_CALLS");
    FILE *out = path ? fopen(path, "w") : stderr;

    if (!call_count || !out)
        return;
    fputs("cilkrec: note: not recorded, while something was parallel:", out);
    for (int i = 0; i < call_count && i < SHOWN; i++)
        fprintf(out, "%s %s (%s)", i ? "," : "", readable_name(calls[i].name), place_of_site(calls[i].site));
    if (call_count > SHOWN)
        fprintf(out, " and %d more", call_count - SHOWN);
    fputc('\n', out);
    if (path)
        fclose(out);
}

/* Begin and end of the recording. */
#define _GNU_SOURCE
#include <errno.h>
#include <link.h>
#include <pthread.h>
#include <stdlib.h>
#include <string.h>
#include <sys/personality.h>
#include <unistd.h>
#include "recorder.h"

static pid_t owner; /* the process that records; a forked one doesn't */
static const char *sites_path, *pages_path;

/* ---- Begin and end of the recording. */

/* Runs after all handlers of exit and all destructors of static objects. */
static void finish(void)
{
    if (!recording || getpid() != owner)
        return;
    for (int i = 0; i <= depth && recording; i++)
        if (frames[i].parallel || frames[i].candidate || frames[i].spawned) {
            flush_buffer();
            if (recording)
                give_up("exit was called where spawned calls may still run");
        }
    while (recording && depth > 0)
        end_frame();
    tell_reads_of_reducers();
    if (recording)
        put_end();
    if (recording)
        close_trace();
    recording = false;
    span = UINTPTR_MAX;
    if (used_sites && !is_looking)
        write_sites(sites_path);
    if (is_looking)
        end_of_look();
    else if (pages_path)
        write_pages(pages_path);
    print_calls();
    if (passed_by_exceptions)
        fputs("cilkrec: note: an exception left a spawned call: what its parent would run up to its next sync isn't in "
              "the trace\n", stderr);
    if (getenv("CILK_TRACE_COUNTS"))
        print_counts();
}

/* The program's load address, and the lowest of the thread-local blocks of the objects that were loaded at first. */
static int note_object(struct dl_phdr_info *info, size_t size, void *data)
{
    bool *is_first = data;
    uintptr_t block = (uintptr_t)info->dlpi_tls_data;

    (void)size;
    if (*is_first)
        load_address = info->dlpi_addr;
    *is_first = false;
    if (block && block < own_low)
        own_low = block;
    return 0;
}

/* On x86-64 those blocks lie below the thread's own address, which is its first word. */
static void find_objects(void)
{
    bool is_first = true;
    uintptr_t thread = (uintptr_t)__builtin_thread_pointer();

    own_low = thread;
    dl_iterate_phdr(note_object, &is_first);
    own_size = thread - own_low;
    if (own_size > 1 << 24) /* not as expected: rather an alarm too many */
        own_size = 0;
}

static void find_stack(void)
{
    pthread_attr_t attributes;
    void *low = NULL;
    size_t size = 0;

    pthread_getattr_np(pthread_self(), &attributes);
    pthread_attr_getstack(&attributes, &low, &size);
    pthread_attr_destroy(&attributes);
    stack_low = (uintptr_t)low;
    stack_bytes = size;
    frames[0] = (struct frame){.base = UINTPTR_MAX, .top = stack_low + size, .low = stack_low + size,
                               .span = UINTPTR_MAX, .own_stack = true, .written = true};
}

/* The form that is wanted of the trace. */
static bool is_binary_wanted(void)
{
    const char *form = getenv("CILK_TRACE_FORM");

    if (!form || !strcmp(form, "binary"))
        return true;
    if (strcmp(form, "text")) {
        fprintf(stderr, "cilkrec: CILK_TRACE_FORM is `%s`: neither text nor binary\n", form);
        _exit(125);
    }
    return false;
}

/* The filter needs addresses where Linux puts them by default. Where they are strewn more widely, the program is begun once
 * more, without that. */
static void settle_addresses(char **words)
{
    int kind = personality(0xFFFFFFFF);

    if (open_filter())
        return;
    if (kind != -1 && !(kind & ADDR_NO_RANDOMIZE) && personality((unsigned)kind | ADDR_NO_RANDOMIZE) != -1)
        execve("/proc/self/exe", words, environ);
    fputs("cilkrec: no room for the filter's words: 40 TB of addresses have to be free (ulimit -v, other mappings)\n", stderr);
    _exit(125);
}

/* glibc's word for libstdc++: while there is one thread, counts of shared_ptr need no atomic operations. */
extern char __libc_single_threaded __attribute__((weak));

/* Before the constructors of the program's own static objects. */
static __attribute__((constructor(101))) void start(int count, char **words)
{
    const char *path = getenv("CILK_TRACE"), *sites = getenv("CILK_SITES"), *all = getenv("CILKREC_ALL"),
               *unseen = getenv("CILK_TRACE_UNSEEN");

    (void)count;
    if (!path || !*path)
        return;
    settle_addresses(words);
    find_objects();
    is_all_written = all && !strcmp(all, "1");
    is_unseen_wanted = !unseen || strcmp(unseen, "0");
    if (is_stripped()) {
        fputs("cilkrec: the program has no table of symbols (was it stripped?), so it can't be recorded\n", stderr);
        _exit(125);
    }
    if (!open_trace(path, is_binary_wanted())) {
        fprintf(stderr, "cilkrec: %s: %s\n", path, strerror(errno));
        _exit(125);
    }
    frames = zeroed(sizeof *frames * MOST_FRAMES);
    if (sites && *sites) {
        sites_path = strdup(sites);
        used_sites = zeroed((size_t)(etext - __executable_start) / 8 + 1);
    }
    find_stack();
    owner = getpid();
    if (getenv("CILK_PAGES"))
        pages_path = strdup(getenv("CILK_PAGES"));
    if (getenv("CILK_TRACE_LOOK"))
        begin_to_look(getenv("CILK_TRACE_LOOK"));
    /* Programs that this one runs would write to the same file. */
    unsetenv("CILK_TRACE");
    unsetenv("CILK_SITES");
    unsetenv("CILK_PAGES");
    unsetenv("CILK_TRACE_LOOK");
    atexit(finish);
    set_mirrors();
    if (&__libc_single_threaded)
        __libc_single_threaded = 0; /* else what is atomic in a parallel run would be plain accesses, and race */
    recording = true;
}

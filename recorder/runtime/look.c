/* A second run of a program, whose first one had a race: CILK_TRACE_LOOK names a file with an access in each line, `SEGMENT
 * SITE ADDRESS SIZE` in hexadecimal. Where the run comes to one, its call stack is told, and that of the allocation of its
 * memory. Addresses are those of the first run, so both runs have to be made without random ones. */
#define _GNU_SOURCE
#include <fcntl.h>
#include <stdarg.h>
#include <stdlib.h>
#include <sys/syscall.h>
#include <unistd.h>
#include "recorder.h"

enum { MOST_WANTED = 64, DEEPEST = 40 };
struct stack { uintptr_t at[DEEPEST], base[DEEPEST]; int n; };
struct wanted { uint64_t segment, site; uintptr_t address, size, block, block_size; struct stack allocation; bool is_told; };
static struct wanted *wanted;
static int wanted_count;
static int out;
bool is_looking;

/* Nothing here may take memory of the heap: the program's blocks are to lie where they lay. */
void begin_to_look(const char *path)
{
    static char name[4096], text[MOST_WANTED * 80];
    int in = open(path, O_RDONLY | O_CLOEXEC); /* isn't there in the first run */
    char *at = text;

    if (in < 0)
        return;
    ssize_t length = syscall(SYS_read, in, text, sizeof text - 1); /* `read` is wrapped */
    close(in);
    snprintf(name, sizeof name, "%s.told", path);
    out = open(name, O_WRONLY | O_CREAT | O_TRUNC | O_CLOEXEC, 0666);
    if (out < 0 || length < 0)
        return;
    out = fcntl(out, F_DUPFD_CLOEXEC, 501);
    wanted = zeroed(MOST_WANTED * sizeof *wanted);
    for (uint64_t n[4]; wanted_count < MOST_WANTED && *at; wanted_count++) {
        for (int i = 0; i < 4; i++)
            n[i] = strtoul(at, &at, 16);
        at += *at == '\n';
        wanted[wanted_count] = (struct wanted){.segment = n[0], .site = n[1], .address = n[2], .size = n[3]};
    }
    is_looking = true;
}

/* By saved frame pointers, from the function that called into the runtime at `return_address`. */
static void take_stack(struct stack *s, const void *return_address)
{
    uintptr_t *frame = __builtin_frame_address(0), *next;

    for (s->n = 0; s->n < DEEPEST; frame = next) {
        next = (uintptr_t *)frame[0];
        if (s->n || frame[1] == (uintptr_t)return_address) {
            s->at[s->n] = frame[1] - 1 - load_address;
            s->base[s->n++] = (uintptr_t)next;
        }
        if (next <= frame || (uintptr_t)(next + 2) > stack_low + stack_bytes)
            break;
    }
}

static void tell(const char *format, ...)
{
    char text[128];
    va_list numbers;
    uintptr_t kept_span = span;
    bool was_recording = recording;

    recording = false; /* what is called here is wrapped, and no part of the run */
    span = UINTPTR_MAX;
    va_start(numbers, format);
    int n = vsnprintf(text, sizeof text, format, numbers);
    va_end(numbers);
    recording = was_recording;
    span = kept_span;
    syscall(SYS_write, out, text, (size_t)n); /* `write` is wrapped, and dprintf takes memory */
}

static void tell_stack(const struct stack *s)
{
    tell("stack");
    for (int i = 0; i < s->n; i++)
        tell(" %lx:%lx", s->at[i], s->base[i]);
    tell("\n");
}

/* The run is over: as many lines as in the first run, or it took another way. */
void end_of_look(void) { tell("end %lx\n", lines_written()); }

/* A block of the heap gets an owner. */
void look_at_block(uintptr_t block, uintptr_t size, const void *return_address)
{
    for (int i = 0; i < wanted_count; i++)
        if (wanted[i].address - block < size && !wanted[i].is_told) {
            wanted[i].block = block;
            wanted[i].block_size = size;
            take_stack(&wanted[i].allocation, return_address);
        }
}

void look_at_access(uintptr_t address, uintptr_t size, const void *return_address)
{
    uint64_t site = site_before(return_address);
    struct stack s;
    for (int i = 0; i < wanted_count; i++) {
        struct wanted *w = &wanted[i];
        if (w->segment != segment || w->site != site || w->is_told || w->address >= address + size
            || address >= w->address + w->size)
            continue;
        w->is_told = true;
        take_stack(&s, return_address);
        tell("access %d %lx\n", i, address > w->address ? address : w->address);
        tell_stack(&s);
        if (w->block) {
            tell("block %lx %lx\n", w->block, w->block_size);
            tell_stack(&w->allocation);
        }
    }
}

/*
 * The runtime of the recorder. `cilkrec` links it into the programs that it compiles; it watches their serial run and
 * writes a trace of it (docs/TRACES.md). It calls libc alone, and is itself compiled without instrumentation.
 *
 * Three sources of calls meet here:
 *   - the compiler's hooks for each access (-fsanitize=thread of gcc, -fsanitize=address of clang; no sanitizer library
 *     is linked), for each function's begin and end (-finstrument-functions), and for the turns of a `cilk_for`, which
 *     is compiled as OpenMP's taskloop;
 *   - the marks that spawn_marks.py puts round spawned calls, scopes and keyword reducers;
 *   - the allocator and a few functions of libc, which are wrapped.
 *
 * Two rules keep the trace small and change no verdict. While no frame on the stack has a child since its last sync,
 * nothing can race with an access, so none is written. And below the deepest frame that has one, the stack belongs to
 * the current strand alone, so accesses to it aren't written. `span` holds both rules in one comparison.
 *
 * trace.c writes lines and keeps the filter, frames.c follows calls, spawns and exceptions, accesses.c has reads,
 * writes, the heap and reducers, libc.c models of libc's functions, by models.h, vectors.c loads and stores by masks,
 * loops.c `cilk_for`, places.c names of functions and places, late.c what a recording can't hold, others.c calls of
 * libraries, classes.c those of libstdc++'s classes, look.c the second run of `cilkrec run`, start.c begins and ends
 * the recording. calls.cc is gcc's plugin, containers.cc libstdc++'s trees and lists; they are compiled apart.
 */
#ifndef CILKREC_RECORDER_H
#define CILKREC_RECORDER_H

#include <stdbool.h>
#include <stddef.h>
#include <stdint.h>
#include <stdio.h>

#define likely(x) __builtin_expect(!!(x), 1)
#define unlikely(x) __builtin_expect(!!(x), 0)
#define RETURN_ADDRESS __builtin_return_address(0)
/* On x86-64 the caller's frame ends 16 bytes above its frame pointer: the saved pointer and the return address. */
#define END_OF_FRAME(level) ((uintptr_t)__builtin_frame_address(level) + 16)

/* All that this file declares is the runtime's own, so it is reached directly, also with -fPIC. */
#pragma GCC visibility push(hidden)

extern char __executable_start[], etext[];

#define span cilkrec_span
#define stack_low cilkrec_stack_low

/* ---- trace.c: the open trace. */

extern bool recording;           /* a trace is open, and its run is whole so far */
extern uintptr_t load_address;   /* of the program */
extern uintptr_t stack_low;      /* of the main thread */
extern uintptr_t stack_bytes;
extern uintptr_t span;           /* accesses to [stack_low, stack_low + span) aren't written; all of it: none is */
extern bool is_writing;          /* the runtime's own calls of libc are no part of the run */
extern uintptr_t own_low, own_size; /* thread-local variables, errno among them: each thread has its own */
extern unsigned char *used_sites; /* a bit for each byte of the program's text, or NULL */

/* Says why the trace can't be whole, and records no more. The program goes on. */
void give_up(const char *format, ...) __attribute__((format(printf, 1, 2)));
void *zeroed(size_t bytes);
bool open_trace(const char *path, bool as_binary);
bool close_trace(void);
void write_pages(const char *path);
uint64_t lines_written(void);
void flush_buffer(void);
void print_counts(void);

enum kind { READ, WRITE, CLEAR };
enum reducer_event { CREATE, UPDATE, VALUE, RETIRE };
void put_enter(uint64_t site);
void put_spawned(void);
void put_called(void);
void put_sync(void);
void put_end(void);
void put_unseen(uint64_t site);
void put_cells(enum kind kind, uintptr_t address, uint64_t size, uint64_t site);
void clear_stack(uintptr_t low, uintptr_t high);
uintptr_t named_page(uintptr_t from, uintptr_t to);

/* A place of the text that accesses memory: one record for each, in the program's data (inline.py). */
struct site {
    struct site *writer;         /* the place that writes what this one has just read, as in `x += 1` */
    uint32_t number, run_number; /* of its kinds of lines: one access, a run; 0: not declared yet */
    uintptr_t from, to;          /* the run at hand, not written yet: neighbours in one page */
    uint64_t what;               /* size << 8 | kind */
    uint64_t place;              /* 0: no run is at hand */
    uint32_t first_number, first_count; /* of lines as long as its first run */
};
void begin_run(struct site *s, uintptr_t address, const void *return_address);
void lengthen_down(struct site *s, uintptr_t address);

/* The filter: a word for each eight bytes, at their address with bit 45 changed: the strand's number << 16, then the
   bytes that it wrote, then those that it read or wrote. */
extern uint64_t cilkrec_now; /* the current strand's number << 16 | 0xFFFF */
extern uint64_t strand;      /* its number */
extern uint64_t segment;     /* the lines so far, but for those of accesses, reducers and unseen code */
extern bool is_all_written;  /* CILKREC_ALL: no filter, no runs */
static inline void forget_strand(void) { cilkrec_now += 1 << 16; }
bool open_filter(void);
static inline uint64_t *shadow(uintptr_t address) { return (uint64_t *)((address & ~(uintptr_t)7) ^ (uintptr_t)1 << 45); }
void put_reducer(enum reducer_event event, uint32_t reducer, uint64_t site);

/* Sites: places in the program's text, as addr2line takes them; 0 is a place elsewhere. */
static inline uint64_t site_at(uintptr_t address)
{
    uintptr_t offset = address - (uintptr_t)__executable_start;

    if (offset >= (uintptr_t)(etext - __executable_start))
        return 0;
    if (used_sites)
        used_sites[offset / 8] |= (unsigned char)(1 << offset % 8);
    return address - load_address;
}

/* Of a call's return address: the last byte of the call. */
static inline uint64_t site_before(const void *return_address) { return site_at((uintptr_t)return_address - 1); }

/* ---- frames.c: one frame for each function on the stack, each scope, each loop and its current turn. */

struct frame {
    uintptr_t base;      /* the frame pointer of its function, or of the one that it is part of */
    uintptr_t top;       /* the end of its part of the stack */
    uintptr_t low;       /* the lowest address of the stack that it is known to have had */
    uintptr_t span;      /* what `span` is while this is the current frame */
    uintptr_t function;
    uintptr_t mark;      /* of the current spawn: the child owns the stack below */
    uintptr_t shared_low; /* and from here to the mark with its parent, which made temporaries there; 0: nothing */
    bool own_stack;      /* a function or a turn; scopes and loops are part of their function's */
    bool written;        /* its `enter` is in the trace. Functions that never spawn stay out of it */
    bool parallel;       /* it has had a spawned child since its last sync */
    bool kept;           /* accesses to its part of the stack may be in the trace */
    bool spawning;       /* between the marks of a spawn */
    bool tail;           /* .. and the call that may be the spawned one has ended; its line isn't written yet */
    bool candidate;      /* its parent was spawning as it began */
    bool spawned;        /* a turn */
    bool has_body;       /* .. whose body has told its frame pointer */
    bool scope;
};

enum { MOST_FRAMES = 1 << 20 };
extern struct frame *frames; /* frames[0] is the root */
extern int depth;
extern uint64_t passed_by_exceptions;

extern int cilkrec_spawning;      /* frames[depth].spawning and .base, for the code that inline.py puts in */
extern uintptr_t cilkrec_base;
extern struct frame *top;
extern unsigned cilkrec_special; /* accesses need a closer look: reducers, a spawned call's end, a second run, no filter */
unsigned reducers_at_hand(void);
struct frame *ensure_frame(uintptr_t base, uintptr_t place);
void set_mirrors(void);
void set_parallel_from(uintptr_t lowest);
struct frame *push(uintptr_t base, uintptr_t top, uintptr_t function);
void end_frame(void);
void begin_candidate(uint64_t site);

/* ---- accesses.c, places.c, libc.c, classes.c */

void retire_locals(void);
bool library_begin(const void *at);
void *copied(void *to, const void *from, size_t n);
bool is_followed(const char *name, const uint64_t *arguments, const void *at);
void library_end(bool is_frame);
void library_calls(bool spawning);
void library_access(enum kind kind, const void *p, uint64_t size, const void *at);
bool follows_spawned_call(uintptr_t function);
bool is_stripped(void);
bool guarded_variable(uintptr_t guard, uintptr_t *address, size_t *size);
const char *place_of_site(uint64_t site);
const char *readable_name(const char *name);
extern bool is_unseen_wanted;
void keep_unseen(const char *what, uint64_t site);
const char *unseen_at(uint64_t site);
void tell_reads_of_reducers(void);
void print_calls(void);
void write_sites(const char *path);
void *new_block(void *p, const void *return_address);

/* ---- look.c */

extern bool is_looking;
void begin_to_look(const char *path);
void end_of_look(void);
void look_at_access(uintptr_t address, uintptr_t size, const void *return_address);
void look_at_block(uintptr_t block, uintptr_t size, const void *return_address);

#pragma GCC visibility pop

#endif

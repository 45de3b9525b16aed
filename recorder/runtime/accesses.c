/* Reads and writes: of the program's own text, and of the heap; and reducers. */
#define _GNU_SOURCE
#include <errno.h>
#include <malloc.h>
#include <stdlib.h>
#include <string.h>
#include "recorder.h"

extern void *__libc_realloc(void *, size_t);

/* ---- Reducers. Those of classes hold their number; those by keyword are variables, known by their addresses. */

enum { MOST_REDUCERS = 4096 };
struct reducer { uintptr_t from, to; uint32_t number; int depth; uint64_t read_at, read_in; };
struct reducers { struct reducer at[MOST_REDUCERS]; int n; uintptr_t from, to; };
static struct reducers global_reducers, local_reducers;
static uint32_t reducer_count;
static int operations; /* on views of classes, that are being done */

static int guards; /* initialisers of functions' static variables that run */
unsigned reducers_at_hand(void) { return global_reducers.n + local_reducers.n + operations + guards; }

/* The program's own call, by its return address, of a function of `cilk/reducer.h`. Those aren't instrumented, so the
   frame below which they lie is the current one. */
static const void *call_of_reducer(const void *innermost)
{
    uintptr_t *at = __builtin_frame_address(0), *next;

    for (int i = 0; i < 8; i++, at = next) {
        next = (uintptr_t *)at[0];
        if ((uintptr_t)next == frames[depth].base)
            return (const void *)at[1];
        if (next <= at || (uintptr_t)(next + 2) > frames[0].top)
            break;
    }
    return innermost;
}

/* A read of a keyword reducer may be the first half of an update: it is if a write comes in the same strand. Else it takes
 * the view's value; which one that is depends on the schedule, and is told as unseen. */
static void end_read(struct reducer *r, bool is_update)
{
    if (r->read_at && !(is_update && r->read_in == strand))
        keep_unseen("the value of a reducer", r->read_at);
    r->read_at = 0;
}

void tell_reads_of_reducers(void)
{
    for (int i = 0; i < global_reducers.n; i++)
        end_read(&global_reducers.at[i], false);
    for (int i = 0; i < local_reducers.n; i++)
        end_read(&local_reducers.at[i], false);
}

static void reducer_event(enum reducer_event event, uint32_t number, const void *return_address)
{
    if (recording && number)
        put_reducer(event, number, site_before(call_of_reducer(return_address)));
}

uint32_t cilkrec_reducer_create(void)
{
    if (!recording)
        return 0;
    reducer_event(CREATE, ++reducer_count, RETURN_ADDRESS);
    return reducer_count;
}

/* An operation on the view of a class's object. Till its end no access is written: its view is no shared memory. */
void cilkrec_operation_begin(uint32_t number)
{
    operations++;
    set_mirrors();
    if (span != UINTPTR_MAX)
        reducer_event(UPDATE, number, RETURN_ADDRESS);
}
void cilkrec_operation_end(void) { operations--; set_mirrors(); }
void cilkrec_reducer_value(uint32_t number) { reducer_event(VALUE, number, RETURN_ADDRESS); }
void cilkrec_reducer_retire(uint32_t number) { reducer_event(RETIRE, number, RETURN_ADDRESS); }

/* A keyword reducer begins: again and again where its declaration is in a loop. */
static void add_reducer(struct reducers *list, uintptr_t address, size_t size, uint64_t site)
{
    int i = 0;

    while (i < list->n && list->at[i].from != address)
        i++;
    if (i == MOST_REDUCERS) {
        give_up("more than %d reducers are alive", MOST_REDUCERS);
        return;
    }
    if (i < list->n)
        end_read(&list->at[i], false), put_reducer(RETIRE, list->at[i].number, site);
    else
        list->n++;
    set_mirrors();
    list->at[i] = (struct reducer){.from = address, .to = address + size, .number = ++reducer_count, .depth = depth};
    if (list->n == 1 || address < list->from)
        list->from = address;
    if (list->n == 1 || address + size > list->to)
        list->to = address + size;
    put_reducer(CREATE, reducer_count, site);
}

void cilkrec_reducer_local(void *address, size_t size)
{
    if (recording)
        ensure_frame((uintptr_t)__builtin_frame_address(1), (uintptr_t)RETURN_ADDRESS - 1);
    if (recording)
        add_reducer(&local_reducers, (uintptr_t)address, size, site_before(RETURN_ADDRESS));
}

void cilkrec_reducer_global(void *address, size_t size)
{
    if (recording)
        add_reducer(&global_reducers, (uintptr_t)address, size, site_before(RETURN_ADDRESS));
}

/* Those of the current frame end with it. */
void retire_locals(void)
{
    while (local_reducers.n && local_reducers.at[local_reducers.n - 1].depth >= depth) {
        struct reducer *r = &local_reducers.at[--local_reducers.n];
        end_read(r, false);
        put_reducer(RETIRE, r->number, 0);
    }
}

static struct reducer *find_reducer(struct reducers *list, uintptr_t address)
{
    if (address - list->from < list->to - list->from)
        for (int i = 0; i < list->n; i++)
            if (address - list->at[i].from < list->at[i].to - list->at[i].from)
                return &list->at[i];
    return NULL;
}

/* ---- A function's static variable is made by the first strand that comes, and others wait for it: what its initialiser
 * does to it, and to memory that it allocates, comes before all that they do. */

struct guarded { uintptr_t from, to; };
static struct guarded *guarded; /* in the order of their begins */
static size_t guarded_count, guarded_room;
extern char __data_start[], _end[]; /* of the program's static variables */

/* How many begin at an address or below it. */
static size_t guarded_up_to(uintptr_t address)
{
    size_t low = 0, high = guarded_count;

    while (low < high) {
        size_t middle = (low + high) / 2;
        if (guarded[middle].from <= address)
            low = middle + 1;
        else
            high = middle;
    }
    return low;
}

static bool is_guarded(uintptr_t address)
{
    size_t n = guarded_up_to(address);

    return n && address < guarded[n - 1].to;
}

static bool has_guarded_room(void)
{
    if (guarded_count < guarded_room)
        return true;
    size_t room = guarded_room ? 2 * guarded_room : 256;
    struct guarded *more = __libc_realloc(guarded, room * sizeof *more);
    if (!more) {
        give_up("no memory");
        return false;
    }
    guarded = more;
    guarded_room = room;
    return true;
}

static void add_guarded(uintptr_t address, size_t size)
{
    size_t n = guarded_up_to(address);

    if (n && guarded[n - 1].from == address) { /* a block that was freed */
        guarded[n - 1].to = address + size;
        return;
    }
    if (!has_guarded_room())
        return;
    for (size_t i = guarded_count++; i > n; i--)
        guarded[i] = guarded[i - 1];
    guarded[n] = (struct guarded){address, address + size};
}

/* Whether an initialiser's access isn't written. What it writes to other static variables comes before all uses by
   those that wait for it; others may use them too, so that is told. */
static bool is_first_use(enum kind kind, uintptr_t address, const void *return_address)
{
    if (is_guarded(address))
        return true;
    if (kind != WRITE || address - (uintptr_t)__data_start >= (uintptr_t)(_end - __data_start))
        return false;
    keep_unseen("what a static variable's initialiser writes elsewhere", site_before(return_address));
    return true;
}

extern int __real___cxa_guard_acquire(uint64_t *guard) __attribute__((weak));
extern void __real___cxa_guard_release(uint64_t *guard) __attribute__((weak));
extern void __real___cxa_guard_abort(uint64_t *guard) __attribute__((weak));
int __wrap___cxa_guard_acquire(uint64_t *guard)
{
    int result = __real___cxa_guard_acquire(guard);
    uintptr_t address;
    size_t size;

    if (result && recording && span != UINTPTR_MAX) {
        guards++;
        set_mirrors();
        if (guarded_variable((uintptr_t)guard, &address, &size))
            add_guarded(address, size);
    }
    return result;
}

static void leave_guard(void)
{
    if (!guards)
        return;
    if (--guards == 0)
        guarded_count = 0;
    set_mirrors();
}
void __wrap___cxa_guard_release(uint64_t *guard) { leave_guard(); __real___cxa_guard_release(guard); }
void __wrap___cxa_guard_abort(uint64_t *guard) { leave_guard(); __real___cxa_guard_abort(guard); }

/* ---- Accesses. */

/* Marks an access in the filter; whether the current strand made one before, to all these bytes, that was as strong. */
static inline bool repeats(enum kind kind, uintptr_t address, uint64_t size)
{
    bool all = true;

    if (unlikely(is_all_written))
        return false;
    while (size) {
        unsigned offset = address & 7, n = size < 8 - offset ? (unsigned)size : 8 - offset, m = ((1u << n) - 1) << offset;
        uint64_t *word = shadow(address), w = *word, need = kind == WRITE ? m << 8 : m;
        if ((w ^ cilkrec_now) >> 16)
            w = cilkrec_now & ~0xFFFFull;
        all &= (w & need) == need;
        *word = w | need | m;
        address += n;
        size -= n;
    }
    return all;
}

/* Whether an access isn't written, whatever the filter says. */
static bool is_other(enum kind kind, uintptr_t address, const void *return_address)
{
    if (address - own_low < own_size || unlikely(guards && is_first_use(kind, address, return_address)))
        return true;
    if (unlikely(global_reducers.n + local_reducers.n + operations)) {
        if (operations)
            return true;
        struct reducer *r = find_reducer(&local_reducers, address);
        if (!r)
            r = find_reducer(&global_reducers, address);
        if (r) {
            if (kind == WRITE || r->read_in != strand)
                end_read(r, kind == WRITE);
            if (kind == WRITE)
                put_reducer(UPDATE, r->number, site_before(return_address));
            else
                r->read_at = site_before(return_address), r->read_in = strand;
            return true;
        }
    }
    /* After the spawned call its parent reads where the result goes; it has found that before the spawn. */
    return unlikely(frames[depth].tail) && kind == READ;
}

static inline void access_cells(enum kind kind, uintptr_t address, uint64_t size, const void *return_address)
{
    if (address - stack_low < span || is_other(kind, address, return_address) || repeats(kind, address, size))
        return;
    if (unlikely(is_looking))
        look_at_access(address, size, return_address);
    put_cells(kind, address, size, site_before(return_address));
}

/* Whether an access that isn't one word's plain one is dealt with here. */
static __attribute__((noinline)) bool is_odd(uintptr_t address, const struct site *s, const void *return_address)
{
    unsigned size = (unsigned)s->what >> 8;
    enum kind kind = (enum kind)(s->what & 1);

    if (is_other(kind, address, return_address))
        return true;
    if (unlikely(is_looking))
        look_at_access(address, size, return_address);
    if ((address & 7) + size <= 8 && !is_all_written)
        return false;
    if (!repeats(kind, address, size))
        put_cells(kind, address, size, site_before(return_address));
    return true;
}

/* The first access, in its strand, of a place that doesn't lengthen its run upward. */
static __attribute__((noinline)) void other_run(uintptr_t address, struct site *s, const void *return_address)
{
    if (unlikely(address - own_low < own_size))
        return;
    if (address + (s->what >> 8) == s->from && s->from % 4096)
        lengthen_down(s, address);
    else
        begin_run(s, address, return_address);
}

/* What the fast path (inline.py) doesn't leave out. */
static inline void mark_and_keep(uintptr_t address, struct site *s, unsigned size, bool is_write, const void *return_address)
{
    uint64_t *word = shadow(address), w = *word, now = cilkrec_now;
    uint64_t m = ((1u << size) - 1) * (is_write ? 257ull : 1) << (size < 8 ? address & 7 : 0);
    if ((w ^ now) >> 16)
        w = now & ~0xFFFFull;
    *word = w | m;
    if (likely(address == s->to && address % 4096))
        s->to += size;
    else
        other_run(address, s, return_address);
}
static __attribute__((noinline)) void odd(uintptr_t address, struct site *s, const void *return_address)
{
    if (!is_odd(address, s, return_address))
        mark_and_keep(address, s, (unsigned)s->what >> 8, s->what & WRITE, return_address);
}
static inline void slow(uintptr_t address, struct site *s, unsigned size, bool is_write, const void *return_address)
{
    if (unlikely(cilkrec_special || (address & (size - 1))))
        odd(address, s, return_address);
    else
        mark_and_keep(address, s, size, is_write, return_address);
}
#define SLOW(SIZE) \
    void cilkrec_read##SIZE(uintptr_t p, struct site *s) { slow(p, s, SIZE, false, RETURN_ADDRESS); } \
    void cilkrec_write##SIZE(uintptr_t p, struct site *s) { slow(p, s, SIZE, true, RETURN_ADDRESS); }
SLOW(1) SLOW(2) SLOW(4) SLOW(8)
void cilkrec_slow(uintptr_t p, struct site *s) { slow(p, s, (unsigned)s->what >> 8, s->what & WRITE, RETURN_ADDRESS); }

#define READ_HOOK(NAME, N) void NAME(void *p) { access_cells(READ, (uintptr_t)p, N, RETURN_ADDRESS); }
#define WRITE_HOOK(NAME, N) void NAME(void *p) { access_cells(WRITE, (uintptr_t)p, N, RETURN_ADDRESS); }
#define BOTH_HOOK(NAME, N) \
    void NAME(void *p) \
    { \
        access_cells(READ, (uintptr_t)p, N, RETURN_ADDRESS); \
        access_cells(WRITE, (uintptr_t)p, N, RETURN_ADDRESS); \
    }
#define HOOKS(N) \
    READ_HOOK(__tsan_read##N, N) WRITE_HOOK(__tsan_write##N, N) \
    READ_HOOK(__tsan_unaligned_read##N, N) WRITE_HOOK(__tsan_unaligned_write##N, N) \
    READ_HOOK(__tsan_volatile_read##N, N) WRITE_HOOK(__tsan_volatile_write##N, N) \
    READ_HOOK(__tsan_unaligned_volatile_read##N, N) WRITE_HOOK(__tsan_unaligned_volatile_write##N, N) \
    BOTH_HOOK(__tsan_read_write##N, N) BOTH_HOOK(__tsan_unaligned_read_write##N, N) \
    READ_HOOK(__asan_load##N, N) WRITE_HOOK(__asan_store##N, N)
HOOKS(1) HOOKS(2) HOOKS(4) HOOKS(8) HOOKS(16)

#define RANGE_HOOK(NAME, KIND) void NAME(void *p, size_t n) { access_cells(KIND, (uintptr_t)p, n, RETURN_ADDRESS); }
RANGE_HOOK(__tsan_read_range, READ) RANGE_HOOK(__tsan_write_range, WRITE)
RANGE_HOOK(__asan_loadN, READ) RANGE_HOOK(__asan_storeN, WRITE)

RANGE_HOOK(cilkrec_load_here, READ) /* of clang's text, where its sanitizer doesn't tell */

READ_HOOK(__tsan_vptr_read, 8)
void __tsan_vptr_update(void *p, void *value)
{
    (void)value;
    access_cells(WRITE, (uintptr_t)p, 8, RETURN_ADDRESS);
}

/* What the two sanitizers call besides. */
void __tsan_init(void) {}
void __tsan_func_entry(void *p) { (void)p; }
void __tsan_func_exit(void) {}
void __asan_init(void) {}
void __asan_version_mismatch_check_v8(void) {}
void __asan_handle_no_return(void) {}
void __asan_before_dynamic_init(const char *module) { (void)module; }
void __asan_after_dynamic_init(void) {}

/* The result of a spawned call is written: the child's last act, also where the call itself had no frame. */
void cilkrec_spawn_into(void *place, size_t size)
{
    if (!recording)
        return;
    if (!frames[depth].tail) {
        begin_candidate(site_before(RETURN_ADDRESS));
        frames[depth].tail = true;
        set_mirrors();
    }
    access_cells(WRITE, (uintptr_t)place, size, RETURN_ADDRESS);
}

/* ---- For models.h: functions of libraries. Spawned directly they are frames, too. */

static bool begin_library_call(const void *return_address)
{
    if (likely(!recording || !frames[depth].spawning || frames[depth].tail))
        return false;
    begin_candidate(site_before(return_address));
    return true;
}

static void end_library_call(bool is_frame)
{
    if (is_frame) {
        frames[depth].tail = true;
        set_mirrors();
    }
}

bool library_begin(const void *at) { return begin_library_call(at); }
void library_end(bool is_frame) { end_library_call(is_frame); }
void library_calls(bool spawning)
{
    frames[depth].spawning = spawning;
    set_mirrors();
}
void library_access(enum kind kind, const void *p, uint64_t size, const void *at)
{
    if (size)
        access_cells(kind, (uintptr_t)p, size, at);
}

/* ---- The heap: an allocation is of new cells, and freeing a block counts as a write of it. */

extern void *__libc_malloc(size_t);
extern void *__libc_calloc(size_t, size_t);
extern void *__libc_memalign(size_t, size_t);
extern void __libc_free(void *);

void *new_block(void *p, const void *return_address)
{
    if (unlikely(is_looking) && p)
        look_at_block((uintptr_t)p, malloc_usable_size(p), return_address);
    if (p && recording && span != UINTPTR_MAX) {
        put_cells(CLEAR, (uintptr_t)p, malloc_usable_size(p), 0);
        if (unlikely(guards))
            add_guarded((uintptr_t)p, malloc_usable_size(p));
    }
    return p;
}

static void old_block(void *p, const void *return_address)
{
    if (p && recording)
        access_cells(WRITE, (uintptr_t)p, malloc_usable_size(p), return_address);
}

void *malloc(size_t n) { return new_block(__libc_malloc(n), RETURN_ADDRESS); }
void *calloc(size_t n, size_t size) { return new_block(__libc_calloc(n, size), RETURN_ADDRESS); }
void *memalign(size_t alignment, size_t n) { return new_block(__libc_memalign(alignment, n), RETURN_ADDRESS); }
void *aligned_alloc(size_t alignment, size_t n) { return new_block(__libc_memalign(alignment, n), RETURN_ADDRESS); }

enum { PAGE = 4096 };
void *valloc(size_t n) { return new_block(__libc_memalign(PAGE, n), RETURN_ADDRESS); }
void *pvalloc(size_t n) { return new_block(__libc_memalign(PAGE, (n + PAGE - 1) & -(size_t)PAGE), RETURN_ADDRESS); }

int posix_memalign(void **place, size_t alignment, size_t n)
{
    void *p = new_block(__libc_memalign(alignment, n), RETURN_ADDRESS);

    if (!p)
        return ENOMEM;
    *place = p;
    return 0;
}

/* Spawned directly they are frames; not where a library calls them. */
static bool begin_heap_call(const void *return_address)
{
    uintptr_t offset = (uintptr_t)return_address - (uintptr_t)__executable_start;

    return offset < (uintptr_t)(etext - __executable_start) && begin_library_call(return_address);
}

/* A block that stays where it is stays the same cells: a read by the old pointer races with this. */
void *realloc(void *p, size_t n)
{
    bool is_frame = begin_heap_call(RETURN_ADDRESS);
    size_t before = p ? malloc_usable_size(p) : 0;

    old_block(p, RETURN_ADDRESS);
    char *q = __libc_realloc(p, n);
    if (q != p)
        new_block(q, RETURN_ADDRESS);
    else if (q && recording && span != UINTPTR_MAX && malloc_usable_size(q) > before)
        put_cells(CLEAR, (uintptr_t)q + before, malloc_usable_size(q) - before, 0);
    end_library_call(is_frame);
    return q;
}

void free(void *p)
{
    bool is_frame = begin_heap_call(RETURN_ADDRESS);

    old_block(p, RETURN_ADDRESS);
    __libc_free(p);
    end_library_call(is_frame);
}

/* Of C++ the operators that allocate, for the place of a block's allocation. */
extern void *__real__Znwm(size_t) __attribute__((weak)), *__real__Znam(size_t) __attribute__((weak));
static void *told_block(void *p, const void *return_address)
{
    if (unlikely(is_looking) && p)
        look_at_block((uintptr_t)p, malloc_usable_size(p), return_address);
    return p;
}
void *__wrap__Znwm(size_t n) { return told_block(__real__Znwm(n), RETURN_ADDRESS); }
void *__wrap__Znam(size_t n) { return told_block(__real__Znam(n), RETURN_ADDRESS); }

/* Of C++ the operators that free, so that their writes have the program's own places. */
void __wrap__ZdlPv(void *p) { old_block(p, RETURN_ADDRESS); __libc_free(p); }
void __wrap__ZdaPv(void *p) { old_block(p, RETURN_ADDRESS); __libc_free(p); }
void __wrap__ZdlPvm(void *p, size_t n) { (void)n; old_block(p, RETURN_ADDRESS); __libc_free(p); }
void __wrap__ZdaPvm(void *p, size_t n) { (void)n; old_block(p, RETURN_ADDRESS); __libc_free(p); }

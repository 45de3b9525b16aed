/* Frames of the serial run: functions, spawned calls, scopes, and what exceptions leave of them. */
#include "recorder.h"

struct frame *frames;
int depth;
uint64_t passed_by_exceptions;

int cilkrec_spawning;
struct frame *top;
unsigned cilkrec_special;
uintptr_t cilkrec_base = UINTPTR_MAX;

void set_mirrors(void)
{
    top = &frames[depth];
    cilkrec_spawning = frames[depth].spawning;
    cilkrec_base = frames[depth].base;
    cilkrec_special = top->tail + reducers_at_hand() + is_looking + is_all_written;
}

static uintptr_t span_of(int i) { return i == 0 ? UINTPTR_MAX : frames[i - 1].span; }

/* The stack of the current function reaches down to `address` at least. */
static void note_low(uintptr_t address)
{
    for (int i = depth; i >= 0; i--) {
        if (address < frames[i].low)
            frames[i].low = address;
        if (frames[i].own_stack)
            break;
    }
}

struct frame *push(uintptr_t base, uintptr_t top, uintptr_t function)
{
    if (unlikely(depth + 1 >= MOST_FRAMES)) {
        give_up("more than %d calls are open", MOST_FRAMES);
        return &frames[depth];
    }
    struct frame *parent = &frames[depth], *f = &frames[++depth];
    *f = (struct frame){.base = base, .function = function};
    f->own_stack = top < parent->top;
    f->top = f->low = f->own_stack ? top : parent->top;
    if (f->own_stack) {
        depth--;
        note_low(f->top);
        depth++;
    }
    f->span = span = span_of(depth);
    set_mirrors();
    return f;
}

/* The current frame gets a child that may run beside what follows. Its part of the stack ends at `lowest`: what is below
   belongs to one strand alone. */
void set_parallel_from(uintptr_t lowest)
{
    frames[depth].parallel = true;
    frames[depth].span = span = lowest - stack_low;
    for (int i = depth; i >= 0 && !frames[i].kept; i--)
        frames[i].kept = true;
}

static void set_serial(void)
{
    frames[depth].parallel = false;
    frames[depth].span = span = span_of(depth);
}

/* Ends a function's frame, or what an exception left of one. */
void end_frame(void)
{
    enum { RED_ZONE = 128 };
    const struct frame *f = &frames[depth];

    retire_locals();
    passed_by_exceptions += f->spawning;
    if (f->tail)
        put_spawned();
    if (f->parallel)
        put_sync();
    depth--;
    span = frames[depth].span;
    if (f->candidate)
        frames[depth].tail = true;
    set_mirrors();
    if (f->kept && f->own_stack && span != UINTPTR_MAX)
        clear_stack(f->low - RED_ZONE, f->top);
    if (!f->candidate && f->spawned)
        put_spawned();
    else if (!f->candidate && f->written)
        put_called();
}

/* Ends frames that lie below the function with this frame pointer: an exception went past them. */
static void unwind_below(uintptr_t base)
{
    while (depth > 0 && frames[depth].base < base)
        end_frame();
}

/* ---- Spawns. The last call between the marks is the spawned one: the others are calls in its arguments. */

void begin_candidate(uint64_t site)
{
    if (frames[depth].tail) {
        put_called();
        frames[depth].tail = false;
        set_mirrors();
    }
    put_enter(site);
}

/* The current spawn is over, by its second mark or because an exception went past that. */
static void end_spawn(void)
{
    struct frame *f = &frames[depth];

    if (f->tail)
        put_spawned();
    if (f->shared_low)
        clear_stack(f->shared_low, f->mark);
    if (f->shared_low)
        set_parallel_from(f->mark);
    f->shared_low = 0;
    f->tail = f->spawning = false;
    set_mirrors();
}

static void end_passed_spawn(void)
{
    if (frames[depth].spawning) {
        passed_by_exceptions++;
        end_spawn();
    }
}

/* Whether the current frame is that of the function with this frame pointer. A loop's body, which has no hooks, is called
   by the function that makes its turns: its frame is the turn's. */
static bool has_frame(uintptr_t base)
{
    struct frame *f = &frames[depth];

    if (f->spawned && !f->has_body && *(uintptr_t *)base == f->base) {
        f->base = base;
        f->has_body = true;
        set_mirrors();
    }
    return f->base == base;
}

/* The frame of the function with this frame pointer, made if it has none yet. */
struct frame *ensure_frame(uintptr_t base, uintptr_t place)
{
    unwind_below(base);
    if (!has_frame(base))
        push(base, base + 16, place);
    return &frames[depth];
}

static struct frame *begin_spawn(uintptr_t base, uintptr_t place, uintptr_t mark, uintptr_t lowest)
{
    struct frame *f = ensure_frame(base, place);
    end_passed_spawn();
    if (!f->written) {
        put_enter(site_at(f->function));
        f->written = true;
    }
    f->mark = mark;
    f->spawning = true;
    note_low(lowest);
    set_parallel_from(lowest);
    set_mirrors();
    return f;
}

size_t cilkrec_spawn_begin(void)
{
    if (recording)
        begin_spawn((uintptr_t)__builtin_frame_address(1), (uintptr_t)RETURN_ADDRESS - 1, END_OF_FRAME(0), END_OF_FRAME(0));
    return 0;
}

/* The same in C++, called in the lambda that the spawned call and its arguments are in. That has no frame here; the function
 * that it lies in is its caller. */
void cilkrec_spawn_inside(void)
{
    if (!recording)
        return;
    uintptr_t *lambda = __builtin_frame_address(1);
    unwind_below((uintptr_t)lambda);
    begin_spawn(lambda[0], lambda[1] - 1, END_OF_FRAME(1), END_OF_FRAME(0))->shared_low = END_OF_FRAME(0);
}

void *cilkrec_same(void *function) { return function; }

void cilkrec_spawn_end(void)
{
    if (recording)
        end_spawn();
}

static void sync_current(void)
{
    end_passed_spawn();
    if (frames[depth].parallel)
        put_sync();
    set_serial();
}

void cilkrec_sync(void)
{
    if (!recording)
        return;
    unwind_below((uintptr_t)__builtin_frame_address(1));
    if (has_frame((uintptr_t)__builtin_frame_address(1)))
        sync_current();
}

/* ---- Functions. */

/* A function began while a spawn's statement runs: the spawned one, a call in its arguments, or one that follows it. */
static void begin_function(uintptr_t base, uintptr_t function, const void *call_site)
{
    uintptr_t top = base + 16;
    struct frame *parent = &frames[depth];

    if (!parent->spawning)
        return;
    if (parent->tail && follows_spawned_call(function)) {
        push(base, top, function); /* so that what it calls is no candidate */
        return;
    }
    begin_candidate(site_before(call_site));
    struct frame *f = push(base, parent->mark > top ? parent->mark : top, function);
    f->written = f->candidate = true;
}

void __cyg_profile_func_enter(void *function, void *call_site)
{
    uintptr_t base = (uintptr_t)__builtin_frame_address(1);

    if (likely(!cilkrec_spawning && base < cilkrec_base) || !recording)
        return;
    unwind_below(base + 1);
    begin_function(base, (uintptr_t)function, call_site);
}

void __cyg_profile_func_exit(void *function, void *call_site)
{
    (void)function;
    (void)call_site;
    uintptr_t base = (uintptr_t)__builtin_frame_address(1);
    if (likely(base < cilkrec_base) || !recording)
        return;
    unwind_below(base);
    if (depth == 0 || frames[depth].base != base)
        return;
    while (frames[depth].scope)
        end_frame();
    end_frame();
}

/* The same of a function that gcc put into another one: their frame pointer is one. It has a frame only where it is
   spawned. */
void cilkrec_inlined_enter(void *function, void *call_site)
{
    uintptr_t base = (uintptr_t)__builtin_frame_address(1);

    (void)call_site; /* that of the other one */
    if (likely(!cilkrec_spawning) || !recording)
        return;
    unwind_below(base);
    begin_function(base, (uintptr_t)function, RETURN_ADDRESS);
}

void cilkrec_inlined_exit(void *function, void *call_site)
{
    uintptr_t base = (uintptr_t)__builtin_frame_address(1);

    (void)call_site;
    if (likely(base < cilkrec_base) || !recording)
        return;
    unwind_below(base);
    while (depth > 0 && frames[depth].base == base && frames[depth].function == (uintptr_t)function) {
        bool is_scope = frames[depth].scope;
        end_frame();
        if (!is_scope)
            return;
    }
}

int cilkrec_scope_begin(void)
{
    if (recording) {
        put_enter(site_before(RETURN_ADDRESS));
        struct frame *f = push((uintptr_t)__builtin_frame_address(1), UINTPTR_MAX, frames[depth].function);
        f->written = f->scope = true;
    }
    return 0;
}

/* The cleanup of a variable, so it is called on each way out of the scope. */
void cilkrec_scope_end(int *variable)
{
    (void)variable;
    if (!recording)
        return;
    unwind_below((uintptr_t)__builtin_frame_address(1));
    note_low((uintptr_t)__builtin_frame_address(0));
    if (frames[depth].scope && frames[depth].base == (uintptr_t)__builtin_frame_address(1))
        end_frame();
}

/* The cleanup of a variable beside a `return`: its value is made, and the function's variables aren't destroyed yet. What was
 * spawned may use them, so the sync at the function's end, and at that of its scopes, comes now. */
void cilkrec_leave(int *variable)
{
    uintptr_t base = (uintptr_t)__builtin_frame_address(1);

    (void)variable;
    if (!recording)
        return;
    unwind_below(base);
    while (frames[depth].scope && frames[depth].base == base)
        end_frame();
    if (has_frame(base))
        sync_current();
}

/* The handler of an exception runs in the function that called this, after a sync of it. clang's functions don't tell
 * that they were left. */
extern void *__real___cxa_begin_catch(void *) __attribute__((weak));
void *__wrap___cxa_begin_catch(void *exception)
{
    uintptr_t base = (uintptr_t)__builtin_frame_address(1);

    if (recording) {
        unwind_below(base);
        if (has_frame(base))
            sync_current();
    }
    return __real___cxa_begin_catch(exception);
}

/* Jumps leave frames without their ends. */
#define REFUSED_JUMP(NAME) \
    extern void __real_##NAME(void *, int) __attribute__((noreturn)); \
    __attribute__((noreturn)) void __wrap_##NAME(void *to, int value) \
    { \
        if (recording) \
            give_up("the program called " #NAME); \
        __real_##NAME(to, value); \
    }
REFUSED_JUMP(longjmp)
REFUSED_JUMP(_longjmp)
REFUSED_JUMP(siglongjmp)

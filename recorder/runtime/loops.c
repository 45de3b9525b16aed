/* The turns of `cilk_for`, which the compiler makes OpenMP's taskloop of. */
#include <alloca.h>
#include <stdlib.h>
#include "recorder.h"

extern void *__libc_calloc(size_t, size_t);
extern void __libc_free(void *);

/* ---- cilk_for: a called frame that spawns each of its turns and then syncs. */

static void begin_loop(uintptr_t base, const void *return_address)
{
    put_enter(site_before(return_address));
    push(base, UINTPTR_MAX, frames[depth].function)->written = true;
    set_parallel_from(base);
}

static void begin_turn(uintptr_t base, const void *return_address)
{
    put_enter(site_before(return_address));
    struct frame *f = push(base, base, frames[depth].function);
    f->written = f->spawned = true;
}

/* gcc's loops: the body takes a copy of `data`, whose first two words say which turns to make. */
static __attribute__((noinline)) void make_turns(void (*body)(void *), void *data, void (*copy)(void *, void *),
                                                 long size, long alignment, bool up, uint64_t from, uint64_t to,
                                                 uint64_t step, const void *return_address)
{
    uintptr_t base = (uintptr_t)__builtin_frame_address(0);
    uint64_t left = up ? to - from : from - to, stride = up ? step : -step;
    char *room = alloca((size_t)(size + alignment));
    uint64_t *argument = (uint64_t *)(((uintptr_t)room + (uintptr_t)alignment - 1) & -(uintptr_t)alignment);

    if (recording)
        begin_loop(base, return_address);
    while (left) {
        if (copy)
            copy(argument, data);
        else
            copied(argument, data, (size_t)size);
        argument[0] = from;
        from = argument[1] = left > stride ? from + step : to;
        left = left > stride ? left - stride : 0;
        if (recording)
            begin_turn(base, return_address);
        body(argument);
        if (recording)
            end_frame();
    }
    if (recording)
        end_frame();
}

enum { COUNTS_UP = 1 << 8 };
void GOMP_taskloop(void (*body)(void *), void *data, void (*copy)(void *, void *), long size, long alignment,
                   unsigned flags, unsigned long tasks, int priority, long from, long to, long step)
{
    (void)tasks, (void)priority;
    if (flags & COUNTS_UP ? from < to : from > to)
        make_turns(body, data, copy, size, alignment, flags & COUNTS_UP, (uint64_t)from, (uint64_t)to, (uint64_t)step,
                   RETURN_ADDRESS);
}

void GOMP_taskloop_ull(void (*body)(void *), void *data, void (*copy)(void *, void *), long size, long alignment,
                       unsigned flags, unsigned long tasks, int priority, unsigned long long from,
                       unsigned long long to, unsigned long long step)
{
    (void)tasks, (void)priority;
    if (flags & COUNTS_UP ? from < to : from > to)
        make_turns(body, data, copy, size, alignment, flags & COUNTS_UP, from, to, step, RETURN_ADDRESS);
}

/* clang's loops: a task whose bounds are set for each turn. */
struct kmp_task {
    void *shared;
    int (*body)(int, struct kmp_task *);
    int part;
    void *data1, *data2;
    uint64_t from, to;
    int64_t stride;
    int last;
    void *reductions;
};

int __kmpc_global_thread_num(void *place) { (void)place; return 0; }
void __kmpc_taskgroup(void *place, int thread) { (void)place, (void)thread; }
void __kmpc_end_taskgroup(void *place, int thread) { (void)place, (void)thread; }

struct kmp_task *__kmpc_omp_task_alloc(void *place, int thread, int flags, size_t size, size_t shared,
                                       int (*body)(int, struct kmp_task *))
{
    (void)place, (void)thread, (void)flags;
    size = (size + 63) & ~(size_t)63;
    struct kmp_task *task = new_block(__libc_calloc(1, size + shared + 64), RETURN_ADDRESS);
    if (!task)
        abort();
    task->shared = (char *)task + size;
    task->body = body;
    return task;
}

__attribute__((noinline)) void __kmpc_taskloop(void *place, int thread, struct kmp_task *task, int condition,
                                               uint64_t *from, uint64_t *to, int64_t stride, int no_group,
                                               int schedule, uint64_t grain, void *duplicate)
{
    (void)place, (void)thread, (void)condition, (void)stride, (void)no_group, (void)schedule, (void)grain;
    (void)duplicate;
    const void *return_address = RETURN_ADDRESS;
    uintptr_t base = (uintptr_t)__builtin_frame_address(0);
    int64_t last = (int64_t)*to;
    /* clang 14 counts turns by 32 bits without a sign: a loop of none has -1 or less as its last one. */
    if (last > INT32_MAX && last <= UINT32_MAX)
        last = -1;
    if ((int64_t)*from <= last) {
        if (recording)
            begin_loop(base, return_address);
        for (int64_t i = (int64_t)*from; i <= last; i++) {
            task->from = task->to = (uint64_t)i;
            if (recording)
                begin_turn(base, return_address);
            task->body(0, task);
            if (recording)
                end_frame();
        }
        if (recording)
            end_frame();
    }
    __libc_free(task);
}

/* What a recording can't hold, found as it runs: atomic operations, inline assembly, operations of vectors by masks of AVX-512.
 * Where nothing is parallel they change no verdict. Elsewhere each place of them is a line `unseen`, as that of a call
 * without a model is: what they read and write isn't in the trace, nor what they order. */
#include "recorder.h"

static void unseen_here(const char *what, const void *return_address)
{
    if (recording && span != UINTPTR_MAX && !is_writing)
        keep_unseen(what, site_before(return_address));
}

static void atomic_at(const void *return_address)
{
    if (unlikely(span != UINTPTR_MAX))
        unseen_here("an atomic operation", return_address);
}

/* Of clang's text, before an atomic operation. */
void cilkrec_atomic_here(void) { atomic_at(RETURN_ADDRESS); }

/* Before an operation of the processor whose addresses aren't plain. */
void cilkrec_vector_here(void)
{
    if (unlikely(span != UINTPTR_MAX))
        unseen_here("an operation of vectors by a mask", RETURN_ADDRESS);
}

/* Before inline assembly. It changes no register, since some may hold what the assembly takes. */
__attribute__((used)) void assembly_ran(const void *return_address) { unseen_here("inline assembly", return_address); }
__asm__(".pushsection .text\n"
        ".globl cilkrec_assembly_here\n"
        ".type cilkrec_assembly_here, @function\n"
        "cilkrec_assembly_here:\n"
        "  pushq %rax\n"
        "  movq cilkrec_parallel(%rip), %rax\n"
        "  notq %rax\n"
        "  testq %rax, %rax\n"
        "  jz 1f\n"
        "  pushq %rbp\n"
        "  movq %rsp, %rbp\n"
        "  pushq %rcx\n  pushq %rdx\n  pushq %rsi\n  pushq %rdi\n  pushq %r8\n  pushq %r9\n  pushq %r10\n  pushq %r11\n"
        "  subq $528, %rsp\n"
        "  andq $-16, %rsp\n"
        "  fxsave (%rsp)\n"
        "  movq 16(%rbp), %rdi\n"
        "  call assembly_ran\n"
        "  fxrstor (%rsp)\n"
        "  leaq -64(%rbp), %rsp\n"
        "  popq %r11\n  popq %r10\n  popq %r9\n  popq %r8\n  popq %rdi\n  popq %rsi\n  popq %rdx\n  popq %rcx\n"
        "  popq %rbp\n"
        "1:\n"
        "  popq %rax\n"
        "  ret\n"
        ".size cilkrec_assembly_here, .-cilkrec_assembly_here\n"
        ".popsection\n");

/* ---- gcc's atomic operations are calls. They are made, as they would be without a recording. */

#define OPERATION(BITS, TYPE, NAME, BUILTIN) \
    TYPE __tsan_atomic##BITS##_##NAME(volatile TYPE *p, TYPE value, int order) \
    { \
        (void)order; \
        atomic_at(RETURN_ADDRESS); \
        return BUILTIN(p, value, __ATOMIC_SEQ_CST); \
    }
#define EXCHANGES(BITS, TYPE, NAME, WEAK) \
    int __tsan_atomic##BITS##_compare_exchange_##NAME(volatile TYPE *p, TYPE *expected, TYPE value, int order, int other) \
    { \
        (void)order, (void)other; \
        atomic_at(RETURN_ADDRESS); \
        return __atomic_compare_exchange_n(p, expected, value, WEAK, __ATOMIC_SEQ_CST, __ATOMIC_SEQ_CST); \
    }
#define ATOMICS(BITS, TYPE) \
    void __tsan_atomic##BITS##_store(volatile TYPE *p, TYPE value, int order) \
    { \
        (void)order; \
        atomic_at(RETURN_ADDRESS); \
        __atomic_store_n(p, value, __ATOMIC_SEQ_CST); \
    } \
    OPERATION(BITS, TYPE, exchange, __atomic_exchange_n) OPERATION(BITS, TYPE, fetch_add, __atomic_fetch_add) \
    OPERATION(BITS, TYPE, fetch_sub, __atomic_fetch_sub) OPERATION(BITS, TYPE, fetch_and, __atomic_fetch_and) \
    OPERATION(BITS, TYPE, fetch_or, __atomic_fetch_or) OPERATION(BITS, TYPE, fetch_xor, __atomic_fetch_xor) \
    OPERATION(BITS, TYPE, fetch_nand, __atomic_fetch_nand) EXCHANGES(BITS, TYPE, strong, 0) EXCHANGES(BITS, TYPE, weak, 1) \
    TYPE __tsan_atomic##BITS##_compare_exchange_val(volatile TYPE *p, TYPE expected, TYPE value, int order, int other) \
    { \
        (void)order, (void)other; \
        atomic_at(RETURN_ADDRESS); \
        __atomic_compare_exchange_n(p, &expected, value, 0, __ATOMIC_SEQ_CST, __ATOMIC_SEQ_CST); \
        return expected; \
    }
#define LOADS(BITS, TYPE) \
    TYPE __tsan_atomic##BITS##_load(const volatile TYPE *p, int order) \
    { \
        (void)order; \
        atomic_at(RETURN_ADDRESS); \
        return __atomic_load_n(p, __ATOMIC_SEQ_CST); \
    }
ATOMICS(8, unsigned char) ATOMICS(16, uint16_t) ATOMICS(32, uint32_t) ATOMICS(64, uint64_t)
LOADS(16, uint16_t) LOADS(32, uint32_t) LOADS(64, uint64_t)
LOADS(8, unsigned char)

/* Of the guard of a function's static variable: cilkrec puts this name in its place. */
unsigned char cilkrec_guard_load(const volatile unsigned char *p, int order)
{
    (void)order;
    return __atomic_load_n(p, __ATOMIC_SEQ_CST);
}

void __tsan_atomic_thread_fence(int order) { (void)order; atomic_at(RETURN_ADDRESS); __atomic_thread_fence(__ATOMIC_SEQ_CST); }
void __tsan_atomic_signal_fence(int order) { (void)order; }

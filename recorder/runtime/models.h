/* What models of functions of libraries use: each tells what the function reads before it is called, and what it wrote
 * after. Nothing here calls a function of libc that is wrapped. */
#ifndef CILKREC_MODELS_H
#define CILKREC_MODELS_H

#include <errno.h>
#include <wchar.h>
#include "recorder.h"

#define R(P, N) library_access(READ, (P), (uint64_t)(N), at);
#define W(P, N) library_access(WRITE, (P), (uint64_t)(N), at);
#define RS(S) if (S) R(S, length(S) + 1)
#define RSN(S, N) R(S, text_part(S, N))
#define RF(F) if (F) R(F, 1)
#define W1(P) if (P) W(P, sizeof *(P))
#define R1(P) if (P) R(P, sizeof *(P))

static size_t length(const char *s)
{
    size_t n = 0;

    while (s[n])
        n++;
    return n;
}

static size_t wide_length(const wchar_t *s)
{
    size_t n = 0;

    while (s[n])
        n++;
    return n;
}

/* How much of a string of at most `most` bytes is read: with its end, if that is in it. */
static size_t text_part(const char *s, size_t most)
{
    size_t n = 0;

    while (n < most && s[n])
        n++;
    return n < most ? n + 1 : most;
}

static size_t wide_part(const wchar_t *s, size_t most)
{
    size_t n = 0;

    while (n < most && s[n])
        n++;
    return n < most ? n + 1 : most;
}

static char small(char c) { return c >= 'A' && c <= 'Z' ? (char)(c + 32) : c; }

/* How much a comparison of at most `most` bytes reads of both. */
static size_t compared(const char *a, const char *b, size_t most, bool any_case)
{
    size_t n = 0;

    while (n < most && a[n] && (a[n] == b[n] || (any_case && small(a[n]) == small(b[n]))))
        n++;
    return n < most ? n + 1 : most;
}

static bool is_space(char c) { return c == ' ' || (c >= '\t' && c <= '\r'); }

/* How much of a text the functions that turn one into a number read: the number and what stops it. */
static size_t number_part(const char *s)
{
    size_t n = 0;

    while (is_space(s[n]))
        n++;
    if (s[n] == '+' || s[n] == '-')
        n++;
    while (s[n] >= '0' && s[n] <= '9')
        n++;
    return n + 1;
}

#define MODEL_AS(TYPE, NAME, REAL, PARAMETERS, ARGUMENTS, BEFORE, AFTER) \
    extern TYPE __real_##NAME PARAMETERS __attribute__((weak)); \
    TYPE __wrap_##NAME PARAMETERS \
    { \
        const void *at = RETURN_ADDRESS; \
        bool is_frame = library_begin(at), is_seen = span != UINTPTR_MAX; \
        if (is_seen) { BEFORE } \
        TYPE result = REAL ARGUMENTS; \
        if (is_seen) { int error = errno; AFTER errno = error; } \
        library_end(is_frame); \
        return result; \
    }
#define MODEL(TYPE, NAME, PARAMETERS, ARGUMENTS, BEFORE, AFTER) \
    MODEL_AS(TYPE, NAME, __real_##NAME, PARAMETERS, ARGUMENTS, BEFORE, AFTER)
#define NOTHING(NAME, PARAMETERS, ARGUMENTS, BEFORE, AFTER) \
    extern void __real_##NAME PARAMETERS __attribute__((weak)); \
    void __wrap_##NAME PARAMETERS \
    { \
        const void *at = RETURN_ADDRESS; \
        bool is_frame = library_begin(at), is_seen = span != UINTPTR_MAX; \
        if (is_seen) { BEFORE } \
        __real_##NAME ARGUMENTS; \
        if (is_seen) { int error = errno; AFTER errno = error; } \
        library_end(is_frame); \
    }

#endif

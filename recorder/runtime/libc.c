/* Functions of libc by what they read and write of the program's memory. Each line is a model; cilkrec wraps them all,
 * but for those that the program defines itself, so that no `__real_` need be there.
 *
 * Reads are told before the call, writes after it, where their number is known. Strings are read up to where the
 * function stops to look. A stream is read by each operation on it, which its own lock orders, and written by fclose,
 * which frees it. Names of files and formats are read as strings. */
#define _GNU_SOURCE
#include <stdarg.h>
#include <stdlib.h>
#include <string.h>
#include <sys/mman.h>
#include <sys/resource.h>
#include <sys/stat.h>
#include <sys/time.h>
#include <sys/times.h>
#include <sys/uio.h>
#include <sys/utsname.h>
#include <time.h>
#include <unistd.h>
#include "models.h"

/* ---- string.h, strings.h, wchar.h */

/* Compilers call these for structures, too, so they are needed where a program has its own by these names. */
void *copied(void *to, const void *from, size_t n)
{
    char *t = to;
    const char *f = from;

    if (t <= f)
        for (size_t i = 0; i < n; i++)
            t[i] = f[i];
    else
        for (size_t i = n; i > 0; i--)
            t[i - 1] = f[i - 1];
    return to;
}

static void *filled(void *to, int value, size_t n)
{
    for (size_t i = 0; i < n; i++)
        ((char *)to)[i] = (char)value;
    return to;
}

#define REAL(NAME, OTHER) (__real_##NAME ? __real_##NAME : OTHER)
MODEL_AS(void *, memcpy, REAL(memcpy, copied), (void *to, const void *from, size_t n), (to, from, n),
         R(from, n) W(to, n), )
MODEL_AS(void *, memmove, REAL(memmove, copied), (void *to, const void *from, size_t n), (to, from, n),
         R(from, n) W(to, n), )
MODEL_AS(void *, memset, REAL(memset, filled), (void *to, int value, size_t n), (to, value, n), W(to, n), )
void *__asan_memcpy(void *to, const void *from, size_t n) __attribute__((alias("__wrap_memcpy")));
void *__asan_memmove(void *to, const void *from, size_t n) __attribute__((alias("__wrap_memmove")));
void *__asan_memset(void *to, int value, size_t n) __attribute__((alias("__wrap_memset")));
MODEL(int, memcmp, (const void *a, const void *b, size_t n), (a, b, n), R(a, n) R(b, n), )
MODEL(size_t, strlen, (const char *s), (s), , R(s, result + 1))
MODEL(int, strcmp, (const char *a, const char *b), (a, b),
      size_t k = compared(a, b, SIZE_MAX, false); R(a, k) R(b, k), )
MODEL(char *, strcpy, (char *to, const char *from), (to, from), size_t k = length(from) + 1; R(from, k) W(to, k), )
#define REACHED(S, N) R(S, result ? (const char *)result - (const char *)(S) + 1 : (N))
MODEL(void *, memchr, (const void *s, int c, size_t n), (s, c, n), , REACHED(s, n))
MODEL(void *, memrchr, (const void *s, int c, size_t n), (s, c, n), R(s, n), )
MODEL(void *, rawmemchr, (const void *s, int c), (s, c), , REACHED(s, 0))
MODEL(void *, memmem, (const void *s, size_t n, const void *t, size_t m), (s, n, t, m), R(s, n) R(t, m), )
MODEL(void *, mempcpy, (void *to, const void *from, size_t n), (to, from, n), R(from, n) W(to, n), )
MODEL(void *, memccpy, (void *to, const void *from, int c, size_t n), (to, from, c, n), ,
      size_t k = result ? (size_t)((char *)result - (char *)to) : n; R(from, k) W(to, k))
MODEL(int, bcmp, (const void *a, const void *b, size_t n), (a, b, n), R(a, n) R(b, n), )
NOTHING(bcopy, (const void *from, void *to, size_t n), (from, to, n), R(from, n) W(to, n), )
NOTHING(bzero, (void *to, size_t n), (to, n), W(to, n), )
NOTHING(explicit_bzero, (void *to, size_t n), (to, n), W(to, n), )
MODEL(char *, strchr, (const char *s, int c), (s, c), , REACHED(s, length(s) + 1))
MODEL(char *, index, (const char *s, int c), (s, c), , REACHED(s, length(s) + 1))
MODEL(char *, strchrnul, (const char *s, int c), (s, c), , REACHED(s, length(s) + 1))
MODEL(char *, strrchr, (const char *s, int c), (s, c), RS(s), )
MODEL(char *, rindex, (const char *s, int c), (s, c), RS(s), )
MODEL(char *, strstr, (const char *s, const char *t), (s, t), RS(t), R(s, result ? result - s + length(t) : length(s) + 1))
MODEL(char *, strcasestr, (const char *s, const char *t), (s, t), RS(t), R(s, result ? result - s + length(t) : length(s) + 1))
MODEL(size_t, strnlen, (const char *s, size_t n), (s, n), RSN(s, n), )
MODEL(int, strncmp, (const char *a, const char *b, size_t n), (a, b, n),
      size_t k = compared(a, b, n, false); R(a, k) R(b, k), )
MODEL(int, strcasecmp, (const char *a, const char *b), (a, b), size_t k = compared(a, b, SIZE_MAX, true); R(a, k) R(b, k), )
MODEL(int, strncasecmp, (const char *a, const char *b, size_t n), (a, b, n),
      size_t k = compared(a, b, n, true); R(a, k) R(b, k), )
MODEL(int, strcoll, (const char *a, const char *b), (a, b), RS(a) RS(b), )
MODEL(size_t, strxfrm, (char *to, const char *from, size_t n), (to, from, n), RS(from), if (result < n) W(to, result + 1))
MODEL(char *, strncpy, (char *to, const char *from, size_t n), (to, from, n), RSN(from, n) W(to, n), )
MODEL(char *, stpcpy, (char *to, const char *from), (to, from), RS(from) W(to, length(from) + 1), )
MODEL(char *, stpncpy, (char *to, const char *from, size_t n), (to, from, n), RSN(from, n) W(to, n), )
MODEL(char *, strcat, (char *to, const char *from), (to, from),
      RS(from) RS(to) W(to + length(to), length(from) + 1), )
MODEL(char *, strncat, (char *to, const char *from, size_t n), (to, from, n),
      size_t k = text_part(from, n); R(from, k) RS(to) W(to + length(to), k && !from[k - 1] ? k : k + 1), )
MODEL(size_t, strspn, (const char *s, const char *set), (s, set), RS(set), R(s, result + 1))
MODEL(size_t, strcspn, (const char *s, const char *set), (s, set), RS(set), R(s, result + 1))
MODEL(char *, strpbrk, (const char *s, const char *set), (s, set), RS(set), REACHED(s, length(s) + 1))
MODEL(char *, strdup, (const char *s), (s), RS(s), )
MODEL(char *, __strdup, (const char *s), (s), RS(s), )
MODEL(char *, strndup, (const char *s, size_t n), (s, n), RSN(s, n), )
static bool has(const char *signs, char c)
{
    while (*signs && *signs != c)
        signs++;
    return *signs;
}

/* The next word of a text: it is read up to the delimiter behind it, which is written. What is left after it. */
static char *tell_word(const char *s, const char *set, const void *at)
{
    size_t from = 0, to;

    RS(set)
    while (s[from] && has(set, s[from]))
        from++;
    for (to = from; s[to] && !has(set, s[to]); to++)
        ;
    R(s, to + 1)
    if (to > from && s[to])
        W(s + to, 1)
    return (char *)s + to + (to > from && s[to]);
}
/* What lies between two calls is kept in libc: a cell of its own stands for it. */
static char strtok_state, *strtok_left;
extern char *__real_strtok(char *, const char *) __attribute__((weak));
char *__wrap_strtok(char *s, const char *set)
{
    const void *at = RETURN_ADDRESS;
    bool is_frame = library_begin(at);
    char *from = s ? s : strtok_left;

    W(&strtok_state, 1)
    if (from)
        strtok_left = tell_word(from, set, at);
    char *result = __real_strtok(s, set);
    library_end(is_frame);
    return result;
}
#define WORDS(NAME) \
    MODEL(char *, NAME, (char *s, const char *set, char **left), (s, set, left), \
          if (!s) R1(left) W1(left) if (s || *left) tell_word(s ? s : *left, set, at);, )
WORDS(strtok_r) WORDS(__strtok_r)
MODEL(char *, strsep, (char **s, const char *set), (s, set), RS(set) R1(s),
      W1(s) if (result) { R(result, length(result) + 1) if (*s) W(*s - 1, 1) })
MODEL(char *, strerror_r, (int error_number, char *to, size_t n), (error_number, to, n), , if (result == to) W(to, length(to) + 1))
MODEL(int, __xpg_strerror_r, (int error_number, char *to, size_t n), (error_number, to, n), , W(to, text_part(to, n)))

#define WIDE(N) ((N) * sizeof(wchar_t))
MODEL(size_t, wcslen, (const wchar_t *s), (s), R(s, WIDE(wide_length(s) + 1)), )
MODEL(wchar_t *, wcscpy, (wchar_t *to, const wchar_t *from), (to, from),
      size_t k = WIDE(wide_length(from) + 1); R(from, k) W(to, k), )
MODEL(wchar_t *, wcsncpy, (wchar_t *to, const wchar_t *from, size_t n), (to, from, n),
      R(from, WIDE(wide_part(from, n))) W(to, WIDE(n)), )
MODEL(wchar_t *, wcscat, (wchar_t *to, const wchar_t *from), (to, from),
      size_t k = WIDE(wide_length(from) + 1); R(from, k) R(to, WIDE(wide_length(to) + 1)) W(to + wide_length(to), k), )
MODEL(int, wcscmp, (const wchar_t *a, const wchar_t *b), (a, b),
      size_t k = 0; while (a[k] && a[k] == b[k]) k++; R(a, WIDE(k + 1)) R(b, WIDE(k + 1)), )
MODEL(int, wcsncmp, (const wchar_t *a, const wchar_t *b, size_t n), (a, b, n),
      size_t k = 0; while (k < n && a[k] && a[k] == b[k]) k++; if (k < n) k++; R(a, WIDE(k)) R(b, WIDE(k)), )
MODEL(wchar_t *, wcschr, (const wchar_t *s, wchar_t c), (s, c), ,
      R(s, WIDE((result ? (size_t)(result - s) : wide_length(s)) + 1)))
MODEL(wchar_t *, wcsrchr, (const wchar_t *s, wchar_t c), (s, c), R(s, WIDE(wide_length(s) + 1)), )
MODEL(wchar_t *, wcsdup, (const wchar_t *s), (s), R(s, WIDE(wide_length(s) + 1)), )
MODEL(wchar_t *, wmemcpy, (wchar_t *to, const wchar_t *from, size_t n), (to, from, n), R(from, WIDE(n)) W(to, WIDE(n)), )
MODEL(wchar_t *, wmemmove, (wchar_t *to, const wchar_t *from, size_t n), (to, from, n), R(from, WIDE(n)) W(to, WIDE(n)), )
MODEL(wchar_t *, wmempcpy, (wchar_t *to, const wchar_t *from, size_t n), (to, from, n), R(from, WIDE(n)) W(to, WIDE(n)), )
MODEL(wchar_t *, wmemset, (wchar_t *to, wchar_t c, size_t n), (to, c, n), W(to, WIDE(n)), )
MODEL(int, wmemcmp, (const wchar_t *a, const wchar_t *b, size_t n), (a, b, n), R(a, WIDE(n)) R(b, WIDE(n)), )
MODEL(wchar_t *, wmemchr, (const wchar_t *s, wchar_t c, size_t n), (s, c, n), ,
      R(s, WIDE(result ? (size_t)(result - s) + 1 : n)))

/* ---- stdlib.h, math.h */

MODEL(int, atoi, (const char *s), (s), R(s, number_part(s)), )
MODEL(long, atol, (const char *s), (s), R(s, number_part(s)), )
MODEL(long long, atoll, (const char *s), (s), R(s, number_part(s)), )
MODEL(size_t, mbstowcs, (wchar_t *to, const char *from, size_t n), (to, from, n), RS(from),
      if (to && result != (size_t)-1) W(to, WIDE(result < n ? result + 1 : n)))
MODEL(size_t, wcstombs, (char *to, const wchar_t *from, size_t n), (to, from, n), R(from, WIDE(wide_length(from) + 1)),
      if (to && result != (size_t)-1) W(to, result < n ? result + 1 : n))
MODEL(int, mbtowc, (wchar_t *to, const char *from, size_t n), (to, from, n), if (from) RSN(from, n < 6 ? n : 6),
      if (to && result >= 0) W1(to))
MODEL(int, wctomb, (char *to, wchar_t c), (to, c), , if (to && result > 0) W(to, result))
#define NUMBER(TYPE, NAME) \
    extern TYPE __real_##NAME(const char *, char **, int) __attribute__((weak)); \
    TYPE __wrap_##NAME(const char *s, char **end, int base) \
    { \
        const void *at = RETURN_ADDRESS; \
        bool is_frame = library_begin(at); \
        char *after; \
        TYPE result = __real_##NAME(s, &after, base); \
        int error = errno; \
        R(s, after - s + 1) \
        if (end) { *end = after; W1(end) } \
        errno = error; \
        library_end(is_frame); \
        return result; \
    }
NUMBER(long, strtol) NUMBER(long long, strtoll) NUMBER(unsigned long, strtoul) NUMBER(unsigned long long, strtoull)
NUMBER(long, strtoimax) NUMBER(unsigned long, strtoumax)
NUMBER(long, __isoc23_strtol) NUMBER(long long, __isoc23_strtoll)
NUMBER(unsigned long, __isoc23_strtoul) NUMBER(unsigned long long, __isoc23_strtoull)
#define REAL_NUMBER(TYPE, NAME) \
    extern TYPE __real_##NAME(const char *, char **) __attribute__((weak)); \
    TYPE __wrap_##NAME(const char *s, char **end) \
    { \
        const void *at = RETURN_ADDRESS; \
        bool is_frame = library_begin(at); \
        char *after; \
        TYPE result = __real_##NAME(s, &after); \
        int error = errno; \
        R(s, after - s + 1) \
        if (end) { *end = after; W1(end) } \
        errno = error; \
        library_end(is_frame); \
        return result; \
    }
REAL_NUMBER(double, strtod) REAL_NUMBER(float, strtof) REAL_NUMBER(long double, strtold)
MODEL(double, atof, (const char *s), (s),
      char *after = (char *)s + length(s); if (__real_strtod) __real_strtod(s, &after); R(s, after - s + 1), )
MODEL(int, rand_r, (unsigned *seed), (seed), R1(seed) W1(seed), )
extern char **environ;
MODEL(char *, getenv, (const char *name), (name), RS(name) R(&environ, 8), )
MODEL(int, setenv, (const char *name, const char *value, int over), (name, value, over), RS(name) RS(value) W(&environ, 8), )
MODEL(int, unsetenv, (const char *name), (name), RS(name) W(&environ, 8), )
MODEL(int, putenv, (char *text), (text), RS(text) W(&environ, 8), )
MODEL(int, system, (const char *s), (s), RS(s), )
MODEL(int, mkstemp, (char *s), (s), RS(s) W(s, length(s) + 1), )
MODEL(char *, realpath, (const char *path, char *to), (path, to), RS(path), if (result && to) W(to, length(to) + 1))
#define PART_OF(SUFFIX, TYPE) \
    MODEL(TYPE, frexp##SUFFIX, (TYPE x, int *to), (x, to), , W1(to)) \
    MODEL(TYPE, modf##SUFFIX, (TYPE x, TYPE *to), (x, to), , W1(to)) \
    MODEL(TYPE, remquo##SUFFIX, (TYPE x, TYPE y, int *to), (x, y, to), , W1(to)) \
    NOTHING(sincos##SUFFIX, (TYPE x, TYPE *sine, TYPE *cosine), (x, sine, cosine), , W1(sine) W1(cosine)) \
    MODEL(TYPE, lgamma##SUFFIX##_r, (TYPE x, int *to), (x, to), , W1(to))
PART_OF(, double) PART_OF(f, float) PART_OF(l, long double)
extern int signgam __attribute__((weak));
MODEL(double, lgamma, (double x), (x), , if (&signgam) W(&signgam, 4))
MODEL(float, lgammaf, (float x), (x), , if (&signgam) W(&signgam, 4))

/* Functions that call the program's own: those calls are no candidates of a spawn. */
#define CALLING(TYPE, NAME, PARAMETERS, ARGUMENTS, BEFORE) \
    extern TYPE __real_##NAME PARAMETERS __attribute__((weak)); \
    TYPE __wrap_##NAME PARAMETERS \
    { \
        const void *at = RETURN_ADDRESS; \
        bool is_frame = library_begin(at), spawning = frames && frames[depth].spawning; \
        BEFORE \
        if (is_frame) library_calls(false); \
        TYPE result = __real_##NAME ARGUMENTS; \
        if (is_frame) library_calls(spawning); \
        library_end(is_frame); \
        return result; \
    }
CALLING(void *, bsearch, (const void *key, const void *base, size_t n, size_t size, int (*f)(const void *, const void *)),
        (key, base, n, size, f), )
#define SORTING(NAME, PARAMETERS, ARGUMENTS) \
    extern void __real_##NAME PARAMETERS __attribute__((weak)); \
    void __wrap_##NAME PARAMETERS \
    { \
        const void *at = RETURN_ADDRESS; \
        bool is_frame = library_begin(at), spawning = frames && frames[depth].spawning; \
        R(base, n * size) \
        W(base, n * size) \
        if (is_frame) library_calls(false); \
        __real_##NAME ARGUMENTS; \
        if (is_frame) library_calls(spawning); \
        library_end(is_frame); \
    }
SORTING(qsort, (void *base, size_t n, size_t size, int (*f)(const void *, const void *)), (base, n, size, f))
SORTING(qsort_r, (void *base, size_t n, size_t size, int (*f)(const void *, const void *, void *), void *more),
        (base, n, size, f, more))

/* ---- time.h and its kin. Those that return a static result write it. */

MODEL(time_t, time, (time_t *to), (to), , W1(to))
MODEL(int, gettimeofday, (struct timeval *to, void *zone), (to, zone), , W1(to) if (zone) W(zone, 8))
MODEL(int, clock_gettime, (clockid_t id, struct timespec *to), (id, to), , W1(to))
MODEL(int, clock_getres, (clockid_t id, struct timespec *to), (id, to), , W1(to))
MODEL(int, timespec_get, (struct timespec *to, int base), (to, base), , W1(to))
MODEL(time_t, mktime, (struct tm *t), (t), R1(t), W1(t))
MODEL(time_t, timegm, (struct tm *t), (t), R1(t), W1(t))
MODEL(struct tm *, gmtime, (const time_t *t), (t), R1(t), W1(result))
MODEL(struct tm *, localtime, (const time_t *t), (t), R1(t), W1(result))
MODEL(struct tm *, gmtime_r, (const time_t *t, struct tm *to), (t, to), R1(t), W1(to))
MODEL(struct tm *, localtime_r, (const time_t *t, struct tm *to), (t, to), R1(t), W1(to))
MODEL(char *, asctime, (const struct tm *t), (t), R1(t), if (result) W(result, length(result) + 1))
MODEL(char *, ctime, (const time_t *t), (t), R1(t), if (result) W(result, length(result) + 1))
MODEL(char *, asctime_r, (const struct tm *t, char *to), (t, to), R1(t), if (result) W(to, length(to) + 1))
MODEL(char *, ctime_r, (const time_t *t, char *to), (t, to), R1(t), if (result) W(to, length(to) + 1))
MODEL(size_t, strftime, (char *to, size_t n, const char *format, const struct tm *t), (to, n, format, t), RS(format) R1(t),
      if (result) W(to, result + 1))
MODEL(char *, strptime, (const char *s, const char *format, struct tm *t), (s, format, t), RS(format) RS(s), W1(t))
MODEL(int, nanosleep, (const struct timespec *t, struct timespec *left), (t, left), R1(t), if (result) W1(left))
MODEL(clock_t, times, (struct tms *to), (to), , W1(to))
MODEL(int, getrusage, (int who, struct rusage *to), (who, to), , W1(to))

/* ---- unistd.h, fcntl.h, sys/stat.h */

MODEL(ssize_t, read, (int fd, void *to, size_t n), (fd, to, n), , if (result > 0) W(to, result))
MODEL(ssize_t, pread, (int fd, void *to, size_t n, off_t from), (fd, to, n, from), , if (result > 0) W(to, result))
MODEL(ssize_t, pread64, (int fd, void *to, size_t n, off_t from), (fd, to, n, from), , if (result > 0) W(to, result))
MODEL(ssize_t, write, (int fd, const void *from, size_t n), (fd, from, n), R(from, n), )
MODEL(ssize_t, pwrite, (int fd, const void *from, size_t n, off_t to), (fd, from, n, to), R(from, n), )
MODEL(ssize_t, pwrite64, (int fd, const void *from, size_t n, off_t to), (fd, from, n, to), R(from, n), )
MODEL(ssize_t, writev, (int fd, const struct iovec *v, int n), (fd, v, n),
      R(v, (size_t)n * sizeof *v) for (int i = 0; i < n; i++) R(v[i].iov_base, v[i].iov_len), )
MODEL(ssize_t, readv, (int fd, const struct iovec *v, int n), (fd, v, n), R(v, (size_t)n * sizeof *v),
      ssize_t left = result; for (int i = 0; i < n && left > 0; i++) {
          size_t k = (size_t)left < v[i].iov_len ? (size_t)left : v[i].iov_len; W(v[i].iov_base, k) left -= (ssize_t)k; })
/* What is mapped is new memory, and what ends is written, as a block that is freed. Much of it no line may name. */
enum { PAGE_BYTES = 4096 };
static void tell_map(enum kind kind, const void *p, size_t n, const void *at)
{
    uintptr_t from = (uintptr_t)p, to = from + n;

    while (!is_writing && (from = named_page(from, to)) < to) {
        uintptr_t next = from + PAGE_BYTES < to ? from + PAGE_BYTES : to;
        if (kind == CLEAR)
            put_cells(CLEAR, from, next - from, 0);
        else
            W(from, next - from)
        from = next;
    }
}
#define MAPS(NAME) \
    MODEL(void *, NAME, (void *p, size_t n, int how, int flags, int fd, off_t from), (p, n, how, flags, fd, from), , \
          if (result != MAP_FAILED) tell_map(CLEAR, result, n, at);)
MAPS(mmap) MAPS(mmap64)
MODEL(int, munmap, (void *p, size_t n), (p, n), tell_map(WRITE, p, n, at);, )
MODEL(int, pipe, (int *to), (to), , if (!result) W(to, 8))
MODEL(int, stat, (const char *path, struct stat *to), (path, to), RS(path), W1(to))
MODEL(int, lstat, (const char *path, struct stat *to), (path, to), RS(path), W1(to))
MODEL(int, fstat, (int fd, struct stat *to), (fd, to), , W1(to))
MODEL(int, stat64, (const char *path, struct stat *to), (path, to), RS(path), W1(to))
MODEL(int, lstat64, (const char *path, struct stat *to), (path, to), RS(path), W1(to))
MODEL(int, fstat64, (int fd, struct stat *to), (fd, to), , W1(to))
MODEL(int, fstatat, (int at_fd, const char *path, struct stat *to, int flags), (at_fd, path, to, flags), RS(path), W1(to))
MODEL(int, fstatat64, (int at_fd, const char *path, struct stat *to, int flags), (at_fd, path, to, flags), RS(path), W1(to))
MODEL(int, truncate, (const char *path, off_t n), (path, n), RS(path), )
MODEL(int, link, (const char *path, const char *to), (path, to), RS(path) RS(to), )
MODEL(int, symlink, (const char *path, const char *to), (path, to), RS(path) RS(to), )
MODEL(ssize_t, getrandom, (void *to, size_t n, unsigned flags), (to, n, flags), , if (result > 0) W(to, result))
MODEL(int, getentropy, (void *to, size_t n), (to, n), , if (!result) W(to, n))
MODEL(ssize_t, send, (int fd, const void *from, size_t n, int flags), (fd, from, n, flags), R(from, n), )
MODEL(ssize_t, recv, (int fd, void *to, size_t n, int flags), (fd, to, n, flags), , if (result > 0) W(to, result))
MODEL(int, uname, (struct utsname *to), (to), , W1(to))
MODEL(int, gethostname, (char *to, size_t n), (to, n), , W(to, text_part(to, n)))
MODEL(char *, getcwd, (char *to, size_t n), (to, n), , if (result && to) W(to, length(to) + 1))
MODEL(ssize_t, readlink, (const char *path, char *to, size_t n), (path, to, n), RS(path), if (result > 0) W(to, result))
#define PATH(NAME) MODEL(int, NAME, (const char *path), (path), RS(path), )
PATH(unlink) PATH(rmdir) PATH(chdir) PATH(remove)
MODEL(int, access, (const char *path, int mode), (path, mode), RS(path), )
MODEL(int, mkdir, (const char *path, mode_t mode), (path, mode), RS(path), )
MODEL(int, chmod, (const char *path, mode_t mode), (path, mode), RS(path), )
MODEL(int, rename, (const char *path, const char *to), (path, to), RS(path) RS(to), )
MODEL(int, open, (const char *path, int flags, mode_t mode), (path, flags, mode), RS(path), )
MODEL(int, open64, (const char *path, int flags, mode_t mode), (path, flags, mode), RS(path), )

/* ---- stdio.h, but for formats */

MODEL(int, puts, (const char *s), (s), RS(s), )
MODEL(int, fputs, (const char *s, FILE *f), (s, f), RS(s) RF(f), )
MODEL(int, fputc, (int c, FILE *f), (c, f), RF(f), )
MODEL(int, putc, (int c, FILE *f), (c, f), RF(f), )
MODEL(int, _IO_putc, (int c, FILE *f), (c, f), RF(f), )
MODEL(int, fgetc, (FILE *f), (f), RF(f), )
MODEL(int, getc, (FILE *f), (f), RF(f), )
MODEL(int, _IO_getc, (FILE *f), (f), RF(f), )
MODEL(int, ungetc, (int c, FILE *f), (c, f), RF(f), )
MODEL(int, fflush, (FILE *f), (f), RF(f), )
MODEL(int, feof, (FILE *f), (f), RF(f), )
MODEL(int, ferror, (FILE *f), (f), RF(f), )
NOTHING(rewind, (FILE *f), (f), RF(f), )
MODEL(int, fseek, (FILE *f, long to, int from), (f, to, from), RF(f), )
MODEL(long, ftell, (FILE *f), (f), RF(f), )
MODEL(int, fseeko, (FILE *f, off_t to, int from), (f, to, from), RF(f), )
MODEL(int, fseeko64, (FILE *f, off_t to, int from), (f, to, from), RF(f), )
MODEL(off_t, ftello, (FILE *f), (f), RF(f), )
MODEL(off_t, ftello64, (FILE *f), (f), RF(f), )
MODEL(int, fgetpos, (FILE *f, fpos_t *to), (f, to), RF(f), W1(to))
MODEL(int, fsetpos, (FILE *f, const fpos_t *from), (f, from), R1(from) RF(f), )
NOTHING(clearerr, (FILE *f), (f), RF(f), )
MODEL(int, setvbuf, (FILE *f, char *room, int mode, size_t n), (f, room, mode, n), RF(f) if (room) W(room, n), )
MODEL(wint_t, fputwc, (wchar_t c, FILE *f), (c, f), RF(f), )
MODEL(wint_t, putwchar, (wchar_t c), (c), , )
MODEL(int, fputws, (const wchar_t *s, FILE *f), (s, f), R(s, WIDE(wide_length(s) + 1)) RF(f), )
MODEL(wint_t, fgetwc, (FILE *f), (f), RF(f), )
MODEL(wchar_t *, fgetws, (wchar_t *to, int n, FILE *f), (to, n, f), RF(f), if (result) W(to, WIDE(wide_length(to) + 1)))
MODEL(int, fclose, (FILE *f), (f), if (f) W(f, 1), )
MODEL(FILE *, fopen, (const char *path, const char *mode), (path, mode), RS(path) RS(mode), )
MODEL(FILE *, fopen64, (const char *path, const char *mode), (path, mode), RS(path) RS(mode), )
MODEL(FILE *, freopen, (const char *path, const char *mode, FILE *f), (path, mode, f), RS(path) RS(mode) if (f) W(f, 1), )
MODEL(FILE *, fdopen, (int fd, const char *mode), (fd, mode), RS(mode), )
MODEL(size_t, fwrite, (const void *from, size_t size, size_t n, FILE *f), (from, size, n, f), R(from, size * n) RF(f), )
MODEL(size_t, fread, (void *to, size_t size, size_t n, FILE *f), (to, size, n, f), RF(f), W(to, size * result))
MODEL(char *, fgets, (char *to, int n, FILE *f), (to, n, f), RF(f), if (result) W(to, length(to) + 1))
MODEL(ssize_t, getline, (char **to, size_t *n, FILE *f), (to, n, f), R1(to) R1(n) RF(f),
      W1(to) W1(n) if (result >= 0) W(*to, result + 1))
MODEL(ssize_t, getdelim, (char **to, size_t *n, int c, FILE *f), (to, n, c, f), R1(to) R1(n) RF(f),
      W1(to) W1(n) if (result >= 0) W(*to, result + 1))
MODEL(ssize_t, __getdelim, (char **to, size_t *n, int c, FILE *f), (to, n, c, f), R1(to) R1(n) RF(f),
      W1(to) W1(n) if (result >= 0) W(*to, result + 1))
NOTHING(perror, (const char *s), (s), RS(s), )

/* ---- Formats. Arguments are taken twice: first their types by the format, then their values in order. */

enum type { NONE, WORD, LONG_WORD, POINTER, REAL, LONG_REAL };
enum { MOST_ARGUMENTS = 64 };
struct conversion { char sign; int size, argument, width, precision; bool is_long, is_kept; };
struct format { struct conversion at[MOST_ARGUMENTS]; int n; enum type types[MOST_ARGUMENTS + 1]; bool is_known; };
union value { long long word; void *pointer; };

static int digits(const char **p)
{
    int n = 0;

    while (**p >= '0' && **p <= '9' && n < 100000000)
        n = 10 * n + *(*p)++ - '0';
    return n;
}

/* The number of an argument: by `N$`, or the next one. */
static int argument_of(const char **p, int *next)
{
    const char *q = *p;
    int n = digits(&q);

    if (n && *q == '$') {
        *p = q + 1;
        return n;
    }
    return ++*next;
}

static int note_type(struct format *f, int argument, enum type type)
{
    if (argument > MOST_ARGUMENTS || f->n >= MOST_ARGUMENTS)
        f->is_known = false;
    else
        f->types[argument] = type;
    return argument;
}

static void read_format(struct format *f, const char *p, bool scans)
{
    int next = 0;

    *f = (struct format){.is_known = true};
    while (*p && f->is_known) {
        if (*p++ != '%')
            continue;
        if (*p == '%') {
            p++;
            continue;
        }
        struct conversion c = {.size = 4, .width = -1, .precision = -1};
        const char *q = p;
        int given = digits(&q), longs = 0;
        if (given && *q == '$')
            p = q + 1;
        else
            given = 0;
        if (scans) {
            for (; *p == '*' || *p == '\'' || *p == 'I'; p++)
                c.is_kept |= *p == '*';
            if (*p >= '0' && *p <= '9')
                c.width = digits(&p);
        } else {
            while (*p && has("-+ #0'I", *p))
                p++;
            if (*p == '*')
                p++, note_type(f, argument_of(&p, &next), WORD);
            else
                digits(&p);
            if (*p == '.') {
                p++;
                if (*p == '*')
                    p++, c.precision = -1 - note_type(f, argument_of(&p, &next), WORD) - 1;
                else
                    c.precision = digits(&p);
            }
        }
        bool allocates = false;
        for (; *p && has("hlLqjztm", *p); p++) {
            if (*p == 'm' && !scans)
                break;
            allocates |= *p == 'm';
            if (*p == 'h')
                c.size = c.size == 4 ? 2 : 1;
            else if (*p != 'm')
                longs += *p == 'L' || *p == 'q' ? 2 : 1, c.size = 8;
        }
        c.sign = *p ? *p++ : 0;
        c.is_long = longs > 0;
        if (c.sign == '[') {
            p += *p == '^';
            p += *p == ']';
            while (*p && *p != ']')
                p++;
            p += *p == ']';
        }
        if (!c.sign || c.is_kept || (c.sign == 'm' && !scans))
            continue;
        enum type type = WORD;
        if (scans || has("snpS", c.sign))
            type = POINTER;
        else if (has("aAeEfFgG", c.sign))
            type = longs > 1 ? LONG_REAL : REAL;
        else if (c.is_long)
            type = LONG_WORD;
        if (scans && has("aAeEfFgG", c.sign))
            c.size = longs > 1 ? 16 : longs ? 8 : 4;
        if (allocates || (scans && c.sign == 'p'))
            c.sign = 'p', c.size = 8;
        c.argument = note_type(f, given ? given : ++next, type);
        if (f->is_known)
            f->at[f->n++] = c;
    }
}

static void take_values(const struct format *f, va_list *words, union value *values)
{
    for (int i = 1; i <= MOST_ARGUMENTS && f->types[i]; i++)
        switch (f->types[i]) {
        case WORD: values[i].word = va_arg(*words, int); break;
        case LONG_WORD: values[i].word = va_arg(*words, long long); break;
        case POINTER: values[i].pointer = va_arg(*words, void *); break;
        case REAL: (void)va_arg(*words, double); break;
        default: (void)va_arg(*words, long double); break;
        }
}

/* What a function of printf's kind reads, and writes by %n. */
static void printed(const char *format, va_list words, const void *at)
{
    struct format f;
    union value values[MOST_ARGUMENTS + 1];
    va_list copy;

    RS(format)
    read_format(&f, format, false);
    va_copy(copy, words);
    take_values(&f, &copy, values);
    va_end(copy);
    for (int i = 0; i < f.n; i++) {
        const struct conversion *c = &f.at[i];
        void *p = values[c->argument].pointer;
        if (c->sign != 's' && c->sign != 'S' && c->sign != 'n')
            continue;
        int most = c->precision < -1 ? (int)values[-2 - c->precision].word : c->precision;
        if (c->sign == 'n')
            W(p, c->size)
        else if (p && (c->is_long || c->sign == 'S'))
            R(p, WIDE(wide_part(p, most < 0 ? SIZE_MAX : (size_t)most)))
        else if (p)
            R(p, text_part(p, most < 0 ? SIZE_MAX : (size_t)most))
    }
}

/* What a function of scanf's kind wrote: as many as it says. */
static void scanned(const char *format, va_list words, int count, const void *at)
{
    struct format f;
    union value values[MOST_ARGUMENTS + 1];
    va_list copy;
    int done = 0;

    RS(format)
    read_format(&f, format, true);
    va_copy(copy, words);
    take_values(&f, &copy, values);
    va_end(copy);
    for (int i = 0; i < f.n; i++) {
        const struct conversion *c = &f.at[i];
        void *p = values[c->argument].pointer;
        if (c->sign != 'n' && ++done > count)
            break;
        if (c->sign == 'c')
            W(p, (c->width < 0 ? 1 : c->width) * (c->is_long ? 4 : 1))
        else if (c->sign == 's' || c->sign == '[' || c->sign == 'S')
            W(p, c->is_long || c->sign == 'S' ? WIDE(wide_length(p) + 1) : length(p) + 1)
        else
            W(p, c->size)
    }
}

/* A function with `...` and its twin with a list: both by the real twin. */
#define PRINTS(NAME, VNAME, PARAMETERS, EPARAMETERS, ARGUMENTS, BEFORE, AFTER) \
    extern int __real_##VNAME PARAMETERS __attribute__((weak)); \
    int __wrap_##VNAME PARAMETERS \
    { \
        const void *at = RETURN_ADDRESS; \
        bool is_frame = library_begin(at), is_seen = span != UINTPTR_MAX; \
        if (is_seen) { BEFORE printed(format, words, at); } \
        int result = __real_##VNAME ARGUMENTS; \
        if (is_seen) { int error = errno; AFTER errno = error; } \
        library_end(is_frame); \
        return result; \
    } \
    int __wrap_##NAME EPARAMETERS \
    { \
        const void *at = RETURN_ADDRESS; \
        bool is_frame = library_begin(at), is_seen = span != UINTPTR_MAX; \
        va_list words; \
        va_start(words, format); \
        if (is_seen) { BEFORE printed(format, words, at); } \
        int result = __real_##VNAME ARGUMENTS; \
        va_end(words); \
        if (is_seen) { int error = errno; AFTER errno = error; } \
        library_end(is_frame); \
        return result; \
    }
PRINTS(printf, vprintf, (const char *format, va_list words), (const char *format, ...), (format, words), , )
PRINTS(fprintf, vfprintf, (FILE *f, const char *format, va_list words), (FILE *f, const char *format, ...),
       (f, format, words), RF(f), )
PRINTS(dprintf, vdprintf, (int fd, const char *format, va_list words), (int fd, const char *format, ...),
       (fd, format, words), , )
PRINTS(sprintf, vsprintf, (char *to, const char *format, va_list words), (char *to, const char *format, ...),
       (to, format, words), , if (result >= 0) W(to, result + 1))
PRINTS(snprintf, vsnprintf, (char *to, size_t n, const char *format, va_list words),
       (char *to, size_t n, const char *format, ...), (to, n, format, words), ,
       if (result >= 0 && n) W(to, (size_t)result < n ? (size_t)result + 1 : n))
PRINTS(asprintf, vasprintf, (char **to, const char *format, va_list words), (char **to, const char *format, ...),
       (to, format, words), , W1(to))

#define SCANS(NAME, VNAME, PARAMETERS, EPARAMETERS, ARGUMENTS, BEFORE) \
    extern int __real_##VNAME PARAMETERS __attribute__((weak)); \
    int __wrap_##VNAME PARAMETERS \
    { \
        const void *at = RETURN_ADDRESS; \
        bool is_frame = library_begin(at), is_seen = span != UINTPTR_MAX; \
        va_list copy; \
        va_copy(copy, words); \
        if (is_seen) { BEFORE } \
        int result = __real_##VNAME ARGUMENTS, error = errno; \
        if (is_seen) scanned(format, copy, result, at); \
        va_end(copy); \
        errno = error; \
        library_end(is_frame); \
        return result; \
    } \
    int __wrap_##NAME EPARAMETERS \
    { \
        const void *at = RETURN_ADDRESS; \
        bool is_frame = library_begin(at), is_seen = span != UINTPTR_MAX; \
        va_list words, copy; \
        va_start(words, format); \
        va_copy(copy, words); \
        if (is_seen) { BEFORE } \
        int result = __real_##VNAME ARGUMENTS, error = errno; \
        va_end(words); \
        if (is_seen) scanned(format, copy, result, at); \
        va_end(copy); \
        errno = error; \
        library_end(is_frame); \
        return result; \
    }
#define ALL_SCANS(PREFIX) \
    SCANS(PREFIX##scanf, PREFIX##vscanf, (const char *format, va_list words), (const char *format, ...), \
          (format, words), ) \
    SCANS(PREFIX##fscanf, PREFIX##vfscanf, (FILE *f, const char *format, va_list words), \
          (FILE *f, const char *format, ...), (f, format, words), RF(f)) \
    SCANS(PREFIX##sscanf, PREFIX##vsscanf, (const char *s, const char *format, va_list words), \
          (const char *s, const char *format, ...), (s, format, words), RS(s))
ALL_SCANS() ALL_SCANS(__isoc99_) ALL_SCANS(__isoc23_)

/* ---- Of libstdc++: a cast that looks at its object's class; what a hash table asks of its policy of growth, which is a part
 * of it. */

MODEL(void *, __dynamic_cast, (const void *p, const void *from, const void *to, ptrdiff_t hint), (p, from, to, hint), R(p, 8), )

struct need { _Bool is_needed; size_t count; };
MODEL(size_t, _ZNKSt8__detail20_Prime_rehash_policy11_M_next_bktEm, (char *self, size_t n), (self, n), R(self, 4),
      W(self + 8, 8))
MODEL(struct need, _ZNKSt8__detail20_Prime_rehash_policy14_M_need_rehashEmmm, (char *self, size_t a, size_t b, size_t c),
      (self, a, b, c), R(self, 4) R(self + 8, 8), )

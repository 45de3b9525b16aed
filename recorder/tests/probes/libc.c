// Functions of libc that read, beside a spawned write of what they read, and that write, spawned beside an access to it; each
// once on the same memory and once on other memory.
#define _GNU_SOURCE
#include <cilk/cilk.h>
#include <math.h>
#include <stdarg.h>
#include <stdbool.h>
#include <stdio.h>
#include <stdlib.h>
#include <string.h>
#include <strings.h>
#include <sys/stat.h>
#include <sys/time.h>
#include <time.h>
#include <unistd.h>
#include <wchar.h>
#define PROBE(K, CHILD, RACY, FREE) \
  static void child##K(void) { CHILD; } \
  static void probe##K(bool racy) { cilk_spawn child##K(); if (racy) { RACY; } else { FREE; } cilk_sync; }

static char t[16] = "12345 text", t2[16] = "12345 text", u[16] = "12345 other", own[64], b[64] = "xx yy", b2[64];
static wchar_t w[8] = L"wide", w2[8] = L"wide";
static struct tm when, when2;
static union { int i; long l; double d; void *p; struct tm tm; struct timespec ts; struct timeval tv; struct stat st; } x, x2;
static FILE *zero, *null;
static double half;
static long n;
static void change(void) { t[2] = '9', w[1] = L'x', when.tm_mday = 3; }
static void say(const char *format, ...) { va_list a; va_start(a, format); vprintf(format, a); va_end(a); }
static int compare(const void *a, const void *b) { return *(const char *)a - *(const char *)b; }

PROBE(0, change(), printf("%s\n", t), printf("%s\n", t2))
PROBE(1, change(), say("%d %s %5.1f\n", 1, t, 2.0), say("%d %s %5.1f\n", 1, t2, 2.0))
PROBE(2, change(), puts(t), puts(t2))
PROBE(3, change(), fputs(t, stdout), fputs(t2, stdout))
PROBE(4, change(), fwrite(t, 1, 4, stdout), fwrite(t, 1, 2, stdout))
PROBE(5, change(), n = atoi(t), n = atoi(t2))
PROBE(6, change(), n = strtol(t, NULL, 10), n = strtol(t2, NULL, 10))
PROBE(7, change(), n = (long)strtod(t, NULL), n = (long)strtod(t2, NULL))
PROBE(8, change(), n = memchr(t, '4', 8) != NULL, n = memchr(t, '2', 2) != NULL)
PROBE(9, change(), n = strchr(t, '5') != NULL, n = strchr(t, '2') != NULL)
PROBE(10, change(), n = strrchr(t, '1') != NULL, n = strrchr(t2, '1') != NULL)
PROBE(11, change(), n = strncmp(t, u, 4), n = strncmp(t, u, 2))
PROBE(12, change(), n = strstr(t, "text") != NULL, n = strstr(t2, "text") != NULL)
PROBE(13, change(), strncpy(own, t, 9), strncpy(own, t, 2))
PROBE(14, change(), strcat(own, t), strcat(own, t2))
PROBE(15, change(), n = snprintf(own, 64, "%2$s %1$d", 4, t), n = snprintf(own, 64, "%2$s %1$d", 4, t2))
PROBE(16, change(), sscanf(t, "%ld", &n), sscanf(t2, "%ld", &n))
PROBE(17, change(), free(strdup(t)), free(strdup(t2)))
PROBE(18, change(), n = write(1, t, 3), n = write(1, t, 2))
PROBE(19, change(), n = getenv(t) != NULL, n = getenv(t2) != NULL)
PROBE(20, change(), n = (long)wcslen(w), n = (long)wcslen(w2))
PROBE(21, change(), n = mktime(&when), n = mktime(&when2))
PROBE(22, change(), n = bsearch("\1", t, 10, 1, compare) != NULL, n = bsearch("\1", t2, 10, 1, compare) != NULL)
PROBE(23, change(), fprintf(null, "%.*s", 3, t), fprintf(null, "%.*s", 2, t))
PROBE(24, change(), n = strcasecmp(t, u), n = strcasecmp(t2, u))
PROBE(25, change(), n = (long)strcspn(t, "x"), n = (long)strcspn(t2, "x"))
PROBE(26, change(), n = (long)strnlen(t, 5), n = (long)strnlen(t, 2))
PROBE(27, change(), n = access(t, 0), n = access(t2, 0))
PROBE(28, change(), printf("%ls\n", w), printf("%ls\n", w2))
PROBE(29, change(), strftime(own, 64, "%d", &when), strftime(own, 64, "%d", &when2))
PROBE(30, change(), memccpy(own, t, '5', 9), memccpy(own, t, '2', 9))
PROBE(31, change(), n = mempcpy(own, t, 3) == own, n = mempcpy(own, t, 2) == own)
PROBE(32, snprintf(b, sizeof b, "%d", 1234), b[2] |= 1, b2[2] |= 1)
PROBE(33, sprintf(b, "%s!", "text"), b[2] |= 1, b[6] |= 1)
PROBE(34, strncpy(b, "ab", 9), b[8] |= 1, b[9] |= 1)
PROBE(35, strcat(b, "cdef"), b[9] |= 1, b[10] |= 1)
PROBE(36, sscanf("77", "%d", &x.i), x.i |= 4, x2.i |= 4)
PROBE(37, sscanf("word", "%9s", b), b[4] |= 1, b[5] |= 1)
PROBE(38, time(&x.l), x.i |= 4, x2.i |= 4)
PROBE(39, clock_gettime(CLOCK_REALTIME, &x.ts), x.i |= 4, x2.i |= 4)
PROBE(40, gettimeofday(&x.tv, NULL), x.i |= 4, x2.i |= 4)
PROBE(41, printf("abc%n\n", &x.i), x.i |= 4, x2.i |= 4)
PROBE(42, fread(b, 1, 8, zero), b[7] |= 1, b[8] |= 1)
PROBE(43, if (read(fileno(zero), b, 8) < 0) abort(), b[7] |= 1, b[8] |= 1)
PROBE(44, bzero(b, 9), b[8] |= 1, b[9] |= 1)
PROBE(45, frexp(3.0, &x.i), x.i |= 4, x2.i |= 4)
PROBE(46, modf(3.5, &x.d), x.i |= 4, x2.i |= 4)
PROBE(47, strtol("12", (char **)&x.p, 10), x.i |= 4, x2.i |= 4)
PROBE(48, stat("/", &x.st), x.i |= 4, x2.i |= 4)
PROBE(49, localtime_r(&(time_t){0}, &x.tm), x.i |= 4, x2.i |= 4)
PROBE(50, strftime(b, sizeof b, "%Y", &(struct tm){.tm_year = 100}), b[2] |= 1, b[5] |= 1)
PROBE(51, if (asprintf((char **)&x.p, "%d", 1) < 0) abort(), x.i |= 4, x2.i |= 4)
PROBE(52, stpcpy(b, "hello"), b[5] |= 1, b[6] |= 1)
PROBE(53, explicit_bzero(b, 8), b[7] |= 1, b[8] |= 1)
PROBE(54, if (!getcwd(b, sizeof b)) abort(), b[0] |= 1, b2[0] |= 1)
PROBE(55, rand_r((unsigned *)&x.i), x.i |= 4, x2.i |= 4)
PROBE(56, sincos(1.0, &x.d, &half), x.i |= 4, x2.i |= 4)
PROBE(57, sscanf("1.5 x", "%lf", &x.d), x.i |= 4, x2.i |= 4)
PROBE(58, strtok(b, " "), strtok(NULL, " "), b2[2] |= 1)

#define ROW(K) probe##K##0, probe##K##1, probe##K##2, probe##K##3, probe##K##4, probe##K##5, probe##K##6, probe##K##7, probe##K##8
static void (*const probes[])(bool) = {ROW(), probe9, ROW(1), probe19, ROW(2), probe29, ROW(3), probe39, ROW(4), probe49, ROW(5)};

int main(int count, char **words) {
  if (count < 3) return printf("%zu\n", sizeof probes / sizeof *probes) < 0;
  zero = fopen("/dev/zero", "r"), null = fopen("/dev/null", "w");
  probes[atoi(words[1])](words[2][0] == 'r');
  return 0;
}

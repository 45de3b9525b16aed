// Kinds of accesses of C, each once beside a spawned write of the same memory and once beside one of other memory.
#include <cilk/cilk.h>
#include <alloca.h>
#include <complex.h>
#include <ctype.h>
#include <stdarg.h>
#include <stdbool.h>
#include <stddef.h>
#include <stdint.h>
#include <stdio.h>
#include <stdlib.h>
#include <string.h>
#define PROBE(K, CHILD, RACY, FREE) \
  static void child##K(void) { CHILD; } \
  static void probe##K(bool racy) { cilk_spawn child##K(); if (racy) { RACY; } else { FREE; } cilk_sync; }

struct small { char c; short s; int i; };
struct big { long a[6]; double d; };
struct bits { unsigned low : 3, high : 5; unsigned : 0; unsigned other : 4; };
struct __attribute__((packed)) packed { char c; int i; long l; };
struct flexible { int n; int at[]; };
union either { int i; float f; char bytes[8]; };
enum color { RED, GREEN };
typedef int four __attribute__((vector_size(16)));
static char c, c2; static signed char sc; static unsigned char uc; static short s, s2; static int i, i2; static long l, l2;
static long long ll; static __int128 huge, huge2; static float f, f2; static double d, d2; static long double ld, ld2;
static double complex z, z2; static bool b, b2; static enum color color, color2; static int *p, *p2;
static struct small small, small2; static struct big big, big2; static struct bits bits; static struct packed packed, packed2;
static union either either, either2; static int array[40], grid[4][5]; static char text[20] = "text"; static four v4, w4;
static volatile int vol, vol2; static _Alignas(64) long aligned, aligned2; static struct small smalls[4];
static void (*function)(void); static int (*pick)(int);
static _Thread_local int own;
static int sum, zero;
static struct flexible *flexible; static int *block, *block2;
static struct { struct { int deep[3]; } in; } nested;

static struct big make(long k) { struct big x = {{k}, 1}; return x; }
static struct small makes(int k) { return (struct small){1, 2, k}; }
static long take(struct big x) { return x.a[2]; }
static int takes(struct small x, int k) { return x.i + k; }
static int twice(int k) { return 2 * k; }
static int total(int n, ...) { va_list a; va_start(a, n); int t = 0; while (n--) t += *va_arg(a, int *); va_end(a); return t; }
static int counter(void) { static int k; return ++k; }
static int counter2(void) { static int k; return ++k; }
static void set(int *to, int k) { *to = k; }
static void inner(void) { cilk_spawn set(&array[7], 1); array[8] = 2; cilk_sync; }
static void early(void) { cilk_spawn set(&array[9], 1); }

PROBE(0, c = 1, sum = c, sum = c2)
PROBE(1, sc = -1, sum = sc, sum = c)
PROBE(2, uc = 1, uc |= 2, c |= 2)
PROBE(3, s = 1, s++, s2++)
PROBE(4, i = 1, i -= 2, i2 -= 2)
PROBE(5, l = 1, l <<= 1, l2 <<= 1)
PROBE(6, ll++, ll = 3, l2 = 3)
PROBE(7, huge = 1, huge += 1, huge2 += 1)
PROBE(8, f = 1, f *= 2, f2 *= 2)
PROBE(9, d = 1, d = -d, d2 = -d2)
PROBE(10, ld = 1, ld2 = ld, ld2 = ld2 + 1)
PROBE(11, z = 1, z = z * z, z2 = z2 * z2)
PROBE(12, b = true, sum = !b, sum = !b2)
PROBE(13, color = GREEN, sum = color == RED, sum = color2 == RED)
PROBE(14, p = &i, sum = p != NULL, sum = p2 != NULL)
PROBE(15, small.i = 1, sum = small.i, sum = small.s)
PROBE(16, small = makes(1), small2 = small, small2 = makes(2))
PROBE(17, big = make(1), sum = big.d > 0, sum = big2.d > 0)
PROBE(18, big.a[2] = 1, sum = take(big), sum = take(big2))
PROBE(19, small.i = 2, sum = takes(small, 1), sum = takes(small2, 1))
PROBE(20, bits.low = 1, bits.high = 2, bits.other = 2)
PROBE(21, packed.i = 1, packed.i++, packed.l++)
PROBE(22, packed = packed2, packed.l = 1, sum = packed2.i)
PROBE(23, either.f = 1, sum = either.i, sum = either2.i)
PROBE(24, either.bytes[3] = 1, either.i = 2, either.bytes[4] = 2)
PROBE(25, array[3] = 1, array[3]++, array[4]++)
PROBE(26, grid[1][2] = 1, sum = *(*(grid + 1) + 2), sum = grid[2][1])
PROBE(27, v4[2] = 1, v4 += w4, w4 += (four){1})
PROBE(28, vol = 1, vol = 2, vol2 = 2)
PROBE(29, aligned = 1, aligned++, aligned2++)
PROBE(30, smalls[1].s = 1, smalls[2] = smalls[1], smalls[2] = smalls[3])
PROBE(31, function = inner, if (function) sum = 1, if (p2) sum = 1)
PROBE(32, own = 1; i2 = own, own = i2, own = 2)
PROBE(33, counter(), counter(), counter2())
PROBE(34, flexible->at[2] = 1, sum = flexible->at[2], sum = flexible->n)
PROBE(35, block[0] = 1, free(block); block = NULL, free(block2); block2 = NULL)
PROBE(36, block[1] = 1, block = realloc(block, 4000), block2 = realloc(block2, 4000))
PROBE(37, nested.in.deep[1] = 1, sum = (&nested.in)->deep[1], sum = (&nested.in)->deep[2])
PROBE(38, array[5] = 1, sum = total(2, &array[5], &i2), sum = total(2, &array[6], &i2))
PROBE(39, i = 3, sum = zero ? i2 : i, sum = zero ? i : i2)
PROBE(40, i = 4, sum = zero || i, sum = zero && i)
PROBE(41, i = 5, sum = ({ int k = i; k + 1; }), sum = ({ int k = i2; k + 1; }))
PROBE(42, i = 6, small2 = (struct small){.i = i}, small2 = (struct small){.i = i2})
PROBE(43, array[0] = 1, switch (array[0]) { case 3: sum = 1; }, switch (array[1]) { case 3: sum = 1; })
PROBE(44, array[1] = 1, int *q = array; sum = *++q, int *q = array; sum = q[2])
PROBE(45, memset(array, 1, 40), array[9] = 1, array[10] = 1)
PROBE(46, memcpy(&big, &big2, sizeof big), big.d = 1, sum = big2.d)
PROBE(47, inner(), array[7] = 1, array[6] = 1)
PROBE(48, early(), sum = array[9], sum = array[10])
PROBE(49, array[11] = 1, cilk_for (int k = 0; k < 3; k++) array[10 + k] = k,
      cilk_for (int k = 0; k < 3; k++) array[12 + k] = k)
PROBE(50, strcpy(text, "other"), sum = text[5], sum = text[6])
PROBE(51, sum = __builtin_add_overflow(1, 2, &i), i = 1, i2 = 1)
PROBE(52, set(&array[12], twice(3)), set(array + 12, 1), set(array + 13, 1))
PROBE(53, pick = twice, sum = pick(2), sum = twice(2))
PROBE(54, array[14] = 1, for (int k = 0; k < array[14]; k++) sum++, for (int k = 0; k < array[15]; k++) sum++)
PROBE(55, array[15] = 1, do sum++; while (array[15] > 1), do sum++; while (array[16]))
PROBE(56, array[16] = 1, goto in; in: sum = array[16], goto out; out: sum = array[17])
PROBE(57, sum = sizeof array + offsetof(struct big, d), sum = 1, i = sizeof(array[18]))
PROBE(58, array[18] = 1, sum = _Generic(array[18], int: array[18]), sum = _Generic(array[18], int: 1))
PROBE(59, array[19] = 1, sum = (i2 = 3, array[19]), sum = (i2 = 3, array[20]))
PROBE(60, array[20] = 1, int n = 3; int vla[n]; vla[1] = array[20]; sum = vla[1],
      int n = 3; int vla[n]; vla[1] = 2; sum = vla[1])
PROBE(61, array[21] = 1, int *a = alloca(8); *a = array[21]; sum = *a, int *a = alloca(8); *a = 1; sum = *a)
PROBE(62, array[22] = 1, sum = isdigit(array[22]), sum = isdigit(array[23]))
PROBE(63, array[23] = 1, printf("%d", array[23]), printf("%d", array[24]))

#define ONE(K) probe##K
static void (*const probes[])(bool) = {ONE(0), ONE(1), ONE(2), ONE(3), ONE(4), ONE(5), ONE(6), ONE(7), ONE(8), ONE(9), ONE(10),
  ONE(11), ONE(12), ONE(13), ONE(14), ONE(15), ONE(16), ONE(17), ONE(18), ONE(19), ONE(20), ONE(21), ONE(22), ONE(23), ONE(24),
  ONE(25), ONE(26), ONE(27), ONE(28), ONE(29), ONE(30), ONE(31), ONE(32), ONE(33), ONE(34), ONE(35), ONE(36), ONE(37), ONE(38),
  ONE(39), ONE(40), ONE(41), ONE(42), ONE(43), ONE(44), ONE(45), ONE(46), ONE(47), ONE(48), ONE(49), ONE(50), ONE(51), ONE(52),
  ONE(53), ONE(54), ONE(55), ONE(56), ONE(57), ONE(58), ONE(59), ONE(60), ONE(61), ONE(62), ONE(63)};

int main(int n, char **words) {
  if (n < 3) return printf("%zu\n", sizeof probes / sizeof *probes) < 0;
  flexible = malloc(40), block = malloc(40), block2 = malloc(40), pick = twice;
  probes[atoi(words[1])](words[2][0] == 'r');
  return 0;
}

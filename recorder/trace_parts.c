/* What `cilkrec run` asks of a trace in its binary form.
 *
 * trace_parts TRACE find LINE..          for each line of an access: `SEGMENT SITE CELL COUNT KIND` (0 is read, 1 is write)
 * trace_parts TRACE unseen                for each line `unseen`: `LINE SITE`
 * trace_parts TRACE without OUT SITE..   the trace but for the accesses of these sites, to OUT; SITE@SEGMENT: of these alone
 *
 * A segment is how many lines precede but for those of accesses, reducers and unseen code: it is the same in both. */
#include <stdint.h>
#include <stdio.h>
#include <stdlib.h>
#include <string.h>

struct kind { uint64_t kind, count, site, next, next_out; int is_named; };
static struct kind kinds[1 << 20];
static uint64_t kind_count, last, last_out;
static FILE *in, *out;

static uint64_t number(void)
{
    uint64_t value = 0;

    for (int shift = 0; shift < 64; shift += 7) {
        int byte = getc_unlocked(in);
        if (byte == EOF)
            exit(1);
        value |= (uint64_t)(byte & 127) << shift;
        if (byte < 128)
            break;
    }
    return value;
}

static void put(uint64_t value)
{
    if (!out)
        return;
    for (; value >= 128; value >>= 7)
        putc_unlocked((int)(value | 128) & 255, out);
    putc_unlocked((int)value, out);
}

static int is_among(uint64_t value, char **words, int n)
{
    for (int i = 0; i < n; i++)
        if (strtoull(words[i], NULL, 10) == value)
            return 1;
    return 0;
}

static int is_left_out(uint64_t site, uint64_t segment, char **words, int n)
{
    for (int i = 0; i < n; i++) {
        char *end;
        if (strtoull(words[i], &end, 10) == site && (*end != '@' || strtoull(end + 1, NULL, 10) == segment))
            return 1;
    }
    return 0;
}

static void declare(char **words, int n)
{
    struct kind *k = &kinds[kind_count++];

    if (kind_count == sizeof kinds / sizeof kinds[0])
        exit(1);
    k->kind = number(), k->count = number(), k->site = number();
    k->next = last, k->next_out = last_out;
    k->is_named = out && k->kind < 2 && is_among(k->site, words, n);
    put(0), put(k->kind), put(k->count), put(k->site);
}

/* An access or a clear: whether it is one of the lines that are looked for. */
static void access_line(uint64_t tag, uint64_t line, uint64_t *segment, char **words, int n)
{
    struct kind *k = &kinds[tag - 8];
    uint64_t moved = number(), cell = k->next + (moved >> 1 ^ -(moved & 1)), count = k->count ? k->count : number();
    int64_t moved_out = (int64_t)(cell - k->next_out);

    k->next = cell + count;
    last = cell;
    if (!out && is_among(line, words, n))
        printf("%lu %lu %lu %lu %lu\n", *segment, k->site, cell, count, k->kind);
    *segment += k->kind == 2;
    if (k->is_named && is_left_out(k->site, *segment, words, n))
        return;
    put(tag), put((uint64_t)moved_out << 1 ^ (uint64_t)(moved_out >> 63));
    if (!k->count)
        put(count);
    k->next_out = k->next;
    last_out = cell;
}

int main(int argc, char **words)
{
    static const char header[] = "cilktrace-bin 1\n";
    char found[sizeof header];
    uint64_t line = 1, segment = 0, tag = 0;
    int is_unseen = argc == 3 && !strcmp(words[2], "unseen");
    int is_find = is_unseen || (argc > 3 && !strcmp(words[2], "find")), first = is_find ? 3 : 4;

    if ((argc < 4 && !is_unseen) || !(in = fopen(words[1], "rb")) || !fgets(found, sizeof found, in) || strcmp(found, header))
        return 2;
    if (!is_find && !(out = fopen(words[3], "wb")))
        return 2;
    if (out)
        fputs(header, out);
    while (tag != 5) {
        line++;
        while (!(tag = number()))
            declare(words + first, argc - first);
        if (tag - 8 < kind_count) {
            access_line(tag, line, &segment, words + first, argc - first);
            continue;
        }
        put(tag);
        for (int i = tag == 1 || tag == 7 ? 1 : tag == 6 ? 3 : 0; i; i--) {
            uint64_t value = number();
            put(value);
            if (is_unseen && tag == 7)
                printf("%lu %lu\n", line, value);
        }
        segment += tag < 6;
    }
    return out && fclose(out);
}

// fib(22) as one writes it in C, with the trace, the certificate and the check that `cilk` makes of it:
// `trace run`; `trace certify` prints what `cilk certify` does; `trace check FILE` is `accepted` or `refused`.
#include <stdio.h>
#include <string.h>

enum { BEGIN, SPAWN, CALL, RESUME, SYNC, END, READ, WRITE };
enum { ARGUMENT = 22, EVENTS = 1000000, FRAMES = 65537, CELLS = 200000, ROOM = 65536, LONGEST = 97 };
static const struct { char word[8]; int fields; } FORMS[] = {
    {"begin", 1}, {"spawn", 1}, {"call", 1}, {"resume", 1}, {"sync", 0}, {"end", 0}, {"read", 3}, {"write", 2}};
static struct event { int kind, at, value; } events[EVENTS + 1]; // `at` is a frame, or the cell that is accessed
static struct row { int fields[4]; } frames[FRAMES], strands[EVENTS + 1]; // as in the certificate
static int event_count, frame_count, strand_count, cell_count, differs;
static int cells[CELLS], writer[CELLS], greatest_write[CELLS], greatest_access[CELLS], sizes[ARGUMENT + 1];
static char text[ROOM], other[ROOM], *end = text;
static FILE *given;

static int note(int kind, int at, int value) {
    events[++event_count] = (struct event){kind, at, value};
    return value;
}
static int load(int cell) { return note(READ, cell, cells[cell]); }
static void store(int cell, int value) { cells[cell] = note(WRITE, cell, value); }

// An event that begins a strand, whose Hebrew number is greater by `ahead` than its own.
static void begin(int kind, int frame, int ahead, int class) {
    note(kind, frame, 0);
    strand_count++;
    strands[strand_count] = (struct row){{strand_count, frame, strand_count + ahead, class}};
}

// Leaves its value in `into`. A spawned child's strands are ahead by those of the rest, which are behind by its own.
static void fib(int kind, int parent, int ordinal, int argument, int into, int ahead, int class) {
    int me = ++frame_count, n = cell_count++, x = cell_count++, y = cell_count++, value;
    frames[me] = (struct row){{me, parent, ordinal}};
    note(kind, me, 0);
    begin(BEGIN, me, ahead, class);
    store(n, argument);
    if (load(n) < 2) value = load(n);
    else {
        store(x, 0);
        store(y, 0);
        fib(SPAWN, me, 1, load(n) - 1, x, ahead + sizes[argument - 2] + 2, strand_count + 1);
        int behind = ahead - sizes[argument - 1], rest = strand_count + 1;
        begin(RESUME, me, behind, rest);
        fib(CALL, me, 2, load(n) - 2, y, behind, rest);
        begin(RESUME, me, behind, rest);
        begin(SYNC, me, ahead, class);
        value = load(x);
        value += load(y);
    }
    begin(SYNC, me, ahead, class);
    store(into, value);
    note(END, me, 0);
}

// Prints the text so far, or compares it with the next bytes of the file.
static void flush(void) {
    size_t size = end - text;
    if (!given) fwrite(text, 1, size, stdout);
    else if (fread(other, 1, size, given) != size || memcmp(text, other, size)) differs = 1;
    end = text;
}

static void line(const char *word, int count, const int *fields) {
    if (end > text + ROOM - LONGEST) flush();
    end = stpcpy(end, word);
    for (int k = 0; k < count; k++) {
        char digits[10], *first = digits + 10;
        unsigned n = fields[k];
        do *--first = '0' + n % 10; while (n /= 10);
        *end++ = ' ';
        while (first < digits + 10) *end++ = *first++;
    }
    *end++ = '\n';
}

static void certificate(int result) {
    line("cilkcert 2\nsize", 3, (int[]){event_count, frame_count, strand_count});
    for (int k = 1; k <= frame_count; k++) line("frame", 3, frames[k].fields);
    for (int k = 1; k <= strand_count; k++) line("strand", 4, strands[k].fields);
    for (int k = 1; k <= event_count; k++) {
        int kind = events[k].kind, at = events[k].at;
        line(FORMS[kind].word, FORMS[kind].fields, (int[]){at, events[k].value, writer[at]});
        if (kind == WRITE) writer[at] = k;
    }
    line("result", 1, &result);
    line("end", 0, NULL);
    flush();
}

// Whether an access comes after one of its cell with a greater Hebrew number, and one of the two is a write.
static int races(void) {
    for (int k = 1, s = 0; k <= event_count; k++) {
        int kind = events[k].kind, at = events[k].at;
        s += kind == BEGIN || kind == RESUME || kind == SYNC;
        int hebrew = strands[s].fields[2];
        if (kind >= READ && (kind == WRITE ? greatest_access : greatest_write)[at] > hebrew) return 1;
        if (kind >= READ && greatest_access[at] < hebrew) greatest_access[at] = hebrew;
        if (kind == WRITE && greatest_write[at] < hebrew) greatest_write[at] = hebrew;
    }
    return 0;
}

int main(int count, char **words) {
    for (int n = 0; n <= ARGUMENT; n++) sizes[n] = n < 2 ? 2 : sizes[n - 1] + sizes[n - 2] + 5;
    frames[++frame_count] = (struct row){{1, 0, 0}};
    begin(BEGIN, 1, 0, 0);
    store(cell_count++, 0);
    fib(CALL, 1, 1, ARGUMENT, 0, 0, 0);
    begin(RESUME, 1, 0, 0);
    int result = load(0);
    begin(SYNC, 1, 0, 0);
    note(END, 1, 0);
    if (count < 2 || !strcmp(words[1], "run")) return printf("result %d\n", result) < 0;
    if (count > 2 && !(given = fopen(words[2], "r"))) return 2;
    certificate(result);
    if (given) puts((differs |= getc(given) != EOF || races()) ? "refused" : "accepted");
    return differs;
}

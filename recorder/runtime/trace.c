/* The open trace: its lines as text or as binary, by a buffer; numbers of cells. */
#define _GNU_SOURCE
#include <errno.h>
#include <fcntl.h>
#include <pthread.h>
#include <signal.h>
#include <stdarg.h>
#include <stdlib.h>
#include <string.h>
#include <sys/mman.h>
#include <sys/resource.h>
#include <sys/syscall.h>
#include <unistd.h>
#include "recorder.h"

bool recording;
uintptr_t load_address, stack_low, span = UINTPTR_MAX;
uintptr_t own_low, own_size;
bool is_writing;
#define TEXT_OF(X) #X
#define NAME_OF(X) TEXT_OF(X)
extern uintptr_t cilkrec_parallel __attribute__((alias(NAME_OF(span)))); /* for stubs, whatever its name here */
unsigned char *used_sites;
uint64_t cilkrec_now = 0x1FFFF;
bool is_all_written;
uint64_t segment, strand;
uintptr_t stack_bytes;
static bool binary;
static int trace_fd = -1;
static struct { uint64_t accesses, frames, bytes, lines; } count;

void give_up(const char *format, ...)
{
    va_list words;

    recording = false;
    span = UINTPTR_MAX;
    if (trace_fd >= 0)
        close(trace_fd);
    trace_fd = -1;
    fputs("cilkrec: the trace isn't whole: ", stderr);
    va_start(words, format);
    vfprintf(stderr, format, words);
    va_end(words);
    fputc('\n', stderr);
}

void *zeroed(size_t bytes)
{
    void *p = mmap(NULL, bytes, PROT_READ | PROT_WRITE, MAP_PRIVATE | MAP_ANONYMOUS | MAP_NORESERVE, -1, 0);

    if (p == MAP_FAILED) {
        fprintf(stderr, "cilkrec: no memory\n");
        _exit(125);
    }
    return p;
}

/* ---- Output: text or binary, by a buffer. */

enum { CAPACITY = 1 << 18, LONGEST_EVENT = 160 };
#define MOST_LINES 0xFFFFFFFEull
static inline void put_runs(void);
static char *buffer;
static size_t fill;

/* Writes all; a reader that closed its pipe must not kill the program, so SIGPIPE is taken away. */
static bool write_all(const char *p, size_t n)
{
    sigset_t sigpipe, before;
    const struct timespec now = {0, 0};

    is_writing = true;
    sigemptyset(&sigpipe);
    sigaddset(&sigpipe, SIGPIPE);
    pthread_sigmask(SIG_BLOCK, &sigpipe, &before);
    while (n) {
        ssize_t k = syscall(SYS_write, trace_fd, p, n); /* `write` is wrapped */
        if (k < 0 && errno == EINTR)
            continue;
        if (k <= 0)
            break;
        p += k;
        n -= (size_t)k;
    }
    int error = errno;
    if (n && error == EPIPE)
        sigtimedwait(&sigpipe, NULL, &now);
    pthread_sigmask(SIG_SETMASK, &before, NULL);
    is_writing = false;
    errno = error;
    return n == 0;
}

void flush_buffer(void)
{
    if (recording && count.lines > MOST_LINES)
        give_up("it has more than 2^32 lines");
    else if (recording && !write_all(buffer, fill))
        give_up("%s", errno == EPIPE ? "its reader closed the pipe" : strerror(errno));
    count.bytes += fill;
    fill = 0;
}

/* Where the next event goes; end_event takes its end. */
static inline char *begin_event(void)
{
    if (unlikely(fill > CAPACITY - LONGEST_EVENT))
        flush_buffer();
    count.lines++;
    return buffer + fill;
}

static inline void end_event(const char *at) { fill = (size_t)(at - buffer); }

static inline char *word(char *at, const char *text)
{
    while (*text)
        *at++ = *text++;
    return at;
}

static inline char *decimal(char *at, uint64_t value)
{
    char digits[20];
    int n = 0;

    do
        digits[n++] = (char)('0' + value % 10);
    while (value /= 10);
    while (n)
        *at++ = digits[--n];
    return at;
}

static inline char *leb128(char *at, uint64_t value)
{
    for (; value >= 128; value >>= 7)
        *at++ = (char)(value | 128);
    *at++ = (char)value;
    return at;
}

/* A new strand begins. */
static inline void begin_strand(void)
{
    put_runs();
    forget_strand();
    strand++;
    segment++;
}

/* An event of one word, of which binary tells the word by `tag`. */
static inline void put_mark(const char *text, char tag)
{
    begin_strand();
    char *at = begin_event();
    if (likely(binary)) {
        *at++ = tag;
    } else {
        at = word(at, text);
        *at++ = '\n';
    }
    end_event(at);
}

/* An event of a word and a site. */
static inline void put_at_site(const char *text, char tag, uint64_t site)
{
    char *at = begin_event();

    if (likely(binary)) {
        *at++ = tag;
        at = leb128(at, site);
    } else {
        at = decimal(word(at, text), site);
        *at++ = '\n';
    }
    end_event(at);
}

void put_enter(uint64_t site)
{
    begin_strand();
    count.frames++;
    put_at_site("enter ", 1, site);
}

void put_spawned(void) { put_mark("spawned", 2); }
void put_called(void) { put_mark("called", 3); }
void put_sync(void) { put_mark("sync", 4); }
void put_end(void) { put_mark("end", 5); }

/* A call of a library that isn't recorded was made here, while something was parallel. */
void put_unseen(uint64_t site) { put_at_site("unseen ", 7, site); }

void put_reducer(enum reducer_event event, uint32_t reducer, uint64_t site)
{
    static const char *const words[] = {"create ", "update ", "value ", "retire "};

    if (event == CREATE || event == RETIRE) /* what was one kind of memory is another one */
        forget_strand();
    char *at = begin_event();
    if (binary) {
        *at++ = 6;
        at = leb128(leb128(leb128(at, event), reducer), site);
    } else {
        at = decimal(word(at, words[event]), reducer);
        *at++ = ' ';
        at = decimal(at, site);
        *at++ = '\n';
    }
    end_event(at);
}

/* ---- Cells: bytes, numbered by 4 KB pages in the order of first use, so that they are small and dense. */

enum { PAGE_BITS = 12, PAGE_TABLE_BITS = 21, MOST_PAGES = 1 << 20, NEAR_PAGES = 1024 };
struct page { uintptr_t page; uint32_t number; };
static struct page *page_table, near_pages[NEAR_PAGES];
static uint32_t pages;

static uint32_t page_number(uintptr_t page)
{
    struct page *near = &near_pages[page % NEAR_PAGES];

    if (likely(near->page == page))
        return near->number;
    size_t mask = ((size_t)1 << PAGE_TABLE_BITS) - 1;
    size_t i = (page * 0x9E3779B97F4A7C15ull) >> (64 - PAGE_TABLE_BITS);
    while (page_table[i].page && page_table[i].page != page)
        i = (i + 1) & mask;
    if (!page_table[i].page) {
        if (pages == MOST_PAGES) {
            give_up("the program uses more than 4 GB of memory");
            return 0;
        }
        page_table[i].page = page;
        page_table[i].number = pages++;
    }
    *near = page_table[i];
    return near->number;
}

/* The first page from one address to another of which the trace names a cell; `to` where there is none. */
uintptr_t named_page(uintptr_t from, uintptr_t to)
{
    size_t mask = ((size_t)1 << PAGE_TABLE_BITS) - 1;

    put_runs();
    for (; from < to; from = (from | ((1 << PAGE_BITS) - 1)) + 1) {
        uintptr_t page = from >> PAGE_BITS;
        size_t i = (page * 0x9E3779B97F4A7C15ull) >> (64 - PAGE_TABLE_BITS);
        while (page_table[i].page && page_table[i].page != page)
            i = (i + 1) & mask;
        if (page_table[i].page)
            return from;
    }
    return to;
}

/* ---- Events over cells. */

enum { LINE_TABLE_BITS = 21, MOST_LINE_KINDS = 1 << 20, SHORT_COUNT = 16 };
/* Binary names a line's kind, count and site once; a use of it tells only how far it moved since it was last used. */
struct line_kind { uint64_t key, next_cell; uint32_t number; };
static struct line_kind *line_kinds;
static uint32_t line_kind_count;
static uint64_t last_cell, next_cells[8 + MOST_LINE_KINDS];

static char *binary_access(char *at, enum kind kind, uint64_t cell, uint64_t n, uint64_t site)
{
    uint64_t fixed = n <= SHORT_COUNT ? n : 0, key = ((site << 5 | fixed) << 2 | kind) + 1;
    size_t mask = ((size_t)1 << LINE_TABLE_BITS) - 1;
    size_t i = (key * 0x9E3779B97F4A7C15ull) >> (64 - LINE_TABLE_BITS);

    while (line_kinds[i].key && line_kinds[i].key != key)
        i = (i + 1) & mask;
    struct line_kind *line = &line_kinds[i];
    if (unlikely(!line->key)) {
        if (line_kind_count == MOST_LINE_KINDS) {
            give_up("more than %d places access memory", MOST_LINE_KINDS);
            return at;
        }
        line->key = key;
        line->number = line_kind_count++;
        line->next_cell = last_cell;
        *at++ = 0;
        at = leb128(leb128(leb128(at, kind), fixed), site);
    }
    int64_t moved = (int64_t)(cell - line->next_cell);
    at = leb128(leb128(at, 8 + line->number), (uint64_t)moved << 1 ^ (uint64_t)(moved >> 63));
    if (!fixed)
        at = leb128(at, n);
    line->next_cell = cell + n;
    last_cell = cell;
    return at;
}

/* No cell of the stack below this address was accessed since it was cleared. */
static uintptr_t lowest_told = UINTPTR_MAX;

static inline void note_told(uintptr_t address)
{
    if (address < lowest_told && address - stack_low < stack_bytes)
        lowest_told = address;
}

/* A part of the stack has ended. Where the trace names none of its cells there is nothing to forget. */
void clear_stack(uintptr_t low, uintptr_t high)
{
    if (lowest_told >= high)
        return;
    put_cells(CLEAR, low, high - low, 0);
    if (lowest_told >= low)
        lowest_told = high;
}

void put_cells(enum kind kind, uintptr_t address, uint64_t size, uint64_t site)
{
    static const char *const words[] = {"read ", "write ", "clear "};

    if (kind != CLEAR) {
        note_told(address);
    } else {
        put_runs();
        if (size > 1 << 14 || address - stack_low < stack_bytes) /* forget all that the strand did: cheaper */
            forget_strand();
        else
            for (uintptr_t a = address & ~(uintptr_t)7; a < address + size; a += 8)
                if (*shadow(a))
                    *shadow(a) = 0;
    }
    count.accesses += kind != CLEAR;
    while (size && recording) {
        uint64_t in_page = (1 << PAGE_BITS) - (address & ((1 << PAGE_BITS) - 1)), n = size < in_page ? size : in_page;
        uint64_t cell = (uint64_t)page_number(address >> PAGE_BITS) << PAGE_BITS | (address & ((1 << PAGE_BITS) - 1));
        char *at = begin_event();
        segment += kind == CLEAR;
        if (likely(binary)) {
            at = binary_access(at, kind, cell, n, site);
        } else {
            at = decimal(word(at, words[kind]), cell);
            *at++ = ' ';
            at = decimal(at, n);
            if (kind != CLEAR) {
                *at++ = ' ';
                at = decimal(at, site);
            }
            *at++ = '\n';
        }
        end_event(at);
        address += n;
        size -= n;
    }
}

/* Runs: accesses of one place to neighbours, in one strand, are one line. What a strand did between two lines of structure
   or `clear` is a set: it is written in any order, and what it reads and then writes as a write alone. */
enum { MOST_RUNS = 1 << 12 };
static struct site *runs[MOST_RUNS], *last_read;
static unsigned run_count;

/* The kind of line for so many bytes: of one access, of as many as the first run had, or of any number. */
static uint32_t *line_number(struct site *s, uint64_t n, uint64_t *declared)
{
    *declared = n;
    if (n == s->what >> 8)
        return &s->number;
    if (!s->first_count)
        s->first_count = (uint32_t)n;
    if (n == s->first_count)
        return &s->first_number;
    *declared = 0;
    return &s->run_number;
}

static void put_run(struct site *s)
{
    uint64_t n = s->to - s->from, declared;
    const struct site *w = s->writer;

    if (w && w->place && n > s->what >> 8 && w->from <= s->from && s->to <= w->to)
        return;
    if (unlikely(!binary)) {
        put_cells((enum kind)(s->what & 1), s->from, n, s->place);
        return;
    }
    uint32_t *number = line_number(s, n, &declared);
    if (unlikely(!*number && line_kind_count == MOST_LINE_KINDS)) {
        if (recording)
            give_up("more than %d places access memory", MOST_LINE_KINDS);
        return;
    }
    uint64_t cell = (uint64_t)page_number(s->from >> PAGE_BITS) << PAGE_BITS | (s->from & ((1 << PAGE_BITS) - 1));
    char *at = begin_event();
    if (unlikely(!*number)) {
        *number = 8 + line_kind_count++;
        *at++ = 0;
        at = leb128(leb128(leb128(at, s->what & 1), declared), s->place);
        next_cells[*number] = last_cell;
    }
    int64_t moved = (int64_t)(cell - next_cells[*number]);
    at = leb128(leb128(at, *number), (uint64_t)moved << 1 ^ (uint64_t)(moved >> 63));
    if (!declared)
        at = leb128(at, n);
    next_cells[*number] = cell + n;
    last_cell = cell;
    end_event(at);
}

static void put_all_runs(void)
{
    for (unsigned i = 0; i < run_count; i++) {
        put_run(runs[i]);
        runs[i]->place = runs[i]->from = runs[i]->to = 0;
    }
    run_count = 0;
}

static inline void put_runs(void)
{
    if (run_count)
        put_all_runs();
}

void lengthen_down(struct site *s, uintptr_t address)
{
    s->from = address;
    note_told(address);
}

/* An access that isn't next to its place's run. */
void begin_run(struct site *s, uintptr_t address, const void *return_address)
{
    count.accesses++;
    if (s->place) {
        put_run(s);
    } else {
        if (unlikely(run_count == MOST_RUNS))
            put_all_runs();
        runs[run_count++] = s;
        s->place = site_before(return_address);
    }
    s->from = address;
    s->to = address + (s->what >> 8);
    if (s->what & WRITE && last_read && last_read->from == address)
        last_read->writer = s;
    last_read = s->what & WRITE ? NULL : s;
    note_told(address);
}

/* ---- The filter's words: for all addresses with bit 45 clear below 2^45, of a program that can be anywhere (0x55.., 0x56..),
 * and of libraries, heap and stack (0x7c.. to 0x7f..). Untouched they take no memory. */

static const struct { uintptr_t from, bytes; } regions[] = {
    {0x200000000000, 1ull << 45}, {0x5c0000000000, 1ull << 42}, {0x750000000000, 1ull << 41}};
enum { REGIONS = sizeof regions / sizeof regions[0] };

static bool has_shadow(uintptr_t address)
{
    for (int i = 0; i < REGIONS; i++)
        if ((uintptr_t)shadow(address) - regions[i].from < regions[i].bytes)
            return true;
    return false;
}

/* Whether there is room for the words of this program, of its stack and of what it maps. */
bool open_filter(void)
{
    void *probe = zeroed(4096);
    bool is_known = has_shadow((uintptr_t)__executable_start) && has_shadow((uintptr_t)&is_known)
        && has_shadow((uintptr_t)probe) && has_shadow((uintptr_t)&errno);

    munmap(probe, 4096);
    for (int i = 0; i < REGIONS && is_known; i++) {
        void *words = mmap((void *)regions[i].from, regions[i].bytes, PROT_READ | PROT_WRITE,
                           MAP_PRIVATE | MAP_ANONYMOUS | MAP_NORESERVE | MAP_FIXED_NOREPLACE, -1, 0);
        if (words == MAP_FAILED)
            return false;
        madvise(words, regions[i].bytes, MADV_DONTDUMP);
    }
    return is_known;
}

/* ---- Begin and end. */

bool open_trace(const char *path, bool as_binary)
{
    trace_fd = open(path, O_WRONLY | O_CREAT | O_TRUNC | O_CLOEXEC, 0666);
    if (trace_fd < 0)
        return false;
    /* High, so that the program's own files get the numbers that they have without a recording. */
    int high = fcntl(trace_fd, F_DUPFD_CLOEXEC, 500);
    if (high >= 0) {
        close(trace_fd);
        trace_fd = high;
    }
    binary = as_binary;
    fcntl(trace_fd, F_SETPIPE_SZ, 1 << 20);
    buffer = zeroed(CAPACITY);
    page_table = zeroed(sizeof *page_table << PAGE_TABLE_BITS);
    line_kinds = zeroed(sizeof *line_kinds << LINE_TABLE_BITS);
    end_event(word(begin_event(), binary ? "cilktrace-bin 1\n" : "cilktrace 1\n"));
    return true;
}

/* Whether all went out. */
bool close_trace(void)
{
    flush_buffer();
    if (recording && close(trace_fd))
        give_up("%s", strerror(errno));
    trace_fd = -1;
    return recording;
}

uint64_t lines_written(void) { return count.lines; }

/* The program's file and its address, the number of lines, and the addresses of the pages by their numbers. */
void write_pages(const char *path)
{
    char program[4096];
    ssize_t length = readlink("/proc/self/exe", program, sizeof program);
    FILE *out = fopen(path, "w");
    uintptr_t *in_order = zeroed((pages + 1) * sizeof *in_order);

    for (size_t i = 0; i < (size_t)1 << PAGE_TABLE_BITS; i++)
        if (page_table[i].page)
            in_order[page_table[i].number] = page_table[i].page;
    if (out)
        fprintf(out, "%.*s\n%lx\n%lx\n", (int)(length > 0 ? length : 0), program, load_address, count.lines);
    for (uint32_t i = 0; out && i < pages; i++)
        fprintf(out, "%lx\n", in_order[i]);
    if (out)
        fclose(out);
}

void print_counts(void)
{
    struct rusage usage;

    getrusage(RUSAGE_SELF, &usage);
    fprintf(stderr, "cilkrec: %lu accesses, %lu frames, %lu lines, %lu bytes, %u pages; %ld.%02ld s\n", count.accesses,
            count.frames, count.lines, count.bytes, pages, usage.ru_utime.tv_sec, (long)usage.ru_utime.tv_usec / 10000);
}

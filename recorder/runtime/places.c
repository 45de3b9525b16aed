/* Names of functions, and the table of sites. */
#define _GNU_SOURCE
#include <elf.h>
#include <errno.h>
#include <fcntl.h>
#include <spawn.h>
#include <stdlib.h>
#include <string.h>
#include <sys/mman.h>
#include <sys/stat.h>
#include <sys/wait.h>
#include <unistd.h>
#include "recorder.h"

/* ---- Names of functions, from the program's table of symbols. */

static const Elf64_Sym *symbols;
static size_t symbol_count;
static const char *symbol_names;

static void find_symbols(void)
{
    static bool tried;
    struct stat status;

    if (tried)
        return;
    tried = true;
    is_writing = true;
    int fd = open("/proc/self/exe", O_RDONLY | O_CLOEXEC);
    if (fd < 0 || fstat(fd, &status)) {
        is_writing = false;
        return;
    }
    const char *file = mmap(NULL, (size_t)status.st_size, PROT_READ, MAP_PRIVATE, fd, 0);
    close(fd);
    is_writing = false;
    if (file == MAP_FAILED)
        return;
    const Elf64_Ehdr *header = (const Elf64_Ehdr *)file;
    const Elf64_Shdr *sections = (const Elf64_Shdr *)(file + header->e_shoff);
    for (int i = 0; i < header->e_shnum; i++)
        if (sections[i].sh_type == SHT_SYMTAB) {
            symbols = (const Elf64_Sym *)(file + sections[i].sh_offset);
            symbol_count = sections[i].sh_size / sizeof *symbols;
            symbol_names = file + sections[sections[i].sh_link].sh_offset;
        }
}

/* Without them it can't be told which calls belong to a spawned one. */
bool is_stripped(void)
{
    find_symbols();
    return !symbol_count;
}

static const char *function_name(uintptr_t function)
{
    find_symbols();
    for (size_t i = 0; i < symbol_count; i++)
        if (symbols[i].st_value == function - load_address && ELF64_ST_TYPE(symbols[i].st_info) == STT_FUNC)
            return symbol_names + symbols[i].st_name;
    return "";
}

/* The variable of a guard, by their names: `_ZGVZ..` is the guard of `_ZZ..`. */
bool guarded_variable(uintptr_t guard, uintptr_t *address, size_t *size)
{
    find_symbols();
    for (size_t i = 0; i < symbol_count; i++) {
        const char *name = symbol_names + symbols[i].st_name;
        if (symbols[i].st_value != guard - load_address || name[0] != '_' || name[1] != 'Z' || name[2] != 'G')
            continue;
        for (size_t k = 0; k < symbol_count; k++) {
            const char *other = symbol_names + symbols[k].st_name;
            size_t n = 0;
            if (other[0] != '_' || other[1] != 'Z')
                continue;
            while (other[2 + n] && other[2 + n] == name[4 + n])
                n++;
            if (other[2 + n] || name[4 + n] || ELF64_ST_TYPE(symbols[k].st_info) != STT_OBJECT)
                continue;
            *address = symbols[k].st_value + load_address;
            *size = symbols[k].st_size;
            return true;
        }
    }
    return false;
}

/* Whether a mangled name is that of a constructor, destructor, assignment or conversion of a class. Identifiers in it
 * are passed over by their lengths. */
static bool is_special_member(const char *name)
{
    if (name[0] != '_' || name[1] != 'Z')
        return false;
    for (name += 2; *name;) {
        if (*name >= '0' && *name <= '9') {
            size_t n = 0;
            for (; *name >= '0' && *name <= '9' && n < 100000; name++)
                n = 10 * n + (size_t)(*name - '0');
            for (; n && *name; n--) /* not by functions that are wrapped */
                name++;
            if (n)
                return false;
        } else if (*name == 'L') {
            while (*name && *name != 'E')
                name++;
        } else if ((name[0] == 'C' || name[0] == 'D') && name[1] >= '0' && name[1] <= '5' && name[2] == 'E') {
            return true;
        } else if ((name[0] == 'a' && name[1] == 'S' && name[2] == 'E') || (name[0] == 'c' && name[1] == 'v')) {
            return true;
        } else {
            name++;
        }
    }
    return false;
}

/* Such functions run after a spawned call, on its result and its arguments, and are part of the child. */
bool follows_spawned_call(uintptr_t function)
{
    static struct { uintptr_t function; bool special; } cache[256];
    unsigned slot = function / 16 % 256;

    if (cache[slot].function != function) {
        cache[slot].special = is_special_member(function_name(function));
        cache[slot].function = function;
    }
    return cache[slot].special;
}

/* ---- The table of sites: file, line and function of each, by addr2line. */

static int ask_addr2line(int questions)
{
    char program[64];
    int answers = memfd_create("cilkrec-places", 0), status = 1;
    pid_t child;
    posix_spawn_file_actions_t actions;

    snprintf(program, sizeof program, "/proc/%d/exe", (int)getpid());
    char *const call[] = {"addr2line", "-e", program, "-f", "-C", NULL};
    posix_spawn_file_actions_init(&actions);
    posix_spawn_file_actions_adddup2(&actions, questions, 0);
    posix_spawn_file_actions_adddup2(&actions, answers, 1);
    if (posix_spawnp(&child, call[0], &actions, NULL, call, environ) || waitpid(child, &status, 0) < 0 || status) {
        close(answers);
        return -1;
    }
    posix_spawn_file_actions_destroy(&actions);
    lseek(answers, 0, SEEK_SET);
    return answers;
}

/* Removes each such part of a text. */
static void leave_out(char *text, const char *part)
{
    for (char *at; (at = strstr(text, part));)
        memmove(at, at + strlen(part), strlen(at + strlen(part)) + 1);
}

/* Shortens a function's name to what a person calls it: without its parameters, and without what a compiler made of a
   loop's turn. */
static void shorten(char *name)
{
    int depth = 0;

    name[strcspn(name, "\n")] = 0;
    if (strstr(name, ".omp_"))
        strcpy(name, "a turn of a loop");
    leave_out(name, "(anonymous namespace)::");
    for (const char *const *cut = (const char *const[]){" [clone", "._omp_fn.", NULL}; *cut; cut++)
        if (strstr(name, *cut))
            *strstr(name, *cut) = 0;
    for (char *at = name; *at; at++) {
        if (!strncmp(at, "operator", 8)) { /* its name may have any sign, as in operator() and operator< */
            at += 8;
            at += !strncmp(at, "()", 2) ? 1 : strspn(at, "<>=-") - 1;
            continue;
        }
        depth += (*at == '<' || *at == '{') - (*at == '>' || *at == '}');
        if (*at == '(' && depth == 0 && at > name) {
            *at = 0;
            return;
        }
    }
}

/* File and line of a site, for a message. */
const char *place_of_site(uint64_t site)
{
    static char place[4096];
    int questions = memfd_create("cilkrec-place", 0);

    recording = false; /* what is called here is no part of the run */
    dprintf(questions, "%zx\n", (size_t)site);
    lseek(questions, 0, SEEK_SET);
    int answers = ask_addr2line(questions);
    FILE *in = answers < 0 ? NULL : fdopen(answers, "r");
    strcpy(place, "an unknown place");
    if (in && fgets(place, sizeof place, in) && fgets(place, sizeof place, in))
        place[strcspn(place, "\n")] = 0;
    if (strstr(place, " (discriminator"))
        *strstr(place, " (discriminator") = 0;
    if (in)
        fclose(in);
    close(questions);
    return place;
}

/* A function's name in C++'s words, where the program has what turns it. */
extern char *__cxa_demangle(const char *, char *, size_t *, int *) __attribute__((weak));
const char *readable_name(const char *name)
{
    char *text = __cxa_demangle && name[0] == '_' ? __cxa_demangle(name, NULL, NULL, NULL) : NULL;

    if (text)
        shorten(text);
    return text ? text : name;
}

void write_sites(const char *path)
{
    size_t bytes = (size_t)(etext - __executable_start);
    FILE *table = fopen(path, "w");
    int questions = memfd_create("cilkrec-sites", 0);
    char function[4096], place[4096];

    if (!table || questions < 0) {
        fprintf(stderr, "cilkrec: %s: %s\n", path, strerror(errno));
        return;
    }
    for (size_t i = 0; i < bytes; i++)
        if (used_sites[i / 8] >> i % 8 & 1)
            dprintf(questions, "%zx\n", i + (uintptr_t)__executable_start - load_address);
    lseek(questions, 0, SEEK_SET);
    int answers = ask_addr2line(questions);
    FILE *in = answers < 0 ? NULL : fdopen(answers, "r");
    if (!in)
        fprintf(stderr, "cilkrec: %s: addr2line (of binutils) didn't run, so places have no lines\n", path);
    fputs("cilksites 1\n0 ?:0 ?\n", table);
    for (size_t i = 0; i < bytes; i++) {
        if (!(used_sites[i / 8] >> i % 8 & 1))
            continue;
        if (!in || !fgets(function, sizeof function, in) || !fgets(place, sizeof place, in)) {
            strcpy(function, "?\n");
            strcpy(place, "?:0\n");
        }
        place[strcspn(place, "\n")] = 0;
        char *more = strstr(place, " (discriminator");
        if (more)
            *more = 0;
        shorten(function);
        uint64_t site = i + (uintptr_t)__executable_start - load_address;
        const char *called = unseen_at(site);
        fprintf(table, "%zu %s %s\n", site, place, called ? called : function);
    }
    fputs("end\n", table);
    fclose(table);
}

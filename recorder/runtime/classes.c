/* Classes of libstdc++ whose functions are compiled: streams, exceptions with a text, and locales. Functions are known
 * by their names, and tell the objects, texts and strings that they are given; one that isn't known is a call that
 * isn't recorded. Those that write as much as they find to read are wrapped, as libc's functions are.
 *
 * A stream is one cell, at the begin of its `basic_ios`: each operation writes it, and a question reads it. The
 * standard ones have locks of their own. */
#include "models.h"

enum { STRING = 32, ERROR = 16, LOCALE = 8 }; /* bytes of such an object */

static bool begins(const char *name, const char *part)
{
    while (*part && *name == *part)
        name++, part++;
    return !*part;
}

static bool is_same(const char *a, const char *b) { return begins(a, b) && !a[length(b)]; }

/* ---- Streams. */

extern char _ZSt4cout[] __attribute__((weak)), _ZSt3cin[] __attribute__((weak)), _ZSt4cerr[] __attribute__((weak));
extern char _ZSt4clog[] __attribute__((weak));

/* The `basic_ios` of a stream, which begins with a pointer to a table: how far it is lies three words before that. */
static const char *ios_of(const void *stream) { return (const char *)stream + (*(const int64_t *const *)stream)[-3]; }

static void tell_ios(enum kind kind, const char *ios, const void *at)
{
    static const char *const standard[] = {_ZSt4cout, _ZSt3cin, _ZSt4cerr, _ZSt4clog};

    for (int i = 0; i < 4; i++)
        if (standard[i] && *(void *const *)standard[i] && ios_of(standard[i]) == ios) /* and it has been made */
            return;
    library_access(kind, ios, 1, at);
}
static void tell_stream(enum kind kind, const void *stream, const void *at) { tell_ios(kind, ios_of(stream), at); }

static void tell_string(const void *string, const void *at)
{
    R(string, 16)
    R(*(const char *const *)string, ((const uint64_t *)string)[1])
}

/* What a function does beside its operation on the stream. */
enum what { NO_MORE, TEXT, OF_STRING, BYTES, OBJECT, OTHER_STREAM };
struct known { const char *part; enum what what; };

/* Members of streams, by what follows the class in their names. */
static const struct known members[] = {
    {"lsEPF", NO_MORE}, {"lsEPKv", NO_MORE}, {"rsEPF", NO_MORE}, {"rsER", OBJECT}, {"3putEc", NO_MORE},
    {"5flushEv", NO_MORE}, {"9_M_insertI", NO_MORE}, {"5seekpE", NO_MORE}, {"5tellpEv", NO_MORE},
    {"5writeEPKcl", BYTES}, {"3getEv", NO_MORE}, {"3getERc", OBJECT}, {"4peekEv", NO_MORE}, {"4syncEv", NO_MORE},
    {"5seekgE", NO_MORE}, {"5tellgEv", NO_MORE}, {"5ungetEv", NO_MORE}, {"6ignoreE", NO_MORE}, {"7putbackEc", NO_MORE},
    {"3strERKNS_12basic_string", OF_STRING}, {"4openEPKc", TEXT}, {"4openERKNSt7__cxx1112basic_string", OF_STRING},
    {"5closeEv", NO_MORE}, {"7is_openEv", NO_MORE}, {"aSEOS", OTHER_STREAM}, {"4swapERS", OTHER_STREAM},
    {"D0Ev", NO_MORE}, {"D1Ev", NO_MORE}, {"D2Ev", NO_MORE}};
static const struct known constructors[] = {
    {"Ev", NO_MORE}, {"ESt13_Ios_Openmode", NO_MORE}, {"EPKcSt13_Ios_Openmode", TEXT},
    {"ERKNS_12basic_string", OF_STRING}, {"ERKNSt7__cxx1112basic_string", OF_STRING}, {"EOS", OTHER_STREAM}};
static const struct known of_ios[] = {
    {"5clearE", NO_MORE}, {"8setstateE", NO_MORE}, {"10exceptionsE", NO_MORE}, {"4fillEc", NO_MORE},
    {"3tieEPSo", NO_MORE}, {"C2Ev", NO_MORE}, {"D2Ev", NO_MORE}};
static const struct known functions[] = {
    {"_ZSt16__ostream_insertIc", BYTES}, {"_ZSt4endlIc", NO_MORE}, {"_ZSt4endsIc", NO_MORE}, {"_ZSt5flushIc", NO_MORE},
    {"_ZSt2wsIc", NO_MORE}, {"_ZStlsISt11char_traitsIcEERSt13basic_ostreamIcT_ES5_PKc", TEXT},
    {"_ZStlsISt11char_traitsIcEERSt13basic_ostreamIcT_ES5_c", NO_MORE},
    {"_ZStlsIcSt11char_traitsIcEERSt13basic_ostreamIT_T0_ES6_St", NO_MORE},
    {"_ZStlsIcSt11char_traitsIcESaIcEERSt13basic_ostreamIT_T0_ES7_RKNSt7__cxx1112basic_string", OF_STRING},
    {"_ZStrsIcSt11char_traitsIcEERSt13basic_istreamIT_T0_ES6_St", NO_MORE},
    {"_ZStrsIcSt11char_traitsIcEERSt13basic_istreamIT_T0_ES6_RS3_", OBJECT}};

#define FIND(LIST, NAME) find(LIST, sizeof LIST / sizeof *LIST, NAME)
static const struct known *find(const struct known *list, size_t n, const char *name)
{
    for (size_t i = 0; i < n; i++)
        if (begins(name, list[i].part))
            return &list[i];
    return NULL;
}

/* Classes of streams by their names; one that is being made doesn't say yet where its `basic_ios` is. */
static const struct { const char *name; int ios; } classes[] = {
    {"So", 8}, {"Si", 16}, {"St7__cxx1119basic_istringstreamIcSt11char_traitsIcESaIcEE", 120},
    {"St7__cxx1119basic_ostringstreamIcSt11char_traitsIcESaIcEE", 112},
    {"St7__cxx1118basic_stringstreamIcSt11char_traitsIcESaIcEE", 128},
    {"St14basic_ifstreamIcSt11char_traitsIcEE", 256}, {"St14basic_ofstreamIcSt11char_traitsIcEE", 248},
    {"St13basic_fstreamIcSt11char_traitsIcEE", 264}};

/* The bytes of what `>>` writes, by the mangled type at a name's end. */
static size_t size_of_type(const char *name)
{
    switch (name[length(name) - 1]) {
    case 'b': case 'c': case 'a': case 'h': case '_': return 1;
    case 's': case 't': return 2;
    case 'i': case 'j': case 'f': return 4;
    case 'e': return 16;
    default: return 8;
    }
}

static void tell_more(enum what what, const char *name, const uint64_t *more, const void *at)
{
    const char *p = (const char *)more[0];

    switch (what) {
    case TEXT: RS(p) break;
    case OF_STRING: tell_string(p, at); break;
    case BYTES: R(p, more[1]) break;
    case OBJECT: W(p, size_of_type(name)) break;
    case OTHER_STREAM: tell_stream(WRITE, p, at); break;
    default: break;
    }
}

/* A constructor of a base has a table as its second argument; then its class may be any. */
static bool is_made(const char *name, const uint64_t *arguments, int ios, const void *at)
{
    bool is_base = name[1] == '2';
    const struct known *known = ios < 100 ? NULL : FIND(constructors, name + 2);

    if (!known)
        return false;
    if (!is_base)
        tell_ios(WRITE, (const char *)arguments[0] + ios, at);
    tell_more(known->what, name, arguments + 1 + is_base, at);
    return true;
}

static bool is_member(const char *name, const uint64_t *arguments, int ios, bool is_question, const void *at)
{
    const struct known *known = FIND(members, name);

    if (begins(name, "C1") || begins(name, "C2"))
        return is_made(name, arguments, ios, at);
    if (begins(name, "6sentryC1ERS")) {
        tell_stream(WRITE, (void *)arguments[1], at);
        return true;
    }
    if (begins(name, "6sentryD") || begins(name, "6sentrycvb"))
        return true;
    if (is_question && begins(name, "3strEv")) { /* the place of its result comes first */
        tell_stream(READ, (void *)arguments[1], at);
        W(arguments[0], STRING)
        return true;
    }
    bool is_value = begins(name, "lsE") && name[3] && !name[4];
    if (!known && !is_question && !is_value)
        return false;
    tell_stream(is_question || begins(name, "7is_open") ? READ : WRITE, (void *)arguments[0], at);
    if (known)
        tell_more(known->what, name, arguments + 1, at);
    return true;
}

/* A member of the part that all streams have. */
static bool is_of_ios(const char *name, const uint64_t *arguments, bool is_question, const void *at)
{
    if (!is_question && begins(name, "5imbueE")) { /* the place of its result comes first */
        tell_ios(WRITE, (const char *)arguments[1], at);
        R(arguments[2], LOCALE)
        W(arguments[1] + 208, LOCALE) /* where `getloc` finds it */
        W(arguments[0], LOCALE)
        return true;
    }
    if (!is_question && !FIND(of_ios, name))
        return false;
    tell_ios(is_question ? READ : WRITE, (const char *)arguments[0], at);
    return true;
}

static bool is_stream_call(const char *name, const uint64_t *arguments, const void *at)
{
    const struct known *known = FIND(functions, name);

    if (known) {
        tell_stream(WRITE, (void *)arguments[0], at);
        tell_more(known->what, name, arguments + 1, at);
        return true;
    }
    if (!begins(name, "_ZN"))
        return false;
    bool is_question = name[3] == 'K';
    name += 3 + is_question;
    const char *ios = "St9basic_iosIcSt11char_traitsIcEE";
    if (begins(name, ios))
        return is_of_ios(name + length(ios), arguments, is_question, at);
    for (size_t i = 0; i < sizeof classes / sizeof *classes; i++)
        if (begins(name, classes[i].name))
            return is_member(name + length(classes[i].name), arguments, classes[i].ios, is_question, at);
    return false;
}

/* What a stream has found is written: as many bytes as it counts, and a zero behind a text. */
static uint64_t counted(const void *in) { return ((const uint64_t *)in)[1]; }
#define READING(NAME, PARAMETERS, ARGUMENTS, WRITTEN) \
    MODEL(void *, NAME, PARAMETERS, ARGUMENTS, tell_stream(WRITE, in, at);, WRITTEN)
READING(_ZNSi4readEPcl, (void *in, char *to, int64_t n), (in, to, n), W(to, counted(in)))
READING(_ZNSi8readsomeEPcl, (void *in, char *to, int64_t n), (in, to, n), W(to, counted(in)))
READING(_ZNSi3getEPcl, (void *in, char *to, int64_t n), (in, to, n), if (n > 0) W(to, counted(in) + 1))
READING(_ZNSi3getEPclc, (void *in, char *to, int64_t n, char c), (in, to, n, c), if (n > 0) W(to, counted(in) + 1))
READING(_ZNSi7getlineEPcl, (void *in, char *to, int64_t n), (in, to, n), if (n > 0) W(to, text_part(to, n)))
READING(_ZNSi7getlineEPclc, (void *in, char *to, int64_t n, char c), (in, to, n, c),
        if (n > 0) W(to, text_part(to, n)))
NOTHING(_ZSt17__istream_extractRSiPcl, (void *in, char *to, int64_t n), (in, to, n), tell_stream(WRITE, in, at);,
        W(to, text_part(to, n)))

/* A string's old text is written where it has room; else it is freed, which counts as a write. */
#define STRING_TEXT W(*(char **)to, ((uint64_t *)to)[1] + 1)
#define READING_STRING(NAME, PARAMETERS, ARGUMENTS) \
    MODEL(void *, NAME, PARAMETERS, ARGUMENTS, tell_stream(WRITE, in, at); W(to, STRING), STRING_TEXT)
#define WITH_STRING(BEGIN, END) \
    BEGIN##IcSt11char_traitsIcESaIcEERSt13basic_istreamIT_T0_ES7_RNSt7__cxx1112basic_stringIS4_S5_T1_EE##END
READING_STRING(WITH_STRING(_ZSt7getline, ), (void *in, void *to), (in, to))
READING_STRING(WITH_STRING(_ZSt7getline, S4_), (void *in, void *to, char c), (in, to, c))
READING_STRING(WITH_STRING(_ZStrs, ), (void *in, void *to), (in, to))

/* ---- Exceptions with a text, and locales: of an object two words or one, which its copies share. */

static bool is_error(const char *name)
{
    static const char *const names[] = {
        "11logic_error", "13runtime_error", "16invalid_argument", "12domain_error", "12length_error", "12out_of_range",
        "11range_error", "14overflow_error", "15underflow_error"};

    for (size_t i = 0; i < sizeof names / sizeof *names; i++)
        if (begins(name, names[i]))
            return true;
    return false;
}

/* Functions of an object of so many bytes, by what follows the class in their names. */
static bool is_object_call(const char *name, size_t size, const uint64_t *arguments, const void *at)
{
    const void *other = (const void *)arguments[1];

    if (begins(name, "4whatEv")) {
        R(arguments[0], size)
        return true;
    }
    bool makes = begins(name, "C1E") || begins(name, "C2E"), copies = begins(name, "aSE");
    if (name[0] == 'D') {
    } else if ((makes || copies) && (is_same(name + 3, "RKS_") || is_same(name + 3, "OS_"))) {
        R(other, size)
    } else if (makes && begins(name + 3, "PKc")) {
        RS((const char *)other)
    } else if (makes && begins(name + 3, "RKNSt7__cxx1112basic_string")) {
        tell_string(other, at);
    } else if (!makes || name[3] != 'v') {
        return false;
    }
    W(arguments[0], size)
    return true;
}

static bool is_other_call(const char *name, const uint64_t *arguments, const void *at)
{
    if (begins(name, "_ZNSt6locale7classicEv"))
        return true;
    if (begins(name, "_ZNSt6locale"))
        return is_object_call(name + 12, LOCALE, arguments, at);
    if (!begins(name, "_ZNSt") && !begins(name, "_ZNKSt"))
        return false;
    name += name[3] == 'K' ? 6 : 5;
    if (!is_error(name))
        return false;
    size_t n = 10 * (size_t)(name[0] - '0') + (size_t)(name[1] - '0');
    return is_object_call(name + 2 + n, ERROR, arguments, at);
}

/* Whether a function is known here, and told. */
bool is_followed(const char *name, const uint64_t *arguments, const void *at)
{
    return is_stream_call(name, arguments, at) || is_other_call(name, arguments, at);
}

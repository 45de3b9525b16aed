// Compiles a program of this language by g++ or clang++ as its serial elision. With an empty or absent
// `#include <cilk/cilk.h>` in the program alike:
//
//     g++ -x c++ -std=c++17 -fwrapv -I examples/elision -include cilk/cilk.h examples/fib.c -o fib
//     ./fib < NUMBERS
//
// The built program reads the input numbers from standard input, or from the file that its first word names, and shows
// what `cilk run` shows; a global reducer's name comes from -DCILK_REDUCERS=first,second and is else its place from 1.
// `tools/same_elsewhere` runs programs both ways and compares.
//
// What is as in the language: words of 64 bits that wrap, division, locals that begin as 0, reducers with their views,
// the output, faults 201 and 203. What isn't:
// - A fault has no position. Where two faults stand in one statement, C++ may come to the other one first.
// - A variable that is read in its own first value is 0 or kept in the language, and anything in C++.
// - An index outside its array (202) is caught only with -fsanitize=address,bounds -fsanitize-undefined-trap-on-error
//   (clang: -fsanitize-trap=bounds in place of the last). The limits of a run (204, 205, 206) aren't there at all.
// - `cilk_for` is `for`, so its second bound is evaluated anew for each turn. The language evaluates it once.
// - An expression of numbers alone is computed by C++'s own `int`: 100000 * 100000 has 32 bits (`same_elsewhere` makes
//   each number a word).
// - A function has to be declared before its call (`same_elsewhere` writes the declarations), an int function has to
//   end by a `return`, and a name may be neither a keyword of C++ nor a function of the C library.
//
// With OpenCilk's clang++ and -fopencilk the words stay what they are there, and reducers are OpenCilk's, by the calls
// of its runtime. No such compiler was at hand: that part was compiled with its words taken away, and never run by it.
#pragma once
#include <cstddef>
#include <cstdio>
#include <cstdlib>
#include <new>
#include <type_traits>
#include <unistd.h>
#include <vector>
#include <csignal>

namespace cilk_elision {

/// One line on the error stream, nothing on the other, and status 3.
[[noreturn]] inline void fault(int number) {
  char line[] = "fault 20?\n";
  line[8] = char('0' + number % 10);
  if (write(2, line, 10) != 10) std::_Exit(2);
  std::_Exit(3);
}

template <class View> class reducer;
struct sum;
struct least;
struct greatest;
struct list;
struct map;

template <class T> using if_number = std::enable_if_t<std::is_integral_v<T>, int>;

/// A number of the language: 64 bits that wrap, 0 at first.
struct word {
  long long bits = 0;

  // `int cilk_reducer(add) s` reads `word ::reducer_add s`, so the kinds of reducers are types of the word.
  using reducer_add = reducer<sum>;
  using reducer_min = reducer<least>;
  using reducer_max = reducer<greatest>;
  using reducer_append = reducer<list>;
  using reducer_affine = reducer<map>;

  constexpr word() = default;
  template <class T, if_number<T> = 0> constexpr word(T number) : bits(number) {}
  constexpr operator long long() const { return bits; }

  friend word operator-(word a) { return word(0ull - (unsigned long long)a.bits); }
  word &operator+=(word b);
  word &operator-=(word b);
  word &operator*=(word b);
  word &operator++() { return *this += 1; }
  word &operator--() { return *this += -1; }
  void operator++(int) { *this += 1; }
  void operator--(int) { *this += -1; }
};

inline word plus(word a, word b) { return (unsigned long long)a.bits + (unsigned long long)b.bits; }
inline word minus(word a, word b) { return (unsigned long long)a.bits - (unsigned long long)b.bits; }
inline word times(word a, word b) { return (unsigned long long)a.bits * (unsigned long long)b.bits; }

inline word over(word a, word b) {
  if (b.bits == 0) fault(201);
  return b.bits == -1 ? -a : word(a.bits / b.bits);
}

inline word rest(word a, word b) {
  if (b.bits == 0) fault(201);
  return b.bits == -1 ? word(0) : word(a.bits % b.bits);
}

// An operator of two words, or of a word and a number of C++.
#define CILK_OPERATOR(OPERATOR, MEANING)                                                                \
  inline word operator OPERATOR(word a, word b) { return MEANING; }                                     \
  template <class T, if_number<T> = 0> word operator OPERATOR(word a, T n) { word b = n; return MEANING; } \
  template <class T, if_number<T> = 0> word operator OPERATOR(T n, word b) { word a = n; return MEANING; }
CILK_OPERATOR(+, plus(a, b))
CILK_OPERATOR(-, minus(a, b))
CILK_OPERATOR(*, times(a, b))
CILK_OPERATOR(/, over(a, b))
CILK_OPERATOR(%, rest(a, b))
CILK_OPERATOR(<, a.bits < b.bits)
CILK_OPERATOR(>, a.bits > b.bits)
CILK_OPERATOR(<=, a.bits <= b.bits)
CILK_OPERATOR(>=, a.bits >= b.bits)
CILK_OPERATOR(==, a.bits == b.bits)
CILK_OPERATOR(!=, a.bits != b.bits)
#undef CILK_OPERATOR

inline word &word::operator+=(word b) { return *this = plus(*this, b); }
inline word &word::operator-=(word b) { return *this = minus(*this, b); }
inline word &word::operator*=(word b) { return *this = times(*this, b); }

inline void show(word number) { std::printf("%lld\n", number.bits); }

// The views. Each begins as the unit; `take` multiplies by what is to the right; `only` is a number's own element.

struct sum {
  word at = 0;
  static sum only(word x) { return {x}; }
  void take(const sum &right) { at += right.at; }
  word number() const { return at; }
  void show() const { std::printf(" %lld", at.bits); }
};

struct least {
  word at = 9223372036854775807;
  static least only(word x) { return {x}; }
  void take(const least &right) { at = right.at.bits < at.bits ? right.at : at; }
  word number() const { return at; }
  void show() const { std::printf(" %lld", at.bits); }
};

struct greatest {
  word at = -9223372036854775807 - 1;
  static greatest only(word x) { return {x}; }
  void take(const greatest &right) { at = right.at.bits > at.bits ? right.at : at; }
  word number() const { return at; }
  void show() const { std::printf(" %lld", at.bits); }
};

struct list {
  std::vector<word> at;
  static list only(word x) { return {{x}}; }
  void take(const list &right) { at.insert(at.end(), right.at.begin(), right.at.end()); }
  word number() const { return at.size(); }
  void show() const {
    for (word x : at) std::printf(" %lld", x.bits);
  }
};

/// The map `y -> scale * y + shift`; a number x stands for `y -> 10 * y + x`.
struct map {
  word scale = 1, shift = 0;
  static map only(word x) { return {10, x}; }
  void take(const map &right) {
    scale = right.scale * scale;
    shift = right.scale * shift + right.shift;
  }
  word number() const { return shift; }
  void show() const { std::printf(" %lld", shift.bits); }
};

#ifdef __cilk
extern "C" {
void __cilkrts_reducer_register(void *key, std::size_t size, void (*identity)(void *), void (*reduce)(void *, void *));
void __cilkrts_reducer_unregister(void *key);
void *__cilkrts_reducer_lookup(void *key, std::size_t size, void *identity, void *reduce);
}
#endif

/// What shows the global reducers at the end, in order of declaration.
struct shown {
  const void *view;
  void (*show)(const void *view);
};
inline std::vector<shown> &globals() {
  static std::vector<shown> all;
  return all;
}
inline bool has_begun = false;

/// A reducer, with its own view; a copy of it, as a parameter is, stands for the same one.
template <class View> class reducer {
  View own;
  View *at = &own;

  static void show_view(const void *view) { static_cast<const View *>(view)->show(); }

public:
  reducer() {
#ifdef __cilk
    __cilkrts_reducer_register(at, sizeof(View), identity, reduce);
#endif
    if (!has_begun) globals().push_back({at, show_view});
  }
  reducer(const reducer &lent) : at(lent.at) {}
  reducer &operator=(const reducer &) = delete;

#ifdef __cilk
  static void identity(void *view) { new (view) View; }
  static void reduce(void *left, void *right) {
    static_cast<View *>(left)->take(*static_cast<View *>(right));
    static_cast<View *>(right)->~View();
  }
  ~reducer() {
    if (at == &own && has_begun) __cilkrts_reducer_unregister(at);
  }
  View &view() const {
    void *found = __cilkrts_reducer_lookup(at, sizeof(View), (void *)&identity, (void *)&reduce);
    return *static_cast<View *>(found);
  }
#else
  View &view() const { return *at; }
#endif
};

inline std::vector<word> &numbers() {
  static std::vector<word> all;
  return all;
}

inline reducer<list> &output() {
  static reducer<list> all;
  return all;
}

inline void read_numbers(const char *path) {
  std::FILE *file = path ? std::fopen(path, "r") : stdin;
  if (!file) {
    std::fprintf(stderr, "cannot read %s\n", path);
    std::_Exit(2);
  }
  long long number;
  while (std::fscanf(file, "%lld", &number) == 1) numbers().push_back(number);
}

// The names of the global reducers: the numbers that -DCILK_REDUCERS gives as text.
#define CILK_TEXT(...) CILK_TEXT_OF(__VA_ARGS__)
#define CILK_TEXT_OF(...) #__VA_ARGS__
#ifdef CILK_REDUCERS
inline const char *names = CILK_TEXT(CILK_REDUCERS);
#else
inline const char *names = "";
#endif

inline void show_reducers() {
  int place = 0;
  for (const shown &it : globals()) {
    place++;
    std::printf("reducer ");
    if (!*names) std::printf("%d", place);
    while (*names && *names != ',') std::putchar(*names++);
    if (*names == ',') names++;
    it.show(it.view);
    std::printf("\n");
  }
}

} // namespace cilk_elision

inline void print(cilk_elision::word number) {
  cilk_elision::output().view().take(cilk_elision::list::only(number));
}

inline cilk_elision::word input_count() { return cilk_elision::numbers().size(); }

inline cilk_elision::word input(cilk_elision::word place) {
  if (place.bits < 0 || place.bits >= (long long)cilk_elision::numbers().size()) cilk_elision::fault(203);
  return cilk_elision::numbers()[place.bits];
}

template <class View> void update(const cilk_elision::reducer<View> &reducer, cilk_elision::word number) {
  reducer.view().take(View::only(number));
}

template <class View> void set(const cilk_elision::reducer<View> &reducer, cilk_elision::word number) {
  reducer.view() = View::only(number);
}

template <class View> cilk_elision::word value(const cilk_elision::reducer<View> &reducer) {
  return reducer.view().number();
}

cilk_elision::word cilk_main();

// With the checks for indices, the compiler's trap and its sanitizer are fault 202.
extern "C" void __asan_on_error() { cilk_elision::fault(202); }
extern "C" const char *__asan_default_options() { return "detect_leaks=0"; }

int main(int count, char **words) {
  std::signal(SIGILL, [](int) { cilk_elision::fault(202); });
  cilk_elision::read_numbers(count > 1 ? words[1] : nullptr);
  cilk_elision::has_begun = true;
  cilk_elision::output();
  cilk_elision::word result = cilk_main();
  for (cilk_elision::word number : cilk_elision::output().view().at) cilk_elision::show(number);
  cilk_elision::show_reducers();
  std::printf("result %lld\n", result.bits);
  return std::fflush(stdout) ? 2 : 0;
}

#define main cilk_main
#define int ::cilk_elision::word
#define cilk_reducer(MONOID) ::reducer_##MONOID
#ifdef __cilk
#define cilk_spawn _Cilk_spawn
#define cilk_sync _Cilk_sync
#define cilk_for _Cilk_for
#else
#define cilk_spawn
#define cilk_sync
#define cilk_for for
#endif

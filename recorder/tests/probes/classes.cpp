// Features and containers of C++, each once where a spawned call and its parent meet in memory, and once where they don't.
#include <cilk/cilk.h>
#include <algorithm>
#include <array>
#include <bitset>
#include <complex>
#include <cstdio>
#include <cstdlib>
#include <deque>
#include <forward_list>
#include <functional>
#include <initializer_list>
#include <iterator>
#include <list>
#include <map>
#include <memory>
#include <new>
#include <numeric>
#include <optional>
#include <queue>
#include <set>
#include <sstream>
#include <stack>
#include <string>
#include <string_view>
#include <tuple>
#include <typeinfo>
#include <unordered_map>
#include <unordered_set>
#include <utility>
#include <valarray>
#include <variant>
#include <vector>

struct Base { int x = 0; virtual ~Base() {} virtual int get() const { return x; } virtual void set(int k) { x = k; } };
struct Left : Base { int y = 0; int get() const override { return y; } void set(int k) override { y = k; } };
struct Top { int t = 0; };
struct A : virtual Top { int a = 0; };
struct B : virtual Top { int b = 0; };
struct Both : A, B { int both = 0; };
struct Counted { static int made; int k; Counted(int n) : k(n) { made++; } Counted(const Counted &o) : k(o.k) {} ~Counted() {} };
int Counted::made;
struct Money {
  long cents = 0;
  Money &operator+=(const Money &o) { cents += o.cents; return *this; }
  friend Money operator+(Money a, const Money &b) { return a += b; }
  explicit operator bool() const { return cents; }
  bool operator<(const Money &o) const { return cents < o.cents; }
};
template <class T> struct Box { T value{}; static T shared; T &at() { return value; } };
template <class T> T Box<T>::shared{};
template <class T> void assign(T &to, T from) { to = from; }
template <class... T> int sum_of(const T &...all) { return (0 + ... + all); }
struct Moved { std::vector<int> v; Moved(int n) : v(n) {} Moved(Moved &&o) : v(std::move(o.v)) {} Moved &operator=(Moved &&) = default; };
inline int inline_one, inline_two;
static int sum;
static int &first() { static int k = 1; return k; }
static int &second() { static int k = 1; return k; }

struct Shared {
  int i = 0, i2 = 0, a[8] = {};
  Left left, left2;
  Base base;
  Both both;
  Money money, money2;
  Box<long> box, box2;
  std::vector<int> v = {3, 1, 2}, w = {1, 2, 3};
  std::vector<bool> flags = std::vector<bool>(200);
  std::deque<int> d = {1, 2}, d2 = {1, 2};
  std::list<int> l = {1, 2, 3}, l2 = {1, 2};
  std::forward_list<int> fl = {1, 2}, fl2 = {1};
  std::map<int, int> m = {{1, 1}, {2, 2}}, m2 = {{1, 1}};
  std::set<int> s = {1, 2, 3}, s2 = {1};
  std::multimap<int, int> mm = {{1, 1}}, mm2 = {{1, 1}};
  std::unordered_map<int, int> um = {{1, 1}}, um2 = {{1, 1}};
  std::unordered_set<int> us = {1}, us2 = {1};
  std::priority_queue<int> pq, pq2;
  std::stack<int> st, st2;
  std::queue<int> q, q2;
  std::string text = "short", text2 = "short", longer = std::string(60, 'x'), longer2 = std::string(60, 'x');
  std::string_view view = text;
  std::optional<int> o = 1, o2 = 1;
  std::variant<int, double> var = 1, var2 = 1;
  std::unique_ptr<int> u = std::make_unique<int>(1), u2 = std::make_unique<int>(1);
  std::pair<int, int> pair{1, 2};
  std::tuple<int, long, char> tuple{1, 2, 'c'};
  std::array<int, 4> array{}, array2{};
  std::bitset<128> bitset, bitset2;
  std::valarray<double> val = {1, 2, 3}, val2 = {1, 2, 3};
  std::complex<double> z{1, 2}, z2{1, 2};
  std::function<int()> f = [] { return 1; }, f2 = [] { return 2; };
  std::ostringstream out, out2;
  int Shared::*member = &Shared::i;
  Moved moved{3}, moved2{3};
  int *block = new int[4](), *block2 = new int[4]();
  union { int number; float real; } either{1};
};

#define PROBE(K, CHILD, RACY, FREE) \
  static void child##K(Shared &g) { (void)g; CHILD; } \
  static void probe##K(Shared &g, bool racy) { cilk_spawn child##K(g); if (racy) { RACY; } else { FREE; } cilk_sync; }

PROBE(0, g.left.set(1), sum = g.left.get(), sum = g.left.x)
PROBE(1, static_cast<Base &>(g.left).set(2), g.left.y++, g.left2.y++)
PROBE(2, g.both.t = 1, sum = static_cast<B &>(g.both).t, sum = g.both.a + g.both.b)
PROBE(3, g.both.b = 1, B &b = g.both; sum = b.b, A &a = g.both; sum = a.a)
PROBE(4, g.money += Money{3}, g.money2 = g.money + Money{1}, g.money2 = g.money2 + Money{1})
PROBE(5, g.money.cents = 1, if (g.money) sum = 1, if (g.money2) sum = 1)
PROBE(6, Counted a(1), Counted b(2), sum = 1)
PROBE(7, assign(g.i, 3), assign(g.i, 4), assign(g.i2, 4))
PROBE(8, Box<int>::shared = 1, sum = Box<int>::shared, sum = (int)Box<long>::shared)
PROBE(9, g.box.at() = 1, sum = (int)g.box.at(), sum = (int)g.box2.at())
PROBE(10, g.i = 1, sum = sum_of(1, g.i, 2), sum = sum_of(1, g.i2, 2))
PROBE(11, first() = 2, sum = first(), sum = second())
PROBE(12, inline_one = 1, sum = inline_one, sum = inline_two)
PROBE(13, g.v.push_back(1), g.v.push_back(2), g.w.push_back(2))
PROBE(14, g.v[1] = 3, sum = g.v.at(1), sum = g.v.at(2))
PROBE(15, std::sort(g.v.begin(), g.v.end()), sum = g.v.front(), sum = g.w.front())
PROBE(16, g.v.clear(), sum = g.v.empty(), sum = g.w.empty())
PROBE(17, g.flags[70] = true, g.flags[71] = true, g.flags[130] = true)
PROBE(18, g.d.push_front(1), sum = (int)g.d.size(), sum = (int)g.d2.size())
PROBE(19, g.d[1] = 2, for (int k : g.d) sum += k, for (int k : g.d2) sum += k)
PROBE(20, g.l.push_back(4), g.l.reverse(), g.l2.reverse())
PROBE(21, g.l.front() = 7, sum = std::accumulate(g.l.begin(), g.l.end(), 0),
      sum = std::accumulate(g.l2.begin(), g.l2.end(), 0))
PROBE(22, g.fl.push_front(1), sum = g.fl.front(), sum = g.fl2.front())
PROBE(23, g.m[5] = 1, sum = (int)g.m.count(2), sum = (int)g.m2.count(1))
PROBE(24, g.m.erase(1), for (auto &[k, x] : g.m) sum += x, for (auto &[k, x] : g.m2) sum += x)
PROBE(25, g.m[1] = 9, sum = g.m.at(1), sum = g.m.at(2))
PROBE(26, g.s.insert(9), g.s.insert(10), g.s2.insert(10))
PROBE(27, g.s.clear(), sum = (int)std::distance(g.s.begin(), g.s.end()), sum = (int)g.s2.size())
PROBE(28, g.mm.emplace(2, 2), sum = (int)g.mm.size(), sum = (int)g.mm2.size())
PROBE(29, g.um[7] = 1, g.um[8] = 1, g.um2[8] = 1)
PROBE(30, for (int k = 2; k < 40; k++) g.us.insert(k), sum = (int)g.us.count(1), sum = (int)g.us2.count(1))
PROBE(31, g.pq.push(3), g.pq.push(4), g.pq2.push(4))
PROBE(32, g.st.push(1), sum = g.st.empty(), sum = g.st2.empty())
PROBE(33, g.q.push(1), g.q.push(2), g.q2.push(2))
PROBE(34, g.text += "x", sum = (int)g.text.size(), sum = (int)g.text2.size())
PROBE(35, g.longer[40] = 'y', sum = (int)g.longer.find('y'), sum = (int)g.longer2.find('y'))
PROBE(36, g.text[2] = 'y', sum = g.text == g.text2, sum = g.longer2 == g.text2)
PROBE(37, g.text[1] = 'z', sum = g.view[1], sum = g.view[2])
PROBE(38, g.longer = "other", std::string copy = g.longer; sum = copy[0], std::string copy = g.longer2; sum = copy[0])
PROBE(39, g.longer.insert(3, "ab"), sum = (int)g.longer.substr(2, 3).size(), sum = (int)g.longer2.substr(2, 3).size())
PROBE(40, g.o.reset(), sum = g.o.value_or(3), sum = g.o2.value_or(3))
PROBE(41, g.var = 2.0, sum = (int)g.var.index(), sum = (int)g.var2.index())
PROBE(42, *g.u = 2, sum = *g.u, sum = *g.u2)
PROBE(43, g.u.reset(), sum = g.u != nullptr, sum = g.u2 != nullptr)
PROBE(44, g.pair.first = 2, auto pair = g.pair; sum = pair.second, sum = g.pair.second)
PROBE(45, std::get<1>(g.tuple) = 3, sum = (int)std::get<long>(g.tuple), sum = std::get<0>(g.tuple))
PROBE(46, g.array.fill(1), sum = g.array[3], sum = g.array2[3])
PROBE(47, g.bitset[3] = true, sum = g.bitset.test(4), sum = g.bitset2.test(4))
PROBE(48, g.val *= 2.0, sum = (int)g.val.sum(), sum = (int)g.val2.sum())
PROBE(49, g.z += g.z2, g.z = g.z * 2.0, sum = (int)g.z2.real())
PROBE(50, g.f = [] { return 3; }, sum = g.f(), sum = g.f2())
PROBE(51, g.out << 1, g.out << 2, g.out2 << 2)
PROBE(52, g.*g.member = 1, sum = g.i, sum = g.i2)
PROBE(53, g.moved = Moved(4), sum = (int)g.moved.v.size(), sum = (int)g.moved2.v.size())
PROBE(54, g.block[2] = 1, delete[] g.block, delete[] g.block2)
PROBE(55, new (&g.i) int(4), sum = g.i, sum = g.i2)
PROBE(56, g.either.real = 1, sum = g.either.number, sum = g.i)
PROBE(57, std::swap(g.a[0], g.a[1]), std::reverse(g.a, g.a + 2), std::reverse(g.a + 2, g.a + 4))
PROBE(58, g.i = 1, auto lambda = [&g] { return g.i; }; sum = lambda(),
      auto lambda = [k = g.i2] { return k; }; sum = lambda())
PROBE(59, g.a[3] = 1, std::for_each(g.a, g.a + 4, [](int k) { sum += k; }),
      std::for_each(g.a + 4, g.a + 8, [](int k) { sum += k; }))
PROBE(60, g.base.~Base(); new (&g.base) Base, const Base *x = &g.base; sum = typeid(*x) == typeid(Base),
      const Base *x = &g.left; sum = typeid(*x) == typeid(Base))
PROBE(61, g.a[5] = 1, try { if (g.a[5] < 2) throw 1; } catch (int k) { sum = k; },
      try { if (g.a[6] < 2) throw 1; } catch (int k) { sum = k; })
PROBE(62, std::copy(g.w.begin(), g.w.end(), g.a), sum = std::max({g.a[2], 1}), sum = std::max({g.a[3], 1}))
PROBE(63, g.w.assign(5, 1), sum = std::count(g.w.begin(), g.w.end(), 1), sum = std::count(g.v.begin(), g.v.end(), 1))
PROBE(64, g.base.~Base(); new (&g.base) Base, Base *x = &g.base; sum = dynamic_cast<Left *>(x) != nullptr,
      Base *x = &g.left; sum = dynamic_cast<Left *>(x) != nullptr)

#define ONE(K) probe##K
static void (*const probes[])(Shared &, bool) = {ONE(0), ONE(1), ONE(2), ONE(3), ONE(4), ONE(5), ONE(6), ONE(7), ONE(8), ONE(9),
  ONE(10), ONE(11), ONE(12), ONE(13), ONE(14), ONE(15), ONE(16), ONE(17), ONE(18), ONE(19), ONE(20), ONE(21), ONE(22), ONE(23),
  ONE(24), ONE(25), ONE(26), ONE(27), ONE(28), ONE(29), ONE(30), ONE(31), ONE(32), ONE(33), ONE(34), ONE(35), ONE(36), ONE(37),
  ONE(38), ONE(39), ONE(40), ONE(41), ONE(42), ONE(43), ONE(44), ONE(45), ONE(46), ONE(47), ONE(48), ONE(49), ONE(50), ONE(51),
  ONE(52), ONE(53), ONE(54), ONE(55), ONE(56), ONE(57), ONE(58), ONE(59), ONE(60), ONE(61), ONE(62), ONE(63), ONE(64)};

int main(int n, char **words) {
  if (n < 3) return std::printf("%zu\n", sizeof probes / sizeof *probes) < 0;
  Shared *g = new Shared;
  probes[std::atoi(words[1])](*g, words[2][0] == 'r');
  return 0;
}

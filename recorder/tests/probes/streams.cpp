// What functions of C++'s streams, exceptions and locales read and write beside their object: texts, and buffers.
#include <cilk/cilk.h>
#include <cstdlib>
#include <cstring>
#include <fstream>
#include <iomanip>
#include <iostream>
#include <locale>
#include <sstream>
#include <stdexcept>
#include <string>

static int sum;
static std::string text(60, 'x'), other(60, 'y'), heap(200, 'h');
static char buffer[64] = "00000000", spare[64] = "00000000";
static std::stringstream in("12 34 word word word word\nline one\nline two\nline three\n"), apart("1 2 3");
static std::ostringstream out, out_apart;
static const char *const heap_text = heap.data();
static std::runtime_error error("first"), error_apart("second");
static std::locale place, place_apart;
struct Named : std::ostringstream { explicit Named(const std::string &s) : std::ostringstream(s) {} };
struct Fault : std::logic_error { explicit Fault(const std::string &s) : std::logic_error(s) {} };
static int thrown(const std::string &s) {
  try {
    throw std::out_of_range(s);
  } catch (const std::exception &e) {
    return e.what()[0];
  }
}

#define PROBE(K, CHILD, RACY, FREE) \
  static void child##K() { CHILD; } \
  static void probe##K(bool racy) { cilk_spawn child##K(); if (racy) { RACY; } else { FREE; } cilk_sync; }

PROBE(0, std::istringstream s(text); int k; s >> k; sum = 1, text[3] = 'z', other[3] = 'z')
PROBE(1, std::stringstream s(text); sum = (int)s.tellp(), text[3] = 'z', other[3] = 'z')
PROBE(2, std::ofstream s(buffer); sum = s.good(), buffer[1] = '1', spare[1] = '1')
PROBE(3, std::ifstream s; s.open(text); sum = s.is_open(), text[3] = 'z', other[3] = 'z')
PROBE(4, in.str(text), text[3] = 'z', other[3] = 'z')
PROBE(5, Named s(text); sum = 1, text[3] = 'z', other[3] = 'z')
PROBE(6, in.getline(buffer, 20), sum = buffer[1], sum = buffer[30])
PROBE(7, in.get(buffer, 5), sum = buffer[4], sum = buffer[5])
PROBE(8, sum = (int)in.readsome(buffer, 5), spare[0] = buffer[4], spare[0] = buffer[5])
PROBE(9, in.read(buffer, 4), sum = buffer[3], sum = buffer[4])
PROBE(10, in >> std::setw(10) >> buffer, sum = buffer[2], sum = buffer[3])
PROBE(11, std::getline(in, heap), sum = heap_text[3], sum = spare[3])
PROBE(12, in >> heap, sum = heap_text[1], sum = spare[1])
PROBE(13, int k; in >> k, sum = in.eof(), sum = apart.eof())
PROBE(14, int k; in >> k, in << 3, apart << 3)
PROBE(15, in.setstate(std::ios::failbit), sum = in.good(), sum = apart.good())
PROBE(16, in.imbue(std::locale::classic()), std::locale l = in.getloc(), std::locale l = apart.getloc())
PROBE(17, out << text, text[3] = 'z', other[3] = 'z')
PROBE(18, out << buffer << std::setw(3) << 1.5 << std::endl, out << 'c', out_apart << 'c')
PROBE(19, std::runtime_error e(text); sum = 1, text[3] = 'z', other[3] = 'z')
PROBE(20, std::logic_error e(buffer); sum = 1, buffer[1] = '1', spare[1] = '1')
PROBE(21, error = std::runtime_error("x"), sum = error.what()[0], sum = error_apart.what()[0])
PROBE(22, new (&error) std::runtime_error("x"), std::runtime_error e(error), std::runtime_error e(error_apart))
PROBE(23, sum = thrown(text), text[3] = 'z', other[3] = 'z')
PROBE(24, Fault f(text); sum = 1, text[3] = 'z', other[3] = 'z')
PROBE(25, place = std::locale::classic(), std::locale c(place), std::locale c(place_apart))

int main(int n, char **words) {
  static void (*const all[])(bool) = {
    probe0, probe1, probe2, probe3, probe4, probe5, probe6, probe7, probe8, probe9, probe10, probe11, probe12,
    probe13, probe14, probe15, probe16, probe17, probe18, probe19, probe20, probe21, probe22, probe23, probe24,
    probe25};
  if (n < 3) return 1;
  all[atoi(words[1])](words[2][0] == 'r');
  return 0;
}

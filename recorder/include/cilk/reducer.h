/*
 * Reducers as classes. An object is one number of the trace: its construction is `create`, each operation `update`,
 * reading its value `value`, its end `retire`. What an operation does to the view isn't recorded as reads and writes; its
 * operand is a copy, which the caller makes and is recorded for.
 *
 * cilk::opadd_reducer<T>, opmul_reducer, max_reducer, min_reducer   +=, -=, *=, ++, --; r = the greater of r and x by
 *                                                                  calc_max, calc_min; converted to T: its value
 * cilk::reducer_opadd<T>, reducer_opmul, reducer_max, reducer_min   the same under older names, with get_value
 * cilk::reducer_list_append<T>                                      push_back, get_value
 */
#ifndef CILKREC_REDUCER_H
#define CILKREC_REDUCER_H

#include <cilk/cilk.h>

#ifdef __cplusplus
#include <limits>
#include <list>

#define CILKREC_UNSEEN __attribute__((no_instrument_function, no_sanitize("address", "thread")))

namespace cilk {

/* An operation on a view, as long as this object is there. */
class recorded_operation {
public:
  CILKREC_UNSEEN explicit recorded_operation(unsigned number) { cilkrec_operation_begin(number); }
  CILKREC_UNSEEN ~recorded_operation() { cilkrec_operation_end(); }
};

/* The part that all have: the number, and the view. */
template <class T>
class recorded_reducer {
public:
  CILKREC_UNSEEN explicit recorded_reducer(T first) : view(first), number(cilkrec_reducer_create()) {}
  CILKREC_UNSEEN ~recorded_reducer() { cilkrec_reducer_retire(number); }
  recorded_reducer(const recorded_reducer &) = delete;
  recorded_reducer &operator=(const recorded_reducer &) = delete;

  CILKREC_UNSEEN const T &get_value() const {
    cilkrec_reducer_value(number);
    return view;
  }
  CILKREC_UNSEEN void set_value(T x) {
    cilkrec_reducer_value(number);
    view = x;
  }
  CILKREC_UNSEEN operator T() const { return get_value(); }

protected:
  T view;
  unsigned number;
};

template <class T>
class opadd_reducer : public recorded_reducer<T> {
public:
  CILKREC_UNSEEN opadd_reducer(T first = T()) : recorded_reducer<T>(first) {}
  CILKREC_UNSEEN opadd_reducer &operator=(T x) { this->set_value(x); return *this; }
  CILKREC_UNSEEN opadd_reducer &operator+=(T x) {
    recorded_operation now(this->number);
    this->view += x;
    return *this;
  }
  CILKREC_UNSEEN opadd_reducer &operator-=(T x) {
    recorded_operation now(this->number);
    this->view -= x;
    return *this;
  }
  CILKREC_UNSEEN opadd_reducer &operator++() { return *this += T(1); }
  CILKREC_UNSEEN opadd_reducer &operator--() { return *this -= T(1); }
  CILKREC_UNSEEN void operator++(int) { *this += T(1); }
  CILKREC_UNSEEN void operator--(int) { *this -= T(1); }
};

template <class T>
class opmul_reducer : public recorded_reducer<T> {
public:
  CILKREC_UNSEEN opmul_reducer(T first = T(1)) : recorded_reducer<T>(first) {}
  CILKREC_UNSEEN opmul_reducer &operator*=(T x) {
    recorded_operation now(this->number);
    this->view *= x;
    return *this;
  }
};

template <class T>
class max_reducer : public recorded_reducer<T> {
public:
  CILKREC_UNSEEN max_reducer(T first = std::numeric_limits<T>::lowest()) : recorded_reducer<T>(first) {}
  CILKREC_UNSEEN void calc_max(T x) {
    recorded_operation now(this->number);
    if (this->view < x) this->view = x;
  }
};

template <class T>
class min_reducer : public recorded_reducer<T> {
public:
  CILKREC_UNSEEN min_reducer(T first = std::numeric_limits<T>::max()) : recorded_reducer<T>(first) {}
  CILKREC_UNSEEN void calc_min(T x) {
    recorded_operation now(this->number);
    if (x < this->view) this->view = x;
  }
};

template <class T>
class reducer_list_append : public recorded_reducer<std::list<T>> {
public:
  CILKREC_UNSEEN reducer_list_append() : recorded_reducer<std::list<T>>(std::list<T>()) {}
  CILKREC_UNSEEN void push_back(T x) {
    recorded_operation now(this->number);
    this->view.push_back(x);
  }
};

template <class T> using reducer_opadd = opadd_reducer<T>;
template <class T> using reducer_opmul = opmul_reducer<T>;
template <class T> using reducer_max = max_reducer<T>;
template <class T> using reducer_min = min_reducer<T>;

} // namespace cilk
#endif
#endif

/*
 * OpenCilk's words for recording. `cilkrec` compiles a program as its serial elision: these words become calls of the
 * recorder's runtime. `cilk_spawn`, `cilk_scope` and `cilk_reducer` stay in the preprocessed text, where spawn_marks.py
 * replaces them; `cilk_for` is OpenMP's taskloop, by which the compiler itself makes a function of the body.
 */
#ifndef CILKREC_CILK_H
#define CILKREC_CILK_H

#ifndef CILKREC
#error "this <cilk/cilk.h> is the recorder's: compile by `cilkrec COMPILER ..`"
#endif

#ifdef __cplusplus
extern "C" {
#endif
__SIZE_TYPE__ cilkrec_spawn_begin(void); /* 0 */
void cilkrec_spawn_inside(void);
void cilkrec_spawn_into(void *place, __SIZE_TYPE__ size);
void cilkrec_spawn_end(void);
void cilkrec_sync(void);
int cilkrec_scope_begin(void);
void cilkrec_scope_end(int *variable);
void cilkrec_leave(int *variable);
void cilkrec_reducer_local(void *variable, __SIZE_TYPE__ size);
void cilkrec_reducer_global(void *variable, __SIZE_TYPE__ size);
unsigned cilkrec_reducer_create(void);
void cilkrec_operation_begin(unsigned reducer);
void cilkrec_operation_end(void);
void cilkrec_reducer_value(unsigned reducer);
void cilkrec_reducer_retire(unsigned reducer);
#ifdef __cplusplus
}
/* What a call of this type gives. */
template <class T> struct cilkrec_given { enum { is_value = 1 }; };
template <class T> struct cilkrec_given<T &> { enum { is_value = 0 }; };
template <class T> struct cilkrec_given<T &&> { enum { is_value = 0 }; };
#endif

#define cilk_sync cilkrec_sync()
#define cilk_for _Pragma("omp taskloop default(shared) grainsize(1)") for

#define _Cilk_spawn cilk_spawn
#define _Cilk_sync cilk_sync
#define _Cilk_for cilk_for
#define _Cilk_scope cilk_scope
#define _Hyperobject cilk_reducer()

#endif

/* OpenCilk's calls, as one worker answers them. */
#ifndef CILKREC_CILK_API_H
#define CILKREC_CILK_API_H

static inline unsigned __cilkrts_get_nworkers(void) { return 1; }
static inline unsigned __cilkrts_get_worker_number(void) { return 0; }
static inline int __cilkrts_running_on_workers(void) { return 1; }
static inline int __cilkrts_is_initialized(void) { return 1; }

#endif

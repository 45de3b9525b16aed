/* A program whose own names are those that a recorder may have: all of them are the program's. */
#include <cilk/cilk.h>
#include <stdio.h>
struct frame { int base; } frames[4];
int depth, span = 5, recording, stack_low, load_address, used_sites, stack_bytes, is_writing, own_low, own_size, strand, segment;
int top, is_all_written, is_looking, is_unseen_wanted, passed_by_exceptions, is_stripped, new_block, begin_run, put_enter;
int put_end, put_sync, put_called, put_spawned, put_reducer, put_unseen, flush_buffer, open_trace, close_trace, ensure_frame;
int set_mirrors, set_parallel, set_parallel_from, retire_locals, begin_candidate, library_begin, call_began, assembly_ran;
int push(int x) { frames[depth].base = x; return depth++; }
void end_frame(void) { depth--; }
void give_up(void) { recording = 1; }
int zeroed(int *p, int n) { for (int i = 0; i < n; i++) p[i] = 0; return n; }
int put_cells(int k) { return k; }
int main(void) {
  int cells[2][4], a, b;
  a = cilk_spawn zeroed(cells[0], 4);
  b = zeroed(cells[1], 4);
  cilk_sync;
  push(1), push(2), end_frame(), give_up();
  printf("%d %d %d %d\n", a + b, depth, span, put_cells(recording));
  return a + b != 8 || depth != 1 || span != 5;
}

/* A heap in place of the kit's object, by the same three names: the allocation of a number fails, or those from it on,
 * and blocks are counted, by threads too. */
#include <stdint.h>
#include <stdlib.h>

long heap_fail_at = -1, heap_count, heap_live;

typedef struct {
  uint64_t ok;
  void *at;
} answer;

static char nothing;

static void count(long *what, long by) { __atomic_add_fetch(what, by, __ATOMIC_RELAXED); }

static int refused(void) { return __atomic_add_fetch(&heap_count, 1, __ATOMIC_RELAXED) == heap_fail_at; }

static answer given(void *at, int is_new) {
  if (at && is_new) count(&heap_live, 1);
  return (answer){at != 0, at ? at : &nothing};
}

answer rattle_alloc(size_t size, size_t align) { return given(refused() ? NULL : malloc(size ? size : align), 1); }

answer rattle_realloc(void *old, size_t was, size_t size, size_t align) {
  (void)was;
  return given(refused() ? NULL : realloc(old, size ? size : align), 0);
}

void rattle_dealloc(void *at) {
  count(&heap_live, -1);
  free(at);
}

/* The heap of the library by the three names that it asks for: that of C, as the kit's own object has it, so that
 * nothing of the kit is needed to build this module. */
#include <stdint.h>
#include <stdlib.h>

typedef struct {
  uint64_t ok;
  void *at;
} answer;

static char nothing;

static answer given(void *at) { return (answer){at != 0, at ? at : &nothing}; }

answer rattle_alloc(size_t size, size_t align) { return given(malloc(size ? size : align)); }

answer rattle_realloc(void *old, size_t was, size_t size, size_t align) {
  (void)was;
  return given(realloc(old, size ? size : align));
}

void rattle_dealloc(void *at) { free(at); }

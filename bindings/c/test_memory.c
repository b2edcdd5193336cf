/* memory FILE: each allocation of a script fails in turn. The call that it fails in answers ROLGUNAI_MEMORY, or as if
 * it hadn't; made again after ROLGUNAI_MEMORY it says what it says where nothing fails. After ROLGUNAI_NO_TEXT the line
 * is played, and its text is there to be asked for. And nothing is left after the end. */
#include "rolgunai.h"

#include <stdio.h>
#include <string.h>

extern long heap_fail_at, heap_count, heap_live;
static uint8_t text[1 << 20], wanted[1 << 20], out[1 << 20];
static size_t length, wanted_size;

/* What the script says, with the allocation of this number failing: its size, or 0 and why. */
static const char *played(long at, uint8_t *into, size_t room, size_t *size, long *refusals) {
  rolgunai_handle handle = {0};
  heap_fail_at = at;
  heap_count = 0;
  *size = 0;
  uint32_t status = rolgunai_new(&handle, 4096);
  if (status == ROLGUNAI_MEMORY) {
    ++*refusals;
    status = rolgunai_new(&handle, 4096);
  }
  if (status != ROLGUNAI_OK) return "the open";
  for (size_t from = 0; from < length;) {
    const uint8_t *end = memchr(text + from, '\n', length - from);
    size_t to = end ? (size_t)(end - text) : length, said = 1;
    status = rolgunai_handle_line(&handle, text + from, to - from, into + *size, room - *size, &said);
    if (status == ROLGUNAI_MEMORY) {
      if (said != 0) return "a size after ROLGUNAI_MEMORY";
      ++*refusals;
      status = rolgunai_handle_line(&handle, text + from, to - from, into + *size, room - *size, &said);
    }
    if (status == ROLGUNAI_NO_TEXT) {
      if (said != 0) return "a size after ROLGUNAI_NO_TEXT";
      ++*refusals;
      status = rolgunai_last_text(&handle, into + *size, room - *size, &said);
    }
    if (status != ROLGUNAI_OK) return "a line";
    *size += said;
    from = to + 1;
  }
  if (rolgunai_free(&handle) != ROLGUNAI_OK) return "the end";
  return heap_live ? "blocks are left" : NULL;
}

int main(int count, char **words) {
  if (count != 2) return 3;
  FILE *file = fopen(words[1], "rb");
  if (!file) return 1;
  length = fread(text, 1, sizeof text, file);
  fclose(file);
  long refusals = 0, tried = 0;
  const char *why = played(-1, wanted, sizeof wanted, &wanted_size, &refusals);
  long all = heap_count;
  for (; !why && tried < all; tried++) {
    size_t size;
    why = played(tried + 1, out, sizeof out, &size, &refusals);
    if (!why && (size != wanted_size || memcmp(out, wanted, size) != 0)) why = "other answers";
  }
  if (why) printf("FAILED at allocation %ld: %s\n", tried, why);
  printf("%ld allocations failed in turn, %ld of them in a call that answered so\n", tried, refusals);
  return why != NULL || refusals == 0;
}

/* Plays a script of JSON lines through the library, as the program does: play FILE writes what is said to it, and
 * play --decimals FILE does so with every JSON number as a value. */
#include "rolgunai.h"

#include <stdio.h>
#include <stdlib.h>
#include <string.h>
#include <sys/types.h>

/* A buffer that grows to the longest answer. It begins short, so that the first answers take the way by
 * rolgunai_last_text. */
static uint8_t *out;
static size_t room = 16;

static int grown(size_t size) {
  uint8_t *more = realloc(out, 2 * size);
  if (!more) return 0;
  out = more;
  room = 2 * size;
  return 1;
}

static uint32_t played(rolgunai_handle *handle, const uint8_t *line, size_t length, size_t *size) {
  uint32_t status = rolgunai_handle_line(handle, line, length, out, room, size);
  while (status == ROLGUNAI_BUFFER_TOO_SMALL || status == ROLGUNAI_NO_TEXT) {
    if (status == ROLGUNAI_BUFFER_TOO_SMALL && !grown(*size)) return ROLGUNAI_MEMORY;
    status = rolgunai_last_text(handle, out, room, size);
  }
  return status;
}

static int play(rolgunai_handle *handle, FILE *script) {
  char *line = NULL;
  size_t line_room = 0, size;
  ssize_t length;
  int status = 0;
  while (!status && (length = getline(&line, &line_room, script)) > 0) {
    if (line[length - 1] == '\n') length--;
    if (played(handle, (const uint8_t *)line, (size_t)length, &size) != ROLGUNAI_OK) status = 2;
    else if (fwrite(out, 1, size, stdout) != size) status = 1;
  }
  if (!status && !feof(script)) status = 1;
  free(line);
  return status;
}

int main(int count, char **words) {
  const int decimals = count == 3 && strcmp(words[1], "--decimals") == 0;
  if (count != 2 + decimals) return 3;
  FILE *script = fopen(words[1 + decimals], "rb");
  out = malloc(room);
  if (!script || !out) return 1;
  rolgunai_handle handle = {0};
  if ((decimals ? rolgunai_new_with_decimals : rolgunai_new)(&handle, 4096) != ROLGUNAI_OK) return 2;
  int status = play(&handle, script);
  rolgunai_free(&handle);
  free(out);
  fclose(script);
  return status;
}

/* The JSON and the base64 that the kernel needs by itself: a member of an object, as the text that stands there, and
 * the buffers of a message. What isn't JSON is found out by the manager, not here. */
#ifndef WIRE_H
#define WIRE_H
#include <stdint.h>
#include <stdio.h>
#include <stdlib.h>
#include <string.h>

/* A text in memory of another's, which ends with a zero; `at` is null where there is none. */
typedef struct text {
  const char *at;
  size_t size;
} text;

/* As two arguments, of printf's %.*s and of the library. */
#define WRITTEN(it) (int)(it).size, (it).at
#define BYTES(it) (const uint8_t *)(it).at, (it).size

static inline text literal(const char *at) { return (text){at, strlen(at)}; }

static inline int same(text it, const char *other) {
  return it.at && it.size == strlen(other) && memcmp(it.at, other, it.size) == 0;
}

static inline int consists_of(text it, const char *these) {
  return it.at && it.size && strspn(it.at, these) >= it.size;
}

static inline const char *past_blanks(const char *at) { return at + strspn(at, " \t\r\n"); }

static inline const char *string_end(const char *at) {
  for (at++; *at && *at != '"'; at++)
    if (*at == '\\' && at[1]) at++;
  return *at ? at + 1 : at;
}

/* A string in quotes without an escape. */
static inline int is_plain_string(text it) {
  return it.at && it.size >= 2 && it.at[0] == '"' && it.at[it.size - 1] == '"' && !memchr(it.at, '\\', it.size);
}

static inline const char *value_end(const char *at) {
  size_t depth = 0;
  if (!*at || !strchr("\"{[", *at)) return at + strcspn(at, ",]} \t\r\n");
  do {
    if (*at == '"') {
      at = string_end(at);
    } else {
      if (*at == '{' || *at == '[') depth++;
      if (*at == '}' || *at == ']') depth--;
      at++;
    }
  } while (depth && *at);
  return at;
}

/* The value of a key, as it stands there. */
static inline text member(text object, const char *key) {
  const char *at = object.at && *object.at == '{' ? past_blanks(object.at + 1) : "";
  while (*at == '"') {
    const char *name = at + 1, *end = string_end(at);
    at = past_blanks(end);
    if (*at != ':') break;
    text found = {past_blanks(at + 1), 0};
    at = value_end(found.at);
    found.size = (size_t)(at - found.at);
    if (same((text){name, (size_t)(end - 1 - name)}, key)) return found;
    at = past_blanks(at);
    if (*at == ',') at = past_blanks(at + 1);
  }
  return (text){NULL, 0};
}

static const char letters[] = "ABCDEFGHIJKLMNOPQRSTUVWXYZabcdefghijklmnopqrstuvwxyz0123456789+/";

/* With its quotes, on standard output. */
static inline void write_base64(text it) {
  putchar('"');
  for (size_t i = 0; i < it.size; i += 3) {
    uint32_t bits = 0;
    for (size_t j = 0; j < 3; j++) bits = bits << 8 | (i + j < it.size ? (uint8_t)it.at[i + j] : 0);
    for (size_t j = 0; j < 4; j++) putchar(i + j > it.size ? '=' : letters[bits >> (18 - 6 * j) & 63]);
  }
  putchar('"');
}

/* Binary buffers one after another, with their sizes. */
typedef struct buffers {
  uint8_t *at;
  size_t size, *sizes, count;
} buffers;

/* Of a list of strings in base64; `at` or `sizes` is null where memory ran out. To be freed. */
static inline buffers read_buffers(text list) {
  buffers all = {malloc(list.size + 1), 0, malloc((list.size + 1) * sizeof(size_t)), 0};
  const char *at = list.at && *list.at == '[' ? past_blanks(list.at + 1) : "";
  for (; all.at && all.sizes && *at == '"'; all.count++) {
    const char *end = string_end(at), *letter;
    size_t before = all.size;
    uint32_t bits = 0, held = 0;
    for (at++; at < end && *at && (letter = strchr(letters, *at)); at++) {
      bits = bits << 6 | (uint32_t)(letter - letters);
      held += 6;
      if (held < 8) continue;
      held -= 8;
      all.at[all.size++] = (uint8_t)(bits >> held);
    }
    all.sizes[all.count] = all.size - before;
    at = past_blanks(end);
    if (*at == ',') at = past_blanks(at + 1);
  }
  return all;
}
#endif

/* Calls a second from C by parts, and by the lines that say the same, with no buffer, one of 1 KiB and one of 64 KiB:
   an update of a slider of 23 keys, an echo's message, whose answer is fetched by its parts, and messages on a plain
   and on an opaque comm; by parts alone the kernel's push of that slider. bench [SECONDS], of processor time for each
   (1), or bench --calls N [WHAT WAY SIZE]: N calls of each, or of one, as `update parts 0`, for counting instructions:
   valgrind --tool=callgrind of two N, and the difference over the calls between them. */
#include "rolgunai.h"

#include <stdio.h>
#include <stdlib.h>
#include <string.h>
#include <time.h>

#define LARGEST 65536
#define WIDGET "00000000-0000-0000-0000-000000000001"
static rolgunai_handle handle;
static uint8_t buffer[LARGEST], out[2 * LARGEST];
static char line[3 * LARGEST], base64[2 * LARGEST], content[4096], paths[32];
static size_t size, sent;
static uint32_t reply;
static double seconds = 1;
static long wanted_calls, wanted_size;
static const char *wanted, *wanted_way;

static const uint8_t *bytes(const char *text) { return (const uint8_t *)text; }

static void need(int holds, const char *what) {
  if (!holds) {
    fprintf(stderr, "bench: %s\n", what);
    exit(1);
  }
}

/* Each part of each message that the last call sends. */
static void fetch(void) {
  for (size_t i = 0; i < sent; i++) {
    for (size_t part = ROLGUNAI_PART_TYPE; part <= ROLGUNAI_PART_METADATA; part++)
      need(rolgunai_sent_part(&handle, i, part, out, sizeof out, &size) == ROLGUNAI_OK, "a part isn't there");
    for (size_t part = ROLGUNAI_PART_BUFFERS;
         rolgunai_sent_part(&handle, i, part, out, sizeof out, &size) == ROLGUNAI_OK; part++) {}
  }
}

static void play_parts(const char *header, const char *metadata, const char *data, size_t buffer_size) {
  need(rolgunai_handle_message(&handle, 0, bytes(header), strlen(header), bytes(metadata), strlen(metadata),
                               bytes(data), strlen(data), buffer, buffer_size, &buffer_size, buffer_size != 0, &reply,
                               &sent)
           == ROLGUNAI_OK,
       "a message isn't played");
  need(reply == ROLGUNAI_REPLY_OPENED || reply == ROLGUNAI_REPLY_DELIVERED || reply == ROLGUNAI_REPLY_FOR_KERNEL,
       "a message is refused");
  fetch();
}

static void push(size_t buffer_size) {
  static const char *const state = "{\"value\":7}";
  need(rolgunai_push(&handle, 0, bytes(WIDGET), strlen(WIDGET), bytes(state), strlen(state), bytes(paths),
                     strlen(paths), buffer, buffer_size, &buffer_size, buffer_size != 0, &reply, &sent)
               == ROLGUNAI_OK
           && reply == ROLGUNAI_REPLY_DELIVERED,
       "a push isn't made");
  fetch();
}

static void play_line(void) {
  need(rolgunai_handle_line(&handle, bytes(line), strlen(line), out, sizeof out, &size) == ROLGUNAI_OK,
       "a line isn't played");
}

/* "AAAA..": the buffer of zeros in base64 (RFC 4648, section 4). */
static void encode(size_t buffer_size) {
  size_t whole = (buffer_size + 2) / 3 * 4, padding = (3 - buffer_size % 3) % 3;
  memset(base64, 'A', whole);
  memset(base64 + whole - padding, '=', padding);
  base64[whole] = 0;
}

enum way { BY_PARTS, BY_LINES, BY_PUSH };

static void call(enum way way, size_t buffer_size) {
  if (way == BY_LINES) play_line();
  else if (way == BY_PUSH) push(buffer_size);
  else play_parts("{\"msg_type\":\"comm_msg\"}", "{}", content, buffer_size);
}

static void tell(const char *what, size_t buffer_size, enum way way) {
  static const char *const ways[] = {"by parts", "by lines", "by push"};
  if (wanted && (strcmp(wanted, what) != 0 || strcmp(wanted_way, ways[way] + 3) != 0)) return;
  if (wanted && wanted_size != (long)buffer_size) return;
  if (way == BY_LINES)
    snprintf(line, sizeof line,
             "{\"header\":{\"msg_type\":\"comm_msg\"},\"metadata\":{},\"content\":%s,\"buffers\":[%s%s%s]}", content,
             buffer_size ? "\"" : "", buffer_size ? base64 : "", buffer_size ? "\"" : "");
  long calls = 0;
  clock_t begin = clock(), end = begin + (clock_t)(seconds * CLOCKS_PER_SEC);
  if (wanted_calls) {
    for (; calls < wanted_calls; calls++) call(way, buffer_size);
  } else {
    do {
      for (int i = 0; i < 20; i++, calls++) call(way, buffer_size);
    } while (clock() < end);
  }
  printf("%-24s %6zu  %-8s %10.0f calls a second\n", what, buffer_size, ways[way],
         calls / ((double)(clock() - begin) / CLOCKS_PER_SEC));
}

static void registered(uint32_t kind, const char *name) {
  need(rolgunai_register(&handle, 0, kind, bytes(name), strlen(name), &reply, &sent) == ROLGUNAI_OK, "no target");
}

static void begin(void) {
  char state[2048] = "{";
  for (int i = 0; i < 23; i++) sprintf(state + strlen(state), "%s\"key %d\":\"value %d\"", i ? "," : "", i, i);
  strcat(state, "}");
  need(rolgunai_new(&handle, 16) == ROLGUNAI_OK, "no manager");
  registered(ROLGUNAI_WIDGET, "jupyter.widget");
  registered(ROLGUNAI_PLAIN, "plain");
  registered(ROLGUNAI_OPAQUE, "opaque");
  strcpy(line, "{\"call\":\"register\",\"kind\":\"echo\",\"name\":\"echo\"}");
  play_line();
  need(rolgunai_launch(&handle, 0, bytes("jupyter.widget"), 14, bytes(WIDGET), strlen(WIDGET), bytes(state),
                       strlen(state), bytes("[]"), 2, buffer, 0, &size, 0, &reply, &sent)
               == ROLGUNAI_OK
           && reply == ROLGUNAI_REPLY_LAUNCHED,
       "no widget");
  play_parts("{\"msg_type\":\"comm_open\"}", "{}", "{\"comm_id\":\"e\",\"target_name\":\"echo\"}", 0);
  play_parts("{\"msg_type\":\"comm_open\"}", "{}", "{\"comm_id\":\"p\",\"target_name\":\"plain\"}", 0);
  play_parts("{\"msg_type\":\"comm_open\"}", "{}", "{\"comm_id\":\"o\",\"target_name\":\"opaque\"}", 0);
}

static void tell_all(size_t buffer_size) {
  static const char *const hello = "{\"comm_id\":\"%s\",\"data\":{\"text\":\"hello\"}}";
  snprintf(paths, sizeof paths, "[%s]", buffer_size ? "[\"pixels\"]" : "");
  encode(buffer_size);
  snprintf(content, sizeof content,
           "{\"comm_id\":\"" WIDGET "\",\"data\":{\"method\":\"update\",\"state\":{\"value\":7},\"buffer_paths\":%s}}",
           paths);
  tell("update", buffer_size, BY_PARTS);
  tell("update", buffer_size, BY_LINES);
  tell("push", buffer_size, BY_PUSH);
  snprintf(content, sizeof content, hello, "e");
  tell("echo", buffer_size, BY_PARTS);
  tell("echo", buffer_size, BY_LINES);
  snprintf(content, sizeof content, hello, "p");
  tell("plain", buffer_size, BY_PARTS);
  tell("plain", buffer_size, BY_LINES);
  snprintf(content, sizeof content, hello, "o");
  tell("opaque", buffer_size, BY_PARTS);
}

int main(int count, char **words) {
  static const size_t sizes[] = {0, 1024, LARGEST};
  if (count > 2 && strcmp(words[1], "--calls") == 0) {
    wanted_calls = atol(words[2]);
    if (count > 5) {
      wanted = words[3];
      wanted_way = words[4];
      wanted_size = atol(words[5]);
    }
  } else if (count > 1) seconds = atof(words[1]);
  begin();
  for (size_t i = 0; i < sizeof sizes / sizeof *sizes; i++) tell_all(sizes[i]);
  rolgunai_free(&handle);
  return 0;
}

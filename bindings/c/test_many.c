/* Much of one thing: targets beyond a thousand, 4,096 comms of one target that go at once, and buffers beyond 200,000 in
 * one message, by its parts and by a line. `test_many large` sends one buffer of 400 MB, for which it takes 1.5 GB. The
 * last line is 'N passed, M failed', and the status is 1 where one failed. */
#include "rolgunai.h"

#include <stdio.h>
#include <stdlib.h>
#include <string.h>

enum { TARGETS = 2000, COMMS = 4096, BUFFERS = 200002 };

static int passed, failed;
static rolgunai_handle handle;
static size_t size, sent;
static uint32_t reply;

static void check(int holds, const char *what) {
  if (holds) passed++;
  else {
    failed++;
    printf("FAILED: %s\n", what);
  }
}

static const uint8_t *bytes(const char *text) { return (const uint8_t *)text; }

/* The call is made, and comes to this. */
static void came(uint32_t status, uint32_t wanted, size_t messages, const char *what) {
  check(status == ROLGUNAI_OK && reply == wanted && sent == messages, what);
  if (status != ROLGUNAI_OK || reply != wanted) printf("  status %u, reply %u, %zu sent\n", status, reply, sent);
}

static uint32_t registered(uint32_t kind, const char *name) {
  return rolgunai_register(&handle, 0, kind, bytes(name), strlen(name), &reply, &sent);
}

static uint32_t unregistered(const char *name) {
  return rolgunai_unregister(&handle, 0, bytes(name), strlen(name), &reply, &sent);
}

static uint32_t message(const char *type, const char *content, const uint8_t *buffers, const size_t *sizes,
                        size_t count) {
  char header[64];
  snprintf(header, sizeof header, "{\"msg_type\":\"%s\"}", type);
  return rolgunai_handle_message(&handle, 0, bytes(header), strlen(header), bytes("{\"version\":\"2.1.0\"}"), 19,
                                 bytes(content), strlen(content), buffers, count, sizes, count, &reply, &sent);
}

static const size_t no_sizes[1];
static const uint8_t no_buffers[1];

static uint32_t plainly(const char *type, const char *content) { return message(type, content, no_buffers, no_sizes, 0); }

static uint32_t opened(const char *id, const char *target) {
  char content[200];
  snprintf(content, sizeof content, "{\"comm_id\":\"%s\",\"target_name\":\"%s\",\"data\":{\"state\":{}}}", id, target);
  return plainly("comm_open", content);
}

/* Each call, beside many targets. */
static void many_targets(void) {
  char name[32];
  int were_registered = 1;
  for (int i = 0; i < TARGETS; i++) {
    snprintf(name, sizeof name, "target%d", i);
    were_registered &= registered(ROLGUNAI_WIDGET, name) == ROLGUNAI_OK && reply == ROLGUNAI_REPLY_REGISTERED;
  }
  check(were_registered, "many targets");
  came(registered(ROLGUNAI_WIDGET, "target7"), ROLGUNAI_REPLY_REPLACED, 0, "many targets: a replacement");
  came(opened("a", "target1999"), ROLGUNAI_REPLY_OPENED, 0, "many targets: an open");
  came(plainly("comm_msg", "{\"comm_id\":\"a\",\"data\":{\"method\":\"request_state\"}}"), ROLGUNAI_REPLY_DELIVERED, 1,
       "many targets: a message");
  came(plainly("comm_info_request", "{}"), ROLGUNAI_REPLY_COMM_INFO, 1, "many targets: a list");
  const char uuid[] = "67e55044-10b1-426f-9247-bb680e5fe0c8";
  came(rolgunai_launch(&handle, 0, bytes("target0"), 7, bytes(uuid), 36, bytes("{}"), 2, bytes("[]"), 2, no_buffers, 0,
                       no_sizes, 0, &reply, &sent),
       ROLGUNAI_REPLY_LAUNCHED, 1, "many targets: a launch");
  came(rolgunai_push(&handle, 0, bytes("a"), 1, bytes("{\"k\":1}"), 7, bytes("[]"), 2, no_buffers, 0, no_sizes, 0,
                     &reply, &sent),
       ROLGUNAI_REPLY_DELIVERED, 1, "many targets: a push");
  came(rolgunai_push(&handle, 0, bytes("a"), 1, bytes("{}"), 2, bytes("[]"), 2, no_buffers, 0, no_sizes, 0, &reply,
                     &sent),
       ROLGUNAI_REPLY_DELIVERED, 1, "many targets: a push of nothing");
  came(rolgunai_send(&handle, 0, bytes("a"), 1, bytes("{}"), 2, no_buffers, 0, no_sizes, 0, &reply, &sent),
       ROLGUNAI_REPLY_DELIVERED, 1, "many targets: a send");
  came(rolgunai_state(&handle, bytes("a"), 1, &reply, &sent), ROLGUNAI_REPLY_STATE, 0, "many targets: a state");
  came(rolgunai_close(&handle, 0, bytes("a"), 1, &reply, &sent), ROLGUNAI_REPLY_CLOSED, 1, "many targets: a close");
  came(plainly("comm_close", "{\"comm_id\":\"67e55044-10b1-426f-9247-bb680e5fe0c8\"}"), ROLGUNAI_REPLY_CLOSED, 0,
       "many targets: a close by a frontend");
  int were_taken_out = 1;
  for (int i = 0; i < TARGETS; i++) {
    snprintf(name, sizeof name, "target%d", i);
    were_taken_out &= unregistered(name) == ROLGUNAI_OK && reply == ROLGUNAI_REPLY_UNREGISTERED;
  }
  check(were_taken_out, "many targets are taken out");
}

static void open_all(const char *what) {
  char id[32];
  int were_opened = 1;
  for (int i = 0; i < COMMS; i++) {
    snprintf(id, sizeof id, "comm%d", i);
    were_opened &= opened(id, "w") == ROLGUNAI_OK && reply == ROLGUNAI_REPLY_OPENED;
  }
  check(were_opened, what);
  came(opened("more", "w"), ROLGUNAI_REPLY_REFUSED, 1, "one comm too many");
}

/* All comms of one target are closed at once, by a replacement and by its end. */
static void many_comms(void) {
  came(registered(ROLGUNAI_WIDGET, "w"), ROLGUNAI_REPLY_REGISTERED, 0, "a target of many comms");
  open_all("many comms");
  came(registered(ROLGUNAI_PLAIN, "w"), ROLGUNAI_REPLY_REPLACED, COMMS, "a target of many comms is replaced");
  open_all("many comms again");
  came(unregistered("w"), ROLGUNAI_REPLY_UNREGISTERED, COMMS, "a target of many comms is taken out");
}

static uint8_t buffers[BUFFERS];
static size_t sizes[BUFFERS];

/* A part of the message that was last sent, or else of the last reply. */
static uint32_t part_of(int are_sent, size_t part, uint8_t *byte) {
  return are_sent ? rolgunai_sent_part(&handle, 0, part, byte, 1, &size)
                  : rolgunai_reply_part(&handle, part, byte, 1, &size);
}

/* Each buffer of the message that was last sent or told to the kernel is there, and no more. */
static void check_buffers(int are_sent, const char *what) {
  uint8_t byte = 0;
  int are_there = 1;
  for (size_t i = 0; i < BUFFERS && are_there; i++) {
    are_there = part_of(are_sent, ROLGUNAI_PART_BUFFERS + i, &byte) == ROLGUNAI_OK && size == 1 && byte == buffers[i];
  }
  check(are_there, what);
  check(part_of(are_sent, ROLGUNAI_PART_BUFFERS + BUFFERS, &byte) == ROLGUNAI_NO_PART, what);
}

static const char letters[] = "ABCDEFGHIJKLMNOPQRSTUVWXYZabcdefghijklmnopqrstuvwxyz0123456789+/";

/* The base64 of one byte that is 0 to 63. */
static void put_buffer(char *to, uint8_t byte) {
  const char text[] = {'"', letters[byte >> 2], letters[(byte & 3) << 4], '=', '=', '"', ','};
  memcpy(to, text, sizeof text);
}

/* A line of many buffers, whose answer has them all. */
static void by_a_line(void) {
  const char *before = "{\"call\":\"send\",\"id\":\"p\",\"data\":{},\"buffers\":[";
  const size_t most = strlen(before) + 7 * (size_t)BUFFERS + 2;
  char *line = malloc(most);
  uint8_t *out = malloc(2 * most);
  check(line && out, "room for a line");
  if (!line || !out) return;
  char *to = line + strlen(strcpy(line, before));
  for (size_t i = 0; i < BUFFERS; i++, to += 7) put_buffer(to, buffers[i]);
  memcpy(to - 1, "]}", 2);
  const char *list = line + strlen(before) - 1;
  check(rolgunai_handle_line(&handle, bytes(line), (size_t)(to + 1 - line), out, 2 * most, &size) == ROLGUNAI_OK,
        "a line of many buffers");
  uint8_t *found = size < 2 * most ? memchr(out, '[', size) : NULL;
  check(found && memcmp(found, list, (size_t)(to - list)) == 0, "a line's buffers are written");
  check(rolgunai_last_result(&handle, &reply, &sent) == ROLGUNAI_OK && sent == 1, "a line of many buffers is sent");
  check_buffers(1, "a line's buffers are sent");
  free(line);
  free(out);
}

static void many_buffers(void) {
  for (size_t i = 0; i < BUFFERS; i++) buffers[i] = (uint8_t)(i * 31 / 7 % 64), sizes[i] = 1;
  came(registered(ROLGUNAI_PLAIN, "plain"), ROLGUNAI_REPLY_REGISTERED, 0, "a plain target");
  came(opened("p", "plain"), ROLGUNAI_REPLY_OPENED, 0, "a plain comm");
  came(message("comm_msg", "{\"comm_id\":\"p\",\"data\":{}}", buffers, sizes, BUFFERS), ROLGUNAI_REPLY_FOR_KERNEL, 0,
       "a message of many buffers");
  check_buffers(0, "a message's buffers are told");
  came(rolgunai_send(&handle, 0, bytes("p"), 1, bytes("{}"), 2, buffers, BUFFERS, sizes, BUFFERS, &reply, &sent),
       ROLGUNAI_REPLY_DELIVERED, 1, "a send of many buffers");
  check_buffers(1, "a send's buffers are sent");
  by_a_line();
}

enum { LARGE = 400 * 1000 * 1000 };

/* Whether the text begins with the base64 of whole groups of three of these bytes. */
static int is_base64(const uint8_t *text, const uint8_t *of, size_t count) {
  for (size_t i = 0; i + 2 < count; i += 3, text += 4) {
    const uint32_t group = (uint32_t)of[i] << 16 | (uint32_t)of[i + 1] << 8 | of[i + 2];
    for (int k = 0; k < 4; k++)
      if (text[k] != letters[group >> (18 - 6 * k) & 63]) return 0;
  }
  return 1;
}

/* A large buffer goes through, as bytes and, in base64, in a text. */
static void a_large_buffer(void) {
  const size_t room = LARGE / 3 * 4 + 1000, length = LARGE;
  uint8_t *large = malloc(LARGE), *out = malloc(room);
  check(large && out, "room for a large buffer");
  if (!large || !out) return;
  for (size_t i = 0; i < LARGE; i++) large[i] = (uint8_t)(i * 7);
  came(registered(ROLGUNAI_PLAIN, "plain"), ROLGUNAI_REPLY_REGISTERED, 0, "a plain target");
  came(opened("p", "plain"), ROLGUNAI_REPLY_OPENED, 0, "a plain comm");
  came(rolgunai_send(&handle, 0, bytes("p"), 1, bytes("{}"), 2, large, LARGE, &length, 1, &reply, &sent),
       ROLGUNAI_REPLY_DELIVERED, 1, "a large buffer is sent");
  check(rolgunai_sent_part(&handle, 0, ROLGUNAI_PART_BUFFERS, out, room, &size) == ROLGUNAI_OK && size == LARGE
            && memcmp(out, large, LARGE) == 0,
        "a large buffer's bytes");
  check(rolgunai_last_text(&handle, out, room, &size) == ROLGUNAI_OK && size > LARGE / 3 * 4, "a large buffer's text");
  const uint8_t *list = memchr(out, '[', size);
  check(list && size - (size_t)(list - out) > LARGE / 3 * 4 && is_base64(list + 2, large, LARGE), "it is in base64");
  free(large);
  free(out);
}

int main(int count, char **words) {
  const int is_large = count == 2 && strcmp(words[1], "large") == 0;
  if (count != 1 + is_large) return 3;
  check(rolgunai_new(&handle, COMMS) == ROLGUNAI_OK, "a new manager");
  if (is_large) a_large_buffer();
  else {
    many_targets();
    many_comms();
    many_buffers();
  }
  check(rolgunai_free(&handle) == ROLGUNAI_OK, "the end");
  printf("%d passed, %d failed\n", passed, failed);
  return failed != 0;
}

/* Each allocation of some calls by parts fails in turn. The call that it fails in answers ROLGUNAI_MEMORY, or as if it
 * hadn't; made again after ROLGUNAI_MEMORY it says what it says where nothing fails, so nothing had happened; and
 * nothing is left after the end. */
#include "rolgunai.h"

#include <stdio.h>
#include <string.h>

extern long heap_fail_at, heap_count, heap_live;
static rolgunai_handle handle;
static uint8_t told[1 << 16], wanted[1 << 16];
static size_t told_size;
static long refusals;

static const uint8_t *bytes(const char *text) { return (const uint8_t *)text; }

static int may_again(uint32_t status) {
  if (status == ROLGUNAI_MEMORY) refusals++;
  return status == ROLGUNAI_MEMORY;
}

static void tell(const void *bytes, size_t size) {
  memcpy(told + told_size, bytes, size);
  told_size += size;
}

/* The reason, the text and each part of what a call came to. */
static int tell_all(uint32_t reply, size_t sent) {
  static uint8_t out[4096];
  size_t size;
  uint32_t reason, text;
  uint64_t index;
  if (rolgunai_last_reason(&handle, &reason, &index) != ROLGUNAI_OK) return 0;
  tell(&reply, sizeof reply);
  tell(&reason, sizeof reason);
  tell(&index, sizeof index);
  do {
    text = rolgunai_last_text(&handle, out, sizeof out, &size);
  } while (may_again(text));
  if (text != ROLGUNAI_OK) return 0;
  tell(out, size);
  for (size_t message = 0; message <= sent; message++) {
    for (size_t part = 0; part < 8; part++) {
      uint32_t status;
      do {
        status = message < sent ? rolgunai_sent_part(&handle, message, part, out, sizeof out, &size)
                                : rolgunai_reply_part(&handle, part, out, sizeof out, &size);
      } while (may_again(status));
      if (status != ROLGUNAI_OK && status != ROLGUNAI_NO_PART) return 0;
      tell(&size, sizeof size);
      tell(out, size);
    }
  }
  return 1;
}

static int message(const char *type, const char *content, const char *buffers, size_t first, size_t second) {
  char header[64];
  size_t sizes[] = {first, second}, sent;
  uint32_t reply, status;
  snprintf(header, sizeof header, "{\"msg_type\":\"%s\"}", type);
  do {
    status = rolgunai_handle_message(
        &handle, 0, (const uint8_t *)header, strlen(header), (const uint8_t *)"{\"version\":\"2\"}", 15,
        (const uint8_t *)content, strlen(content), (const uint8_t *)buffers, first + second, sizes, 2, &reply, &sent);
  } while (may_again(status));
  return status == ROLGUNAI_OK && tell_all(reply, sent);
}

static int registered(uint32_t kind, const char *name) {
  uint32_t status, reply;
  size_t sent;
  do {
    status = rolgunai_register(&handle, 0, kind, bytes(name), strlen(name), &reply, &sent);
  } while (may_again(status));
  return status == ROLGUNAI_OK && tell_all(reply, sent);
}

static int registered_by_line(const char *line) {
  uint8_t out[64];
  size_t size;
  uint32_t status;
  do {
    status = rolgunai_handle_line(&handle, bytes(line), strlen(line), out, sizeof out, &size);
  } while (may_again(status));
  if (status == ROLGUNAI_NO_TEXT) refusals++;
  return status == ROLGUNAI_OK || status == ROLGUNAI_NO_TEXT;
}

/* ---- the kernel's calls */

static const char *const uuid = "00000000-0000-0000-0000-000000000001", *const state = "{\"v\":[1]}",
                         *const paths = "[[\"b\"]]";
static const size_t three[] = {3};

static int launched(void) {
  uint32_t status, reply;
  size_t sent;
  do {
    status = rolgunai_launch(&handle, 0, bytes("widget"), 6, bytes(uuid), strlen(uuid), bytes(state), strlen(state),
                             bytes(paths), strlen(paths), bytes("xyz"), 3, three, 1, &reply, &sent);
  } while (may_again(status));
  return status == ROLGUNAI_OK && tell_all(reply, sent);
}

static int pushed(void) {
  uint32_t status, reply;
  size_t sent;
  do {
    status = rolgunai_push(&handle, 0, bytes(uuid), strlen(uuid), bytes(state), strlen(state), bytes(paths),
                           strlen(paths), bytes("abc"), 3, three, 1, &reply, &sent);
  } while (may_again(status));
  return status == ROLGUNAI_OK && tell_all(reply, sent);
}

static int sent_data(const char *id) {
  uint32_t status, reply;
  size_t sent;
  do {
    status = rolgunai_send(&handle, 0, bytes(id), strlen(id), bytes(state), strlen(state), bytes("abc"), 3, three, 1,
                           &reply, &sent);
  } while (may_again(status));
  return status == ROLGUNAI_OK && tell_all(reply, sent);
}

static int sent_frames(const char *id) {
  const rolgunai_frame frames[] = {{bytes("abc"), 3}, {bytes(""), 0}, {bytes("de"), 2}};
  uint32_t status, reply;
  size_t sent;
  do {
    status = rolgunai_send_frames(&handle, 0, bytes(id), strlen(id), bytes(state), strlen(state), frames, 3, &reply,
                                  &sent);
  } while (may_again(status));
  return status == ROLGUNAI_OK && tell_all(reply, sent);
}

static int state_read(void) {
  uint32_t status, reply;
  size_t sent;
  do {
    status = rolgunai_state(&handle, bytes(uuid), strlen(uuid), &reply, &sent);
  } while (may_again(status));
  return status == ROLGUNAI_OK && tell_all(reply, sent);
}

static int closed(const char *id) {
  uint32_t status, reply;
  size_t sent;
  do {
    status = rolgunai_close(&handle, 0, bytes(id), strlen(id), &reply, &sent);
  } while (may_again(status));
  return status == ROLGUNAI_OK && tell_all(reply, sent);
}

static int unregistered(const char *name) {
  uint32_t status, reply;
  size_t sent;
  do {
    status = rolgunai_unregister(&handle, 0, bytes(name), strlen(name), &reply, &sent);
  } while (may_again(status));
  return status == ROLGUNAI_OK && tell_all(reply, sent);
}

static int kernel_calls(void) {
  return launched() && pushed() && sent_data("m") && sent_frames("m") && state_read() && closed(uuid) && unregistered("mine");
}

static const char *played(long at) {
  uint32_t status;
  heap_fail_at = at;
  heap_count = 0;
  told_size = 0;
  do {
    status = rolgunai_new(&handle, 9);
  } while (may_again(status));
  int went =
      status == ROLGUNAI_OK && registered_by_line("{\"call\":\"register\",\"kind\":\"echo\",\"name\":\"echo\"}")
      && registered(ROLGUNAI_PLAIN, "mine") && registered(ROLGUNAI_WIDGET, "widget")
      && registered(ROLGUNAI_WIDGET_ECHO, "echoing") && registered(ROLGUNAI_OPAQUE, "figures")
      && message("comm_open", "{\"comm_id\":\"e\",\"target_name\":\"echo\"}", "", 0, 0)
      && message("comm_open", "{\"comm_id\":\"m\",\"target_name\":\"mine\"}", "", 0, 0)
      && message("comm_open", "{\"comm_id\":\"w\",\"target_name\":\"widget\",\"data\":{\"state\":{\"v\":1}}}", "", 0, 0)
      && message("comm_open", "{\"comm_id\":\"x\",\"target_name\":\"echoing\",\"data\":{\"state\":{\"v\":1}}}", "", 0,
                 0)
      && message("comm_open", "{\"comm_id\":\"o\",\"target_name\":\"figures\",\"data\":\"text\"}", "", 0, 0)
      && message("comm_open", "{\"comm_id\":\"z\",\"target_name\":\"mine\",\"data\":\"text\"}", "", 0, 0)
      && message("comm_msg", "{\"comm_id\":\"o\",\"data\":\"text\"}", "abcde", 2, 3)
      && message("comm_msg", "{\"comm_id\":\"e\",\"data\":{\"x\":1}}", "abcde", 2, 3)
      && message("comm_msg", "{\"comm_id\":\"m\",\"data\":{\"x\":1}}", "abcde", 2, 3)
      && message("comm_msg",
                 "{\"comm_id\":\"w\",\"data\":{\"method\":\"update\",\"state\":{},\"buffer_paths\":[[\"b\"]]}}",
                 "abcde", 2, 3)
      && message("comm_msg", "{\"comm_id\":\"w\",\"data\":{\"method\":\"request_state\"}}", "", 0, 0)
      && message(
          "comm_msg",
          "{\"comm_id\":\"x\",\"data\":{\"method\":\"update\",\"state\":{\"v\":[2]},\"buffer_paths\":[[\"b\"]]}}",
          "abcde", 2, 3)
      && message("comm_info_request", "{}", "", 0, 0) && message("comm_close", "{\"comm_id\":\"e\"}", "", 0, 0)
      && kernel_calls();
  if (rolgunai_free(&handle) != ROLGUNAI_OK) return "the end";
  if (!went) return "a call";
  return heap_live ? "blocks are left" : NULL;
}

int main(void) {
  const char *why = played(-1);
  size_t wanted_size = told_size;
  memcpy(wanted, told, told_size);
  long all = heap_count, tried = 0;
  for (; !why && tried < all; tried++) {
    why = played(tried + 1);
    if (!why && (told_size != wanted_size || memcmp(told, wanted, wanted_size) != 0)) why = "other answers";
  }
  if (why) printf("FAILED at allocation %ld: %s\n", tried, why);
  printf("%ld allocations failed in turn, %ld of them in a call that answered so\n", tried, refusals);
  return why != NULL || refusals == 0;
}

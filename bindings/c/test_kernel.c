/* The kernel's own calls by their parts: what each comes to, what it sends and what its reply has. The last line is
 * 'N passed, M failed', and so is the status. */
#include "rolgunai.h"

#include <stdio.h>
#include <string.h>

#define ONE "00000000-0000-0000-0000-000000000001"
#define TWO "00000000-0000-0000-0000-000000000002"
#define THREE "00000000-0000-0000-0000-000000000003"
#define CUT "\xc3"

enum call { LAUNCH, PUSH, SEND, CLOSE, UNREGISTER, STATE };

/* A call, and what comes of it: its status, and of one that was made its reply, why, the content of the message that it
 * sends, the content of the reply, the id and the target that it is about. */
typedef struct {
  const char *what;
  enum call call;
  uint32_t client;
  const char *name, *uuid, *json, *paths, *buffers;
  size_t sizes[2], count;
  uint32_t status, reply, reason;
  uint64_t index;
  const char *sends, *content, *id, *target;
} row;

static int passed, failed;
static rolgunai_handle handle;
static uint8_t out[4096];
static size_t size, sent;
static uint32_t reply;

static void check(int holds, const char *what, const char *which) {
  if (holds) passed++;
  else {
    failed++;
    printf("FAILED: %s: %s\n", what, which);
  }
}

static const uint8_t *bytes(const char *text) { return (const uint8_t *)text; }

static size_t length(const char *text) { return text ? strlen(text) : 0; }

static uint32_t made(const row *r) {
  const uint8_t *name = bytes(r->name), *json = bytes(r->json), *paths = bytes(r->paths ? r->paths : "[]");
  const uint8_t *buffers = bytes(r->buffers ? r->buffers : "");
  size_t paths_size = r->paths ? strlen(r->paths) : 2, buffers_size = length(r->buffers);
  switch (r->call) {
    case LAUNCH:
      return rolgunai_launch(&handle, r->client, name, length(r->name), bytes(r->uuid), length(r->uuid), json,
                             length(r->json), paths, paths_size, buffers, buffers_size, r->sizes, r->count, &reply,
                             &sent);
    case PUSH:
      return rolgunai_push(&handle, r->client, name, length(r->name), json, length(r->json), paths, paths_size, buffers,
                           buffers_size, r->sizes, r->count, &reply, &sent);
    case SEND:
      return rolgunai_send(&handle, r->client, name, length(r->name), json, length(r->json), buffers, buffers_size,
                           r->sizes, r->count, &reply, &sent);
    case CLOSE: return rolgunai_close(&handle, r->client, name, length(r->name), &reply, &sent);
    case UNREGISTER: return rolgunai_unregister(&handle, r->client, name, length(r->name), &reply, &sent);
    case STATE: return rolgunai_state(&handle, name, length(r->name), &reply, &sent);
  }
  return ROLGUNAI_CLOSED;
}

/* A part of message 0, or of the reply, is this text; there is none where it is NULL. */
static void check_text(const char *what, const char *which, int is_reply, size_t part, const char *wanted) {
  uint32_t status = is_reply ? rolgunai_reply_part(&handle, part, out, sizeof out, &size)
                             : rolgunai_sent_part(&handle, 0, part, out, sizeof out, &size);
  if (!wanted) {
    check(status == ROLGUNAI_NO_PART && size == 0, what, which);
    return;
  }
  int holds = status == ROLGUNAI_OK && size == strlen(wanted) && memcmp(out, wanted, size) == 0;
  check(holds, what, which);
  if (!holds) printf("  status %u: %.*s\n", status, (int)size, out);
}

static void check_row(const row *r) {
  uint32_t reason;
  uint64_t index;
  reply = 77, sent = 77;
  uint32_t status = made(r);
  check(status == r->status, r->what, "the status");
  check(reply == r->reply && sent == (status == ROLGUNAI_OK && r->sends != NULL), r->what, "reply and messages");
  if (status != ROLGUNAI_OK) return;
  check(rolgunai_last_reason(&handle, &reason, &index) == ROLGUNAI_OK && reason == r->reason && index == r->index,
        r->what, "the reason");
  check_text(r->what, "what is sent", 0, ROLGUNAI_PART_CONTENT, r->sends);
  check_text(r->what, "the content", 1, ROLGUNAI_PART_CONTENT, r->content);
  check_text(r->what, "the id", 1, ROLGUNAI_PART_ID, r->id);
  check_text(r->what, "the target", 1, ROLGUNAI_PART_TARGET, r->target);
}

/* Shorthands for rows: a call that is made, and one whose reply is bad. */
#define MADE(r) .status = ROLGUNAI_OK, .reply = ROLGUNAI_REPLY_##r
#define BAD(r, n) MADE(BAD), .reason = ROLGUNAI_REASON_##r, .index = n

static const row rows[] = {
    {"a launch", LAUNCH, .name = "w", .uuid = ONE, .json = "{\"v\":1}", .paths = "[[\"b\"],[\"a\"]]",
     .buffers = "xyz", .sizes = {1, 2}, .count = 2, MADE(LAUNCHED), .id = ONE, .target = "w",
     .sends = "{\"comm_id\":\"" ONE "\",\"data\":{\"buffer_paths\":[[\"a\"],[\"b\"]],\"state\":{\"v\":1}},"
              "\"target_name\":\"w\"}"},
    {"its id again", LAUNCH, .name = "w", .uuid = ONE, .json = "{}", MADE(ID_IN_USE), .id = ONE, .target = "w"},
    {"a UUID without hyphens", LAUNCH, .client = 3, .name = "w", .uuid = "00000000000000000000000000000002",
     .json = "null", MADE(LAUNCHED), .id = TWO, .target = "w",
     .sends = "{\"comm_id\":\"" TWO "\",\"data\":{\"buffer_paths\":[],\"state\":{}},\"target_name\":\"w\"}"},
    {"one comm more than may be open", LAUNCH, .name = "w", .uuid = THREE, .json = "{}", MADE(REFUSED),
     .reason = ROLGUNAI_REASON_TOO_MANY_COMMS, .id = THREE, .target = "w"},
    {"a launch towards no target", LAUNCH, .name = "none", .uuid = THREE, .json = "{}", MADE(NO_TARGET), .id = THREE,
     .target = "none"},
    {"a launch towards a plain target", LAUNCH, .name = "p", .uuid = THREE, .json = "{}", MADE(NOT_WIDGET),
     .id = THREE, .target = "p"},
    {"no UUID", LAUNCH, .name = "w", .uuid = "one", .json = "{}", BAD(BAD_UUID, 0)},
    {"a state that is a list", LAUNCH, .name = "w", .uuid = THREE, .json = "[]",
     BAD(BAD_FIELD, ROLGUNAI_FIELD_STATE)},
    {"a fraction in a state", LAUNCH, .name = "w", .uuid = THREE, .json = "{\"v\":0.5}", BAD(NOT_WHOLE, 0)},
    {"a fifth client", LAUNCH, .client = 4, .name = "w", .uuid = THREE, .json = "{}", BAD(BAD_CLIENT, 0)},
    {"paths that are an object", PUSH, .name = ONE, .json = "{}", .paths = "{}", BAD(BAD_PATH, 0)},
    {"a path into a number", PUSH, .name = ONE, .json = "{\"v\":1}", .paths = "[[\"a\"],[\"v\",\"x\"]]",
     .buffers = "xyz", .sizes = {1, 2}, .count = 2, BAD(BAD_PATH, 1)},
    {"a path without a buffer", PUSH, .name = ONE, .json = "{}", .paths = "[[\"a\"],[\"b\"]]", .buffers = "x",
     .sizes = {1}, .count = 1, BAD(BUFFER_MISSING, 1)},
    {"a push", PUSH, .name = ONE, .json = "{\"v\":[2]}", .paths = "[[\"b\"]]", .buffers = "abc", .sizes = {3},
     .count = 1, MADE(DELIVERED), .id = ONE, .target = "w",
     .sends = "{\"comm_id\":\"" ONE "\",\"data\":{\"buffer_paths\":[[\"b\"]],\"method\":\"update\","
              "\"state\":{\"v\":[2]}}}"},
    {"what was pushed is kept", STATE, .name = ONE, MADE(STATE),
     .content = "{\"buffer_paths\":[[\"a\"],[\"b\"]],\"state\":{\"v\":[2]}}"},
    {"the state of another comm", STATE, .name = TWO, MADE(STATE), .content = "{\"buffer_paths\":[],\"state\":{}}"},
    {"the state of a plain comm", STATE, .name = "m", MADE(NO_STATE)},
    {"the state of no comm", STATE, .name = "nobody", MADE(NO_COMM)},
    {"a push to a plain comm", PUSH, .name = "m", .json = "{}", MADE(NOT_WIDGET), .id = "m", .target = "p"},
    {"a push to no comm", PUSH, .name = "nobody", .json = "{}", MADE(NO_COMM), .id = "nobody"},
    {"a send", SEND, .name = "m", .json = "{\"y\":3}", .buffers = "xyz", .sizes = {3}, .count = 1, MADE(DELIVERED),
     .id = "m", .target = "p", .sends = "{\"comm_id\":\"m\",\"data\":{\"y\":3}}"},
    {"a send of a text", SEND, .name = "m", .json = "\"y\"", BAD(BAD_FIELD, ROLGUNAI_FIELD_DATA)},
    {"a send on no comm", SEND, .name = "nobody", .json = "{}", MADE(NO_COMM), .id = "nobody"},
    {"sizes are tested first", LAUNCH, .name = CUT, .uuid = CUT, .json = "{", .buffers = "x", .sizes = {2}, .count = 1,
     .status = ROLGUNAI_BAD_SIZES},
    {"names are tested before JSON texts", LAUNCH, .name = "w", .uuid = CUT, .json = "{", .status = ROLGUNAI_BAD_NAME},
    {"a target that isn't UTF-8", LAUNCH, .name = CUT, .uuid = ONE, .json = "{}", .status = ROLGUNAI_BAD_NAME},
    {"a state that isn't JSON", PUSH, .name = ONE, .json = "{", .status = ROLGUNAI_NOT_JSON},
    {"paths that aren't JSON", PUSH, .name = ONE, .json = "{}", .paths = "[", .status = ROLGUNAI_NOT_JSON},
    {"data that isn't JSON", SEND, .name = "m", .json = "", .status = ROLGUNAI_NOT_JSON},
    {"an id that isn't UTF-8", CLOSE, .name = CUT, .status = ROLGUNAI_BAD_NAME},
    {"a name that isn't UTF-8", UNREGISTER, .name = CUT, .status = ROLGUNAI_BAD_NAME},
    {"a state of what isn't UTF-8", STATE, .name = CUT, .status = ROLGUNAI_BAD_NAME},
    {"a close", CLOSE, .client = 2, .name = ONE, MADE(CLOSED), .id = ONE, .target = "w",
     .sends = "{\"comm_id\":\"" ONE "\",\"data\":{}}"},
    {"a close of no comm", CLOSE, .name = ONE, MADE(NO_COMM), .id = ONE},
    {"a close by a fifth client", CLOSE, .client = 9, .name = TWO, BAD(BAD_CLIENT, 0)},
    {"an unregister", UNREGISTER, .name = "p", MADE(UNREGISTERED), .target = "p", .content = "[\"m\"]",
     .sends = "{\"comm_id\":\"m\",\"data\":{}}"},
    {"an unregister of no target", UNREGISTER, .name = "p", MADE(NO_TARGET), .target = "p"},
};

/* The buffers of a launch and of a state stand in the order of their paths. */
static void check_buffers(const char *what, int is_reply, const char *first, const char *second) {
  check_text(what, "buffer 0", is_reply, ROLGUNAI_PART_BUFFERS, first);
  check_text(what, "buffer 1", is_reply, ROLGUNAI_PART_BUFFERS + 1, second);
  check_text(what, "buffer 2", is_reply, ROLGUNAI_PART_BUFFERS + 2, NULL);
}

static void begin(void) {
  const char *header = "{\"msg_type\":\"comm_open\"}", *content = "{\"comm_id\":\"m\",\"target_name\":\"p\"}";
  check(rolgunai_new(&handle, 3) == ROLGUNAI_OK, "a new manager", "the status");
  check(rolgunai_register(&handle, 0, ROLGUNAI_WIDGET, bytes("w"), 1, &reply, &sent) == ROLGUNAI_OK, "w", "the status");
  check(rolgunai_register(&handle, 0, ROLGUNAI_PLAIN, bytes("p"), 1, &reply, &sent) == ROLGUNAI_OK, "p", "the status");
  check(rolgunai_handle_message(&handle, 0, bytes(header), strlen(header), bytes("{}"), 2, bytes(content),
                                strlen(content), bytes(""), 0, rows[0].sizes, 0, &reply, &sent)
                == ROLGUNAI_OK
            && reply == ROLGUNAI_REPLY_OPENED,
        "a plain comm", "the reply");
}

int main(void) {
  begin();
  for (size_t i = 0; i < sizeof rows / sizeof *rows; i++) {
    check_row(&rows[i]);
    if (i == 0) check_buffers(rows[i].what, 0, "yz", "x");
    if (rows[i].call == STATE && rows[i].reply == ROLGUNAI_REPLY_STATE && strcmp(rows[i].name, ONE) == 0)
      check_buffers(rows[i].what, 1, "yz", "abc");
    if (rows[i].call == SEND && rows[i].sends)
      check_text(rows[i].what, "its buffer", 0, ROLGUNAI_PART_BUFFERS, "xyz");
  }
  check(rolgunai_free(&handle) == ROLGUNAI_OK, "the end", "the status");
  for (size_t i = 0; i < sizeof rows / sizeof *rows; i++)
    check(made(&rows[i]) == ROLGUNAI_CLOSED && reply == 0 && sent == 0, rows[i].what, "without a manager");
  printf("%d passed, %d failed\n", passed, failed);
  return failed != 0;
}

/* What rolgunai.h says of each message of a frontend: its reply and reason, what the kernel is handed, what is sent.
 * The last line is 'N passed, M failed', and so is the status. */
#include "rolgunai.h"

#include <stdio.h>
#include <string.h>

static int passed, failed;
static rolgunai_handle handle;
static uint8_t out[1024];
static size_t size, sent;
static uint32_t reply;

static const uint8_t *bytes(const char *text) { return (const uint8_t *)text; }

static void check(int holds, const char *row, const char *what) {
  passed += holds != 0;
  failed += !holds;
  if (!holds) printf("FAILED: %s: %s (reply %u, sent %zu)\n", row, what, reply, sent);
}

/* A null `handed` or `sends`: nothing is. */
typedef struct row {
  const char *what, *type, *content, *metadata;
  uint32_t status, reply, reason;
  const char *handed, *sends;
} row;

/* Shorthands for the members that follow the content: replies without and with a reason. */
#define GIVES(r) .reply = ROLGUNAI_REPLY_##r
#define FOR(r, why) GIVES(r), .reason = ROLGUNAI_REASON_##why
#define OPEN(id, target, data) "comm_open", "{\"comm_id\":\"" id "\",\"target_name\":\"" target "\",\"data\":" data "}"
#define SAYS(id, data) "comm_msg", "{\"comm_id\":\"" id "\",\"data\":" data "}"
#define CLOSES(id) .sends = "{\"comm_id\":\"" id "\",\"data\":{}}"
#define UPDATES(method, state) \
  .sends = "{\"comm_id\":\"e\",\"data\":{\"buffer_paths\":[],\"method\":\"" method "\",\"state\":" state "}}"
#define V2 .metadata = "{\"version\":\"2.0.0\"}"

static const row rows[] = {
    {"an open", OPEN("p", "plain", "{\"k\":1}"), GIVES(OPENED)},
    {"an opaque one", OPEN("o", "opaque", "[1.5]"), GIVES(OPENED)},
    {"a widget", OPEN("e", "echo", "{\"state\":{\"v\":{\"a\":1},\"w\":1}}"), V2, GIVES(OPENED)},
    {"an id in use", OPEN("e", "echo", "{\"state\":{}}"), V2, GIVES(ID_IN_USE)},
    {"no control", OPEN("c", "jupyter.widget.control", "{}"), FOR(REFUSED, NO_TARGET), CLOSES("c")},
    {"no version", OPEN("c", "echo", "{\"state\":{}}"), FOR(REFUSED, WRONG_VERSION), CLOSES("c")},
    {"no state", OPEN("c", "echo", "{}"), V2, FOR(REFUSED, NO_STATE), CLOSES("c")},
    {"a bad state", OPEN("c", "echo", "{\"state\":1}"), V2, FOR(REFUSED, BAD_STATE), CLOSES("c")},
    {"a missing buffer", OPEN("c", "echo", "{\"state\":{},\"buffer_paths\":[[\"b\"]]}"), V2,
     FOR(REFUSED, BUFFER_MISSING), CLOSES("c")},
    {"a bad path", OPEN("c", "echo", "{\"state\":{},\"buffer_paths\":[1]}"), V2, FOR(REFUSED, BAD_PATH), CLOSES("c")},
    {"a fraction", OPEN("c", "echo", "{\"state\":{\"v\":0.5}}"), V2, FOR(BAD, NOT_WHOLE), CLOSES("c")},
    {"a fraction for a comm that is open", OPEN("e", "echo", "{\"state\":{\"v\":0.5}}"), V2, FOR(BAD, NOT_WHOLE)},
    {"no JSON here", OPEN("c", "echo", "{\"state\":{\"v\":1e400}}"), V2, .status = ROLGUNAI_NOT_JSON},
    {"nor for an opaque one", OPEN("c", "opaque", "1e400"), .status = ROLGUNAI_NOT_JSON},
    {"data", SAYS("p", "{\"k\":1}"), GIVES(FOR_KERNEL), .handed = "{\"k\":1}"},
    {"no data", "comm_msg", "{\"comm_id\":\"p\"}", GIVES(FOR_KERNEL), .handed = "{}"},
    {"data that is a list", SAYS("p", "[]"), FOR(BAD, BAD_CONTENT)},
    {"opaque data", SAYS("o", "[1.5]"), GIVES(FOR_KERNEL), .handed = "{}"},
    {"a custom", SAYS("e", "{\"method\":\"custom\",\"content\":{\"c\":[1]}}"), GIVES(FOR_KERNEL),
     .handed = "{\"c\":[1]}"},
    {"a custom text", SAYS("e", "{\"method\":\"custom\",\"content\":\"c\"}"), GIVES(FOR_KERNEL), .handed = "\"c\""},
    {"a custom without a content", SAYS("e", "{\"method\":\"custom\"}"), GIVES(DELIVERED)},
    {"an update's keys take the old ones' place", SAYS("e", "{\"method\":\"update\",\"state\":{\"v\":{\"b\":2}}}"),
     GIVES(DELIVERED), UPDATES("echo_update", "{\"v\":{\"b\":2}}")},
    {"an update with a bad state", SAYS("e", "{\"method\":\"update\",\"state\":[]}"), FOR(FAULT, BAD_STATE)},
    {"an update without a buffer", SAYS("e", "{\"method\":\"update\",\"state\":{\"v\":3},\"buffer_paths\":[[\"v\"]]}"),
     FOR(FAULT, BUFFER_MISSING)},
    {"an update with a bad path", SAYS("e", "{\"method\":\"update\",\"state\":{\"v\":3},\"buffer_paths\":1}"),
     FOR(FAULT, BAD_PATH)},
    {"the state after these", SAYS("e", "{\"method\":\"request_state\"}"), GIVES(DELIVERED),
     UPDATES("update", "{\"v\":{\"b\":2},\"w\":1}")},
    {"no method", SAYS("e", "{}"), FOR(FAULT, NO_METHOD)},
    {"another method", SAYS("e", "{\"method\":\"request_states\"}"), FOR(FAULT, UNKNOWN_METHOD)},
    {"no comm", SAYS("c", "{}"), GIVES(NO_COMM)},
    {"comms by their target", "comm_info_request", "{\"target_name\":\"plain\"}", GIVES(COMM_INFO),
     .sends = "{\"comms\":{\"p\":{\"target_name\":\"plain\"}},\"status\":\"ok\"}"},
    {"the last that may be open", OPEN("l", "plain", "{}"), GIVES(OPENED)},
    {"one more than may be open", OPEN("c", "plain", "{}"), FOR(REFUSED, TOO_MANY_COMMS), CLOSES("c")},
    {"a close", "comm_close", "{\"comm_id\":\"p\"}", GIVES(CLOSED)},
    {"a close of no comm", "comm_close", "{\"comm_id\":\"p\"}", GIVES(NO_COMM)},
    {"a close that is bad", "comm_close", "{\"comm_id\":1}", FOR(BAD, BAD_CONTENT)},
    {"metadata that is a list", "comm_msg", "{\"comm_id\":\"e\"}", "[]", FOR(BAD, BAD_CONTENT)},
    {"another message", "display_data", "{}", FOR(BAD, UNKNOWN_TYPE)},
};

static void check_content(const row *r, const char *what, uint32_t status, const char *wanted) {
  if (!wanted) check(status == ROLGUNAI_NO_PART, r->what, what);
  else check(status == ROLGUNAI_OK && size == strlen(wanted) && memcmp(out, wanted, size) == 0, r->what, what);
}

static void play(const row *r) {
  static const size_t no_sizes[1];
  const char *metadata = r->metadata ? r->metadata : "{}";
  char header[64];
  uint32_t reason;
  uint64_t index;
  int length = snprintf(header, sizeof header, "{\"msg_type\":\"%s\"}", r->type);
  uint32_t status =
      rolgunai_handle_message(&handle, 0, bytes(header), (size_t)length, bytes(metadata), strlen(metadata),
                              bytes(r->content), strlen(r->content), bytes(""), 0, no_sizes, 0, &reply, &sent);
  check(status == r->status, r->what, "the status");
  check(reply == r->reply && sent == (r->sends != NULL), r->what, "the reply");
  if (status != ROLGUNAI_OK) return;
  check(rolgunai_last_reason(&handle, &reason, &index) == ROLGUNAI_OK && reason == r->reason, r->what, "the reason");
  status = rolgunai_reply_part(&handle, ROLGUNAI_PART_CONTENT, out, sizeof out, &size);
  check_content(r, "for the kernel", status, r->handed);
  status = rolgunai_sent_part(&handle, 0, ROLGUNAI_PART_CONTENT, out, sizeof out, &size);
  check_content(r, "what is sent", status, r->sends);
}

static void registered(uint32_t kind, const char *name) {
  check(rolgunai_register(&handle, 0, kind, bytes(name), strlen(name), &reply, &sent) == ROLGUNAI_OK
            && reply == ROLGUNAI_REPLY_REGISTERED,
        name, "it is registered");
}

int main(void) {
  check(rolgunai_new(&handle, 4) == ROLGUNAI_OK, "a manager", "the status");
  registered(ROLGUNAI_PLAIN, "plain");
  registered(ROLGUNAI_OPAQUE, "opaque");
  registered(ROLGUNAI_WIDGET_ECHO, "echo");
  for (size_t i = 0; i < sizeof rows / sizeof *rows; i++) play(&rows[i]);
  check(rolgunai_free(&handle) == ROLGUNAI_OK, "the end", "the status");
  printf("%d passed, %d failed\n", passed, failed);
  return failed != 0;
}

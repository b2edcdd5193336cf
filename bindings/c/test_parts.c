/* Messages by their parts: what goes in, what comes out, and the same by a line; reasons, opaque targets, and the close
 * that an open waits for which can't be read. The last line is 'N passed, M failed', and so is the status. */
#include "rolgunai.h"

#include <stdio.h>
#include <string.h>

static int passed, failed;
static rolgunai_handle handle, other;
static uint8_t out[4096], said[4096];
static size_t size, sent;
static uint32_t reply;

static void check(int holds, const char *what) {
  if (holds) passed++;
  else {
    failed++;
    printf("FAILED: %s\n", what);
  }
}

static const uint8_t *bytes(const char *text) { return (const uint8_t *)text; }

static uint32_t message(uint32_t client, const char *header, const char *metadata, const char *content,
                        const char *buffers, size_t buffers_size, const size_t *sizes, size_t count) {
  return rolgunai_handle_message(&handle, client, bytes(header), strlen(header), bytes(metadata), strlen(metadata),
                                 bytes(content), strlen(content), bytes(buffers), buffers_size, sizes, count, &reply,
                                 &sent);
}

static const size_t no_sizes[1];

/* A message without buffers and metadata. */
static uint32_t plainly(const char *type, const char *content) {
  char header[64];
  snprintf(header, sizeof header, "{\"msg_type\":\"%s\"}", type);
  return message(0, header, "{}", content, "", 0, no_sizes, 0);
}

static void check_part(size_t number, size_t part, const char *wanted, size_t length, const char *what) {
  memset(out, 0x55, sizeof out);
  check(rolgunai_sent_part(&handle, number, part, out, sizeof out, &size) == ROLGUNAI_OK && size == length
            && memcmp(out, wanted, length) == 0,
        what);
  check(out[length] == 0x55, what);
  size = 0;
  uint32_t status = rolgunai_sent_part(&handle, number, part, NULL, 0, &size);
  check(status == (length ? ROLGUNAI_BUFFER_TOO_SMALL : ROLGUNAI_OK) && size == length, what);
}

static void check_reply_part(size_t part, const char *wanted, size_t length, const char *what) {
  check(rolgunai_reply_part(&handle, part, out, sizeof out, &size) == ROLGUNAI_OK && size == length
            && memcmp(out, wanted, length) == 0,
        what);
}

static void check_no_part(size_t number, size_t part, const char *what) {
  size = 7;
  check(rolgunai_sent_part(&handle, number, part, out, sizeof out, &size) == ROLGUNAI_NO_PART && size == 0, what);
}

static void check_no_reply_part(size_t part, const char *what) {
  size = 7;
  check(rolgunai_reply_part(&handle, part, out, sizeof out, &size) == ROLGUNAI_NO_PART && size == 0, what);
}

/* The answer of the second manager, that is asked by a line, is the text that the first one, which was asked by parts,
 * has. */
static void same_by_line(const char *line) {
  size_t length;
  check(rolgunai_handle_line(&other, bytes(line), strlen(line), said, sizeof said, &length) == ROLGUNAI_OK, line);
  check(rolgunai_last_text(&handle, out, sizeof out, &size) == ROLGUNAI_OK && size == length
            && memcmp(out, said, length) == 0,
        line);
  uint32_t other_reply;
  size_t other_sent;
  check(rolgunai_last_result(&other, &other_reply, &other_sent) == ROLGUNAI_OK && other_reply == reply
            && other_sent == sent,
        line);
}

/* Whose message the reply is: the comm's id, and its target's name where it has one. */
static void check_subject(const char *id, const char *target, const char *what) {
  check_reply_part(ROLGUNAI_PART_ID, id, strlen(id), what);
  if (target) check_reply_part(ROLGUNAI_PART_TARGET, target, strlen(target), what);
  else check_no_reply_part(ROLGUNAI_PART_TARGET, what);
}

static void nothing_there(const char *when) {
  reply = 7, sent = 7;
  check(plainly("comm_info_request", "{}") == ROLGUNAI_CLOSED && reply == 0 && sent == 0, when);
  check(rolgunai_last_result(&handle, &reply, &sent) == ROLGUNAI_CLOSED && reply == 0 && sent == 0, when);
  check(rolgunai_sent_part(&handle, 0, 0, out, sizeof out, &size) == ROLGUNAI_CLOSED && size == 0, when);
  check(rolgunai_reply_part(&handle, 0, out, sizeof out, &size) == ROLGUNAI_CLOSED && size == 0, when);
  uint32_t reason = 7;
  uint64_t index = 7;
  check(rolgunai_last_reason(&handle, &reason, &index) == ROLGUNAI_CLOSED && reason == 0 && index == 0, when);
}

static void registered(rolgunai_handle *at, uint32_t kind, const char *name) {
  check(rolgunai_register(at, 0, kind, bytes(name), strlen(name), &reply, &sent) == ROLGUNAI_OK
            && reply == ROLGUNAI_REPLY_REGISTERED && sent == 0,
        name);
}

static void opened(rolgunai_handle *at) {
  check(rolgunai_new(at, 4) == ROLGUNAI_OK, "a new manager");
  reply = 7, sent = 7;
  check(rolgunai_last_result(at, &reply, &sent) == ROLGUNAI_OK && reply == ROLGUNAI_REPLY_NONE && sent == 0,
        "no call yet");
  const char *echo = "{\"call\":\"register\",\"kind\":\"echo\",\"name\":\"echo\"}";
  check(rolgunai_handle_line(at, bytes(echo), strlen(echo), out, sizeof out, &size) == ROLGUNAI_OK, "register");
  registered(at, ROLGUNAI_PLAIN, "mine");
  registered(at, ROLGUNAI_WIDGET, "jupyter.widget");
}

static void buffers_there_and_back(void) {
  const size_t sizes[] = {2, 0, 3};
  check(plainly("comm_open", "{\"comm_id\":\"e\",\"target_name\":\"echo\"}") == ROLGUNAI_OK
            && reply == ROLGUNAI_REPLY_OPENED && sent == 0,
        "an open");
  same_by_line("{\"header\":{\"msg_type\":\"comm_open\"},\"content\":{\"comm_id\":\"e\",\"target_name\":\"echo\"}}");
  check(message(1, "{\"msg_type\":\"comm_msg\"}", "{}", "{\"comm_id\":\"e\",\"data\":{\"x\":\"\\u00e9\"}}",
                "\0\xff"
                "abc",
                5, sizes, 3)
            == ROLGUNAI_OK,
        "buffers");
  check(reply == ROLGUNAI_REPLY_DELIVERED && sent == 1, "one message goes out");
  same_by_line("{\"client\":1,\"header\":{\"msg_type\":\"comm_msg\"},"
               "\"content\":{\"comm_id\":\"e\",\"data\":{\"x\":\"\\u00e9\"}},"
               "\"buffers\":[\"AP8=\",\"\",\"YWJj\"]}");
  check_part(0, ROLGUNAI_PART_TYPE, "comm_msg", 8, "its type");
  check_part(0, ROLGUNAI_PART_ID, "e", 1, "its id");
  check_part(0, ROLGUNAI_PART_CONTENT, "{\"comm_id\":\"e\",\"data\":{\"x\":\"\xc3\xa9\"}}", 33, "its content");
  check_part(0, ROLGUNAI_PART_METADATA, "{}", 2, "its metadata");
  check_part(0, ROLGUNAI_PART_BUFFERS, "\0\xff", 2, "buffer 0");
  check_part(0, ROLGUNAI_PART_BUFFERS + 1, "", 0, "buffer 1");
  check_part(0, ROLGUNAI_PART_BUFFERS + 2, "abc", 3, "buffer 2");
  check_no_part(0, ROLGUNAI_PART_BUFFERS + 3, "no buffer 3");
  check_no_part(0, ROLGUNAI_PART_TARGET, "a message has no target of its own");
  check_no_part(0, SIZE_MAX, "no last buffer");
  check_no_part(1, ROLGUNAI_PART_TYPE, "no second message");
  check_no_part(SIZE_MAX, SIZE_MAX, "no last message");
  check_no_reply_part(ROLGUNAI_PART_CONTENT, "nothing for the kernel");
}

static void a_blank_line(const char *line) {
  check(plainly("comm_info_request", "{}") == ROLGUNAI_OK && reply == ROLGUNAI_REPLY_COMM_INFO && sent == 1,
        "a call that isn't blank");
  check(rolgunai_handle_line(&handle, bytes(line), strlen(line), out, sizeof out, &size) == ROLGUNAI_OK && size == 0,
        "a blank line");
  check(rolgunai_last_result(&handle, &reply, &sent) == ROLGUNAI_OK && reply == ROLGUNAI_REPLY_NONE && sent == 0,
        "comes to nothing");
  check_no_part(0, ROLGUNAI_PART_TYPE, "and sends nothing");
}

static void for_the_kernel(void) {
  const size_t sizes[] = {3};
  check(plainly("comm_open", "{\"comm_id\":\"m\",\"target_name\":\"mine\"}") == ROLGUNAI_OK
            && reply == ROLGUNAI_REPLY_OPENED,
        "a plain comm");
  check(message(0, "{\"msg_type\":\"comm_msg\"}", "{}", "{\"comm_id\":\"m\",\"data\":{\"y\":[2]}}", "xyz", 3, sizes, 1)
            == ROLGUNAI_OK,
        "a message");
  check(reply == ROLGUNAI_REPLY_FOR_KERNEL && sent == 0, "for the kernel");
  check_subject("m", "mine", "a kernel needs no table to know whose message it is");
  check_reply_part(ROLGUNAI_PART_CONTENT, "{\"y\":[2]}", 9, "its content for the kernel");
  check_reply_part(ROLGUNAI_PART_BUFFERS, "xyz", 3, "its buffer for the kernel");
  check_no_reply_part(ROLGUNAI_PART_BUFFERS + 1, "no second buffer");
  check_no_reply_part(ROLGUNAI_PART_TYPE, "a reply has no type");
  check_no_reply_part(ROLGUNAI_PART_METADATA, "nor metadata");
}

static void a_widget(void) {
  const char *launch =
      "{\"call\":\"launch\",\"name\":\"jupyter.widget\",\"uuid\":\"00000000-0000-0000-0000-000000000001\","
      "\"state\":{\"v\":1}}";
  check(rolgunai_handle_line(&handle, bytes(launch), strlen(launch), out, sizeof out, &size) == ROLGUNAI_OK, "launch");
  check(rolgunai_last_result(&handle, &reply, &sent) == ROLGUNAI_OK && reply == ROLGUNAI_REPLY_LAUNCHED && sent == 1,
        "launched");
  check_part(0, ROLGUNAI_PART_TYPE, "comm_open", 9, "an open goes out");
  check_part(0, ROLGUNAI_PART_ID, "00000000-0000-0000-0000-000000000001", 36, "its id");
  check_part(0, ROLGUNAI_PART_METADATA, "{\"version\":\"2.1.0\"}", 19, "its version");
  check(plainly("comm_msg",
                "{\"comm_id\":\"00000000-0000-0000-0000-000000000001\",\"data\":{\"method\":\"request_state\"}}")
            == ROLGUNAI_OK,
        "request");
  check(reply == ROLGUNAI_REPLY_DELIVERED && sent == 1, "the state goes out");
  check(plainly("comm_msg", "{\"comm_id\":\"00000000-0000-0000-0000-000000000001\",\"data\":{}}") == ROLGUNAI_OK
            && reply == ROLGUNAI_REPLY_FAULT,
        "a fault");
}

static void a_widget_that_echoes(void) {
  const size_t sizes[] = {3};
  const char *open = "{\"comm_id\":\"x\",\"target_name\":\"echoing\",\"data\":{\"state\":{\"v\":1}}}";
  const char *update =
      "{\"comm_id\":\"x\",\"data\":{\"method\":\"update\",\"state\":{\"v\":2},\"buffer_paths\":[[\"b\"]]}}";
  const char *echo =
      "{\"comm_id\":\"x\",\"data\":{\"buffer_paths\":[[\"b\"]],\"method\":\"echo_update\",\"state\":{\"v\":2}}}";
  registered(&handle, ROLGUNAI_WIDGET_ECHO, "echoing");
  check(message(0, "{\"msg_type\":\"comm_open\"}", "{\"version\":\"2.0.0\"}", open, "", 0, no_sizes, 0) == ROLGUNAI_OK,
        "an open of one");
  check(reply == ROLGUNAI_REPLY_OPENED && sent == 0, "it is opened, and nothing is echoed");
  check(message(1, "{\"msg_type\":\"comm_msg\"}", "{}", update, "xyz", 3, sizes, 1) == ROLGUNAI_OK, "an update of it");
  check(reply == ROLGUNAI_REPLY_DELIVERED && sent == 1, "it is echoed");
  check_part(0, ROLGUNAI_PART_TYPE, "comm_msg", 8, "by a message");
  check_part(0, ROLGUNAI_PART_CONTENT, echo, strlen(echo), "with what it brought");
  check_part(0, ROLGUNAI_PART_BUFFERS, "xyz", 3, "and its buffer");
  check_no_part(0, ROLGUNAI_PART_BUFFERS + 1, "and no other");
  check(plainly("comm_msg", "{\"comm_id\":\"x\",\"data\":{\"method\":\"update\",\"state\":{}}}") == ROLGUNAI_OK,
        "an update of no key");
  check(reply == ROLGUNAI_REPLY_DELIVERED && sent == 0, "isn't echoed");
  check(plainly("comm_close", "{\"comm_id\":\"x\"}") == ROLGUNAI_OK && reply == ROLGUNAI_REPLY_CLOSED, "its close");
}

static void lists_and_ends(void) {
  check(plainly("comm_info_request", "{\"target_name\":\"echo\"}") == ROLGUNAI_OK && reply == ROLGUNAI_REPLY_COMM_INFO
            && sent == 1,
        "which are open");
  check_part(0, ROLGUNAI_PART_TYPE, "comm_info_reply", 15, "an info reply");
  check_part(0, ROLGUNAI_PART_ID, "", 0, "of no comm");
  check_part(0, ROLGUNAI_PART_CONTENT, "{\"comms\":{\"e\":{\"target_name\":\"echo\"}},\"status\":\"ok\"}", 52,
             "its comms");
  const char *line = "{\"call\":\"unregister\",\"name\":\"echo\"}";
  check(rolgunai_handle_line(&handle, bytes(line), strlen(line), out, sizeof out, &size) == ROLGUNAI_OK, line);
  check(rolgunai_last_result(&handle, &reply, &sent) == ROLGUNAI_OK && reply == ROLGUNAI_REPLY_UNREGISTERED
            && sent == 1,
        "unregistered");
  check_reply_part(ROLGUNAI_PART_CONTENT, "[\"e\"]", 5, "the ids that were closed");
  check_part(0, ROLGUNAI_PART_TYPE, "comm_close", 10, "a close goes out");
  check_part(0, ROLGUNAI_PART_CONTENT, "{\"comm_id\":\"e\",\"data\":{}}", 25, "its content");
}

static void a_replacement(void) {
  check(plainly("comm_open", "{\"comm_id\":\"k\",\"target_name\":\"mine\"}") == ROLGUNAI_OK
            && reply == ROLGUNAI_REPLY_OPENED,
        "one more comm");
  check(rolgunai_register(&handle, 0, ROLGUNAI_PLAIN, bytes("mine"), 4, &reply, &sent) == ROLGUNAI_OK
            && reply == ROLGUNAI_REPLY_REPLACED && sent == 2,
        "a register of a taken name");
  check_no_reply_part(ROLGUNAI_PART_ID, "it is about no comm");
  check_reply_part(ROLGUNAI_PART_TARGET, "mine", 4, "but about a target");
  check_reply_part(ROLGUNAI_PART_CONTENT, "[\"m\",\"k\"]", 9, "the ids that were closed");
  check_part(0, ROLGUNAI_PART_TYPE, "comm_close", 10, "a close goes out");
  check_part(0, ROLGUNAI_PART_CONTENT, "{\"comm_id\":\"m\",\"data\":{}}", 25, "of the comm that was opened first");
  check_part(1, ROLGUNAI_PART_CONTENT, "{\"comm_id\":\"k\",\"data\":{}}", 25, "and of the other");
  check(plainly("comm_open", "{\"comm_id\":\"m\",\"target_name\":\"mine\"}") == ROLGUNAI_OK
            && reply == ROLGUNAI_REPLY_OPENED,
        "a comm of the new target");
}

/* A message of a frontend that isn't delivered: what comes of it, and why. */
static const struct {
  const char *what, *type, *metadata, *content;
  uint32_t client, reply, reason;
  uint64_t index;
  const char *closes;
} faults[] = {
    {"a fifth client", "comm_msg", "{}", "{}", 4, ROLGUNAI_REPLY_BAD, ROLGUNAI_REASON_BAD_CLIENT, 0, NULL},
    {"no type of comms", "comm_none", "{}", "{}", 0, ROLGUNAI_REPLY_BAD, ROLGUNAI_REASON_UNKNOWN_TYPE, 0, NULL},
    {"a content that is a list", "comm_msg", "{}", "[]", 0, ROLGUNAI_REPLY_BAD, ROLGUNAI_REASON_BAD_CONTENT,
     ROLGUNAI_FIELD_CONTENT, NULL},
    {"no id", "comm_close", "{}", "{}", 0, ROLGUNAI_REPLY_BAD, ROLGUNAI_REASON_BAD_CONTENT, ROLGUNAI_FIELD_COMM_ID,
     NULL},
    {"data that is a text", "comm_msg", "{}", "{\"comm_id\":\"m\",\"data\":\"x\"}", 0, ROLGUNAI_REPLY_BAD,
     ROLGUNAI_REASON_BAD_CONTENT, ROLGUNAI_FIELD_DATA, NULL},
    {"metadata that is a text", "comm_msg", "\"x\"", "{\"comm_id\":\"m\"}", 0, ROLGUNAI_REPLY_BAD,
     ROLGUNAI_REASON_BAD_CONTENT, ROLGUNAI_FIELD_METADATA, NULL},
    {"a fraction", "comm_msg", "{}", "{\"comm_id\":\"m\",\"data\":{\"x\":0.5}}", 0, ROLGUNAI_REPLY_BAD,
     ROLGUNAI_REASON_NOT_WHOLE, 0, NULL},
    {"an open without a name", "comm_open", "{}", "{\"comm_id\":\"q\"}", 0, ROLGUNAI_REPLY_BAD,
     ROLGUNAI_REASON_BAD_CONTENT, ROLGUNAI_FIELD_TARGET_NAME, "q"},
    {"an open with data that is a number", "comm_open", "{}",
     "{\"comm_id\":\"q\",\"target_name\":\"mine\",\"data\":3}", 0, ROLGUNAI_REPLY_BAD, ROLGUNAI_REASON_BAD_CONTENT,
     ROLGUNAI_FIELD_DATA, "q"},
    {"an open by a fifth client", "comm_open", "{}", "{\"comm_id\":\"q\",\"target_name\":\"mine\"}", 4,
     ROLGUNAI_REPLY_BAD, ROLGUNAI_REASON_BAD_CLIENT, 0, "q"},
    {"an open without an id", "comm_open", "{}", "{\"target_name\":\"mine\"}", 0, ROLGUNAI_REPLY_BAD,
     ROLGUNAI_REASON_BAD_CONTENT, ROLGUNAI_FIELD_COMM_ID, NULL},
    {"an open that can't be read, of a comm that is open", "comm_open", "{}",
     "{\"comm_id\":\"m\",\"target_name\":\"mine\",\"data\":3}", 0, ROLGUNAI_REPLY_BAD, ROLGUNAI_REASON_BAD_CONTENT,
     ROLGUNAI_FIELD_DATA, NULL},
    {"no target", "comm_open", "{}", "{\"comm_id\":\"z\",\"target_name\":\"none\"}", 0, ROLGUNAI_REPLY_REFUSED,
     ROLGUNAI_REASON_NO_TARGET, 0, "z"},
    {"a widget of another version", "comm_open", "{\"version\":\"1.0\"}",
     "{\"comm_id\":\"z\",\"target_name\":\"jupyter.widget\",\"data\":{\"state\":{}}}", 0, ROLGUNAI_REPLY_REFUSED,
     ROLGUNAI_REASON_WRONG_VERSION, 0, "z"},
    {"a buffer is missing", "comm_msg", "{}",
     "{\"comm_id\":\"00000000-0000-0000-0000-000000000001\",\"data\":{\"method\":\"update\",\"state\":{},"
     "\"buffer_paths\":[[\"b\"]]}}",
     0, ROLGUNAI_REPLY_FAULT, ROLGUNAI_REASON_BUFFER_MISSING, 0, NULL},
    {"no method", "comm_msg", "{}", "{\"comm_id\":\"00000000-0000-0000-0000-000000000001\",\"data\":{}}", 0,
     ROLGUNAI_REPLY_FAULT, ROLGUNAI_REASON_NO_METHOD, 0, NULL},
    {"no comm", "comm_msg", "{}", "{\"comm_id\":\"nobody\"}", 0, ROLGUNAI_REPLY_NO_COMM, ROLGUNAI_REASON_NONE, 0, NULL},
};

static void reasons(void) {
  for (size_t i = 0; i < sizeof faults / sizeof *faults; i++) {
    char header[64];
    uint32_t reason;
    uint64_t index;
    snprintf(header, sizeof header, "{\"msg_type\":\"%s\"}", faults[i].type);
    check(message(faults[i].client, header, faults[i].metadata, faults[i].content, "", 0, no_sizes, 0) == ROLGUNAI_OK
              && reply == faults[i].reply && sent == (faults[i].closes != NULL),
          faults[i].what);
    check(rolgunai_last_reason(&handle, &reason, &index) == ROLGUNAI_OK && reason == faults[i].reason
              && index == faults[i].index,
          faults[i].what);
    if (!faults[i].closes) continue;
    check_part(0, ROLGUNAI_PART_TYPE, "comm_close", 10, faults[i].what);
    check_part(0, ROLGUNAI_PART_ID, faults[i].closes, strlen(faults[i].closes), faults[i].what);
  }
  check_subject("nobody", NULL, "a comm that isn't open has no target");
}

/* Of an opaque comm only the type, the id and the name are read. */
static void an_opaque_comm(void) {
  const size_t sizes[] = {3};
  registered(&handle, ROLGUNAI_OPAQUE, "figures");
  check(plainly("comm_open", "{\"comm_id\":\"o\",\"target_name\":\"figures\",\"data\":\"a text\"}") == ROLGUNAI_OK
            && reply == ROLGUNAI_REPLY_OPENED && sent == 0,
        "an open whose data is a text");
  check_subject("o", "figures", "it is of an opaque target");
  check(message(2, "{\"msg_type\":\"comm_msg\"}", "7", "{\"comm_id\":\"o\",\"data\":0.5}", "xyz", 3, sizes, 1)
                == ROLGUNAI_OK
            && reply == ROLGUNAI_REPLY_FOR_KERNEL && sent == 0,
        "a message whose data is a fraction");
  check_subject("o", "figures", "the kernel is told whose it is");
  check_reply_part(ROLGUNAI_PART_CONTENT, "{}", 2, "and has its data in hand");
  check_no_reply_part(ROLGUNAI_PART_BUFFERS, "and its buffers");
  check(message(4, "{\"msg_type\":\"comm_msg\"}", "{}", "{\"comm_id\":\"o\"}", "", 0, no_sizes, 0) == ROLGUNAI_OK
            && reply == ROLGUNAI_REPLY_BAD && sent == 0,
        "the client is tested");
  check(plainly("comm_close", "{\"comm_id\":\"o\",\"data\":[]}") == ROLGUNAI_OK && reply == ROLGUNAI_REPLY_CLOSED,
        "its close");
  check(plainly("comm_msg", "{\"comm_id\":\"o\",\"data\":\"late\"}") == ROLGUNAI_OK && reply == ROLGUNAI_REPLY_BAD,
        "a comm that is closed isn't opaque any more");
}

/* Whose a message is its content tells, wherever the id stands in it and however long it is. */
static const struct {
  const char *what, *content, *id, *data;
} named[] = {
    {"an id that comes first", "{\"comm_id\":\"p\",\"data\":{\"x\":1}}", "p", "{}"},
    {"an id after a space", "{\"comm_id\": \"p\", \"data\": 0.5}", "p", "{}"},
    {"an id that comes last", "{\"data\":{\"x\":1},\"comm_id\":\"p\"}", "p", "{}"},
    {"an id with an escape", "{\"comm_id\":\"\\u0070\",\"data\":[]}", "p", "{}"},
    {"the last of two ids, of an opaque comm", "{\"comm_id\":\"q\",\"data\":7,\"comm_id\":\"p\"}", "p", "{}"},
    {"the last of two ids, of a plain comm", "{\"comm_id\":\"p\",\"data\":{\"x\":1},\"comm_id\":\"q\"}", "q", "{\"x\":1}"},
    {"the id of a plain comm", "{\"comm_id\":\"q\",\"data\":{\"x\":1}}", "q", "{\"x\":1}"},
};

static void comms_are_named(void) {
  const size_t sizes[] = {3};
  char content[2048];
  registered(&handle, ROLGUNAI_OPAQUE, "pictures");
  registered(&handle, ROLGUNAI_PLAIN, "texts");
  plainly("comm_open", "{\"comm_id\":\"p\",\"target_name\":\"pictures\"}");
  plainly("comm_open", "{\"comm_id\":\"q\",\"target_name\":\"texts\"}");
  for (size_t i = 0; i < sizeof named / sizeof *named; i++)
    for (int padding = 0; padding <= 1500; padding += 1500)
      for (size_t count = 0; count <= 1; count++) {
        const char *what = named[i].what;
        snprintf(content, sizeof content, "%s%*s", named[i].content, padding, "");
        check(message(0, "{\"msg_type\":\"comm_msg\"}", "{}", content, "xyz", 3 * count, sizes, count) == ROLGUNAI_OK
                  && reply == ROLGUNAI_REPLY_FOR_KERNEL && sent == 0,
              what);
        check_subject(named[i].id, strcmp(named[i].id, "p") ? "texts" : "pictures", what);
        check_reply_part(ROLGUNAI_PART_CONTENT, named[i].data, strlen(named[i].data), what);
        if (count && strcmp(named[i].id, "p")) check_reply_part(ROLGUNAI_PART_BUFFERS, "xyz", 3, what);
        else check_no_reply_part(ROLGUNAI_PART_BUFFERS, what);
      }
}

/* Parts that aren't taken, and what they are. */
static const size_t one_each[] = {1, 1}, four[] = {1, 3}, vast[] = {SIZE_MAX, 4};
static const struct {
  const char *what, *header, *metadata, *content;
  const size_t *sizes;
  size_t count;
  uint32_t status;
} refused[] = {
    {"sizes that are too few", "{}", "{}", "{}", one_each, 2, ROLGUNAI_BAD_SIZES},
    {"sizes that are too many", "{}", "{}", "{}", four, 2, ROLGUNAI_BAD_SIZES},
    {"sizes that are more than there can be", "{}", "{}", "{}", vast, 2, ROLGUNAI_BAD_SIZES},
    {"sizes are tested before JSON texts", "{", "{}", "{}", one_each, 2, ROLGUNAI_BAD_SIZES},
    {"a header that reaches beyond", "{},\"call\":\"hang_up\",\"id\":\"m\",\"x\":{}", "{}", "{}", no_sizes, 0,
     ROLGUNAI_NOT_JSON},
    {"no metadata", "{}", "", "{}", no_sizes, 0, ROLGUNAI_NOT_JSON},
    {"a content that isn't UTF-8", "{}", "{}", "\xff", no_sizes, 0, ROLGUNAI_NOT_JSON},
};

static void refusals(void) {
  uint8_t kept[4096];
  size_t length, count;
  check(plainly("comm_close", "{\"comm_id\":\"m\"}") == ROLGUNAI_OK && reply == ROLGUNAI_REPLY_CLOSED, "a close");
  check(rolgunai_last_text(&handle, kept, sizeof kept, &length) == ROLGUNAI_OK, "its text");
  for (size_t i = 0; i < sizeof refused / sizeof *refused; i++) {
    reply = 7, sent = 7, count = refused[i].count;
    uint32_t status = message(0, refused[i].header, refused[i].metadata, refused[i].content, "abc", count ? 3 : 0,
                              refused[i].sizes, count);
    check(status == refused[i].status && reply == 0 && sent == 0, refused[i].what);
  }
  check(rolgunai_last_text(&handle, out, sizeof out, &size) == ROLGUNAI_OK && size == length
            && memcmp(out, kept, length) == 0,
        "the last text stays");
  check(rolgunai_last_result(&handle, &reply, &sent) == ROLGUNAI_OK && reply == ROLGUNAI_REPLY_CLOSED && sent == 0,
        "and the last answer");
}

int main(void) {
  nothing_there("before an open");
  opened(&handle);
  check(rolgunai_last_result(&handle, &reply, &sent) == ROLGUNAI_OK && reply == ROLGUNAI_REPLY_REGISTERED && sent == 0,
        "registered");
  opened(&other);
  buffers_there_and_back();
  a_blank_line("");
  a_blank_line(" \t\r");
  for_the_kernel();
  a_widget();
  a_widget_that_echoes();
  lists_and_ends();
  a_replacement();
  reasons();
  an_opaque_comm();
  comms_are_named();
  refusals();
  check(rolgunai_free(&handle) == ROLGUNAI_OK && rolgunai_free(&other) == ROLGUNAI_OK, "the end");
  nothing_there("after the end");
  printf("%d passed, %d failed\n", passed, failed);
  return failed != 0;
}

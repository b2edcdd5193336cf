/* What no script shows: each status, plain targets, many targets, nested texts, a size without a buffer, and a handle
 * that goes to another thread. The last line is 'N passed, M failed', and the status is 1 where one failed. */
#include "rolgunai.h"

#include <pthread.h>
#include <stdio.h>
#include <string.h>

static int passed, failed;
static rolgunai_handle handle;
static uint8_t out[4096];
static size_t size, sent;
static uint32_t reply;

static void check(int holds, const char *what) {
  if (holds) passed++;
  else {
    failed++;
    printf("FAILED: %s\n", what);
  }
}

static const uint8_t *bytes(const char *text) { return (const uint8_t *)text; }

static uint32_t line(const char *text) {
  return rolgunai_handle_line(&handle, bytes(text), strlen(text), out, sizeof out, &size);
}

static uint32_t named(uint32_t client, uint32_t kind, const char *name) {
  reply = 77, sent = 77;
  return rolgunai_register(&handle, client, kind, bytes(name), strlen(name), &reply, &sent);
}

static int said(const char *text) { return size == strlen(text) && memcmp(out, text, size) == 0; }

static void check_line(const char *text, const char *answer) {
  uint32_t status = line(text);
  check(status == ROLGUNAI_OK && said(answer), text);
  if (status != ROLGUNAI_OK || !said(answer)) printf("  status %u: %.*s\n", status, (int)size, out);
}

static void closed_handles(const char *when) {
  size = 7;
  check(line("{}") == ROLGUNAI_CLOSED && size == 0, when);
  check(named(0, ROLGUNAI_PLAIN, "p") == ROLGUNAI_CLOSED && reply == 0 && sent == 0, when);
  check(named(9, 77, "\xff") == ROLGUNAI_CLOSED, when);
  size = 7;
  check(rolgunai_last_text(&handle, out, sizeof out, &size) == ROLGUNAI_CLOSED && size == 0, when);
  check(rolgunai_free(&handle) == ROLGUNAI_CLOSED, when);
}

static void making(void) {
  check(rolgunai_new(&handle, 0) == ROLGUNAI_BAD_LIMIT, "no comm");
  check(rolgunai_new(&handle, 1048577) == ROLGUNAI_BAD_LIMIT, "too many comms");
  check(rolgunai_new(&handle, 2) == ROLGUNAI_OK, "a new manager");
  check(rolgunai_new(&handle, 2) == ROLGUNAI_ALREADY_OPEN, "a second one");
  check(rolgunai_new(&handle, 0) == ROLGUNAI_ALREADY_OPEN, "the handle is tested before the limit");
}

/* A register: its client, kind and name, and what comes of it. */
static const struct {
  const char *what;
  uint32_t client, kind;
  const char *name;
  uint32_t status, reply;
} registers[] = {
    {"a kind that isn't", 0, 6, "x", ROLGUNAI_BAD_KIND, 0},
    {"echo is for scripts", 0, 0, "x", ROLGUNAI_BAD_KIND, 0},
    {"counter is for scripts", 0, 1, "x", ROLGUNAI_BAD_KIND, 0},
    {"a name that isn't UTF-8", 0, ROLGUNAI_PLAIN, "\xff", ROLGUNAI_BAD_NAME, 0},
    {"the kind is tested before the name", 0, 6, "\xff", ROLGUNAI_BAD_KIND, 0},
    {"the name is tested before the client", 9, ROLGUNAI_OPAQUE, "\xff", ROLGUNAI_BAD_NAME, 0},
    {"a fifth client", 4, ROLGUNAI_WIDGET, "x", ROLGUNAI_OK, ROLGUNAI_REPLY_BAD},
    {"a plain target", 0, ROLGUNAI_PLAIN, "mine", ROLGUNAI_OK, ROLGUNAI_REPLY_REGISTERED},
    {"another in its place", 3, ROLGUNAI_PLAIN, "mine", ROLGUNAI_OK, ROLGUNAI_REPLY_REPLACED},
    {"widgets", 0, ROLGUNAI_WIDGET, "jupyter.widget", ROLGUNAI_OK, ROLGUNAI_REPLY_REGISTERED},
};

static void registering(void) {
  for (size_t i = 0; i < sizeof registers / sizeof *registers; i++) {
    uint32_t status = named(registers[i].client, registers[i].kind, registers[i].name);
    int holds = status == registers[i].status && reply == registers[i].reply && sent == 0;
    check(holds, registers[i].what);
    if (!holds) printf("  status %u, reply %u, sent %zu\n", status, reply, sent);
  }
  check(rolgunai_last_text(&handle, out, sizeof out, &size) == ROLGUNAI_OK && said("reply 3 registered\n"),
        "a call that can't be read is no change");
}

static void many_targets(void) {
  static const uint32_t kinds[] = {ROLGUNAI_WIDGET, ROLGUNAI_PLAIN, ROLGUNAI_WIDGET_ECHO, ROLGUNAI_OPAQUE};
  static const char *const words[] = {"echo", "counter", "widget", "widget_echo"};
  rolgunai_handle many = {0};
  char text[128], answer[64];
  int registered = 0;
  check(rolgunai_new(&many, 1) == ROLGUNAI_OK, "a manager of one comm");
  for (int i = 0; i < 400; i++) {
    snprintf(text, sizeof text, "name %d", i);
    registered += rolgunai_register(&many, 0, kinds[i % 4], bytes(text), strlen(text), &reply, &sent) == ROLGUNAI_OK
                  && reply == ROLGUNAI_REPLY_REGISTERED;
  }
  check(registered == 400, "a hundred targets of each kind");
  for (int i = 400; i < 800; i++) {
    snprintf(text, sizeof text, "{\"call\":\"register\",\"kind\":\"%s\",\"name\":\"name %d\"}", words[i % 4], i);
    snprintf(answer, sizeof answer, "reply %d registered\n", i + 1);
    registered += rolgunai_handle_line(&many, bytes(text), strlen(text), out, sizeof out, &size) == ROLGUNAI_OK
                  && said(answer);
  }
  check(registered == 800, "and a hundred of each by lines");
  check(rolgunai_free(&many) == ROLGUNAI_OK, "they end");
}

/* What a number that isn't whole comes to, in a widget's state. */
static void decimals(void) {
  static const char opening[] = "{\"header\":{\"msg_type\":\"comm_open\"},\"content\":{\"comm_id\":\"a\","
                                "\"target_name\":\"w\",\"data\":{\"state\":{\"v\":-1.50E+2}}},"
                                "\"metadata\":{\"version\":\"2.1.0\"}}";
  static const struct {
    uint32_t (*make)(rolgunai_handle *, size_t);
    const char *opened, *state, *name;
  } rows[] = {
      {rolgunai_new, "bad 2 not_whole\n", "state 1 no_comm\n", "it is refused"},
      {rolgunai_new_with_decimals, "reply 2 opened\n",
       "state 2 {\"buffer_paths\":[],\"buffers\":[],\"state\":{\"v\":-1.50E+2}}\n", "its text stays as it came"},
  };
  for (size_t i = 0; i < sizeof rows / sizeof *rows; i++) {
    check(rows[i].make(&handle, 1) == ROLGUNAI_OK && named(0, ROLGUNAI_WIDGET, "w") == ROLGUNAI_OK, rows[i].name);
    check_line(opening, rows[i].opened);
    check_line("{\"call\":\"state\",\"id\":\"a\"}", rows[i].state);
    check(rows[i].make(&handle, 1) == ROLGUNAI_ALREADY_OPEN, "the handle has a manager");
    check(rolgunai_free(&handle) == ROLGUNAI_OK, rows[i].name);
    check(rows[i].make(&handle, 1048577) == ROLGUNAI_BAD_LIMIT, "too many comms");
  }
}

static void a_plain_comm(void) {
  check_line("{\"header\":{\"msg_type\":\"comm_open\"},\"content\":{\"comm_id\":\"a\",\"target_name\":\"mine\","
             "\"data\":{\"x\":1}}}",
             "reply 4 opened\n");
  check_line("{\"header\":{\"msg_type\":\"comm_msg\"},\"content\":{\"comm_id\":\"a\",\"data\":{\"x\":[2]}},"
             "\"buffers\":[\"AQI=\"]}",
             "reply 5 custom {\"buffers\":[\"AQI=\"],\"content\":{\"x\":[2]}}\n");
  check_line("{\"call\":\"send\",\"id\":\"a\",\"data\":{\"y\":3}}",
             "reply 6 delivered\n"
             "out {\"buffers\":[],\"call\":5,\"client\":0,\"content\":{\"comm_id\":\"a\",\"data\":{\"y\":3}},"
             "\"header\":{\"msg_type\":\"comm_msg\"},\"metadata\":{}}\n");
  check_line("{\"call\":\"state\",\"id\":\"a\"}", "state 6 no_state\n");
}

/* A content of so many objects and lists inside one another: {"comm_id":"d","data":{"x":[[..]]}}. */
static size_t nested(char *into, int depth) {
  char *to = into + sprintf(into, "{\"comm_id\":\"d\",\"data\":{\"x\":");
  for (int i = 2; i < depth; i++) *to++ = '[';
  for (int i = 2; i < depth; i++) *to++ = ']';
  return (size_t)(to - into) + (size_t)sprintf(to, "}}");
}

/* A text by its parts nests at most 127 deep, and so does a line, in which the content stands one deeper. */
static void deep_contents(void) {
  static const struct {
    const char *what;
    int depth;
    uint32_t status, reply;
    const char *text;
  } rows[] = {
      {"a content 126 deep", 126, ROLGUNAI_OK, ROLGUNAI_REPLY_FOR_KERNEL, "reply 3 custom "},
      {"a content 127 deep", 127, ROLGUNAI_OK, ROLGUNAI_REPLY_FOR_KERNEL, "bad 4 not_json\n"},
      {"a content 128 deep", 128, ROLGUNAI_NOT_JSON, 0, "bad 5 not_json\n"},
  };
  static const char *const header = "{\"msg_type\":\"comm_msg\"}";
  static const char *const open =
      "{\"header\":{\"msg_type\":\"comm_open\"},\"content\":{\"comm_id\":\"d\",\"target_name\":\"p\"}}";
  rolgunai_handle parts = {0}, lines = {0}, *both[] = {&parts, &lines};
  char content[512], text[768];
  const size_t none = 0;
  for (size_t i = 0; i < 2; i++) {
    check(rolgunai_new(both[i], 1) == ROLGUNAI_OK, "a manager for nested texts");
    rolgunai_register(both[i], 0, ROLGUNAI_PLAIN, bytes("p"), 1, &reply, &sent);
    rolgunai_handle_line(both[i], bytes(open), strlen(open), out, sizeof out, &size);
    check(said("reply 2 opened\n"), "a comm for nested texts");
  }
  for (size_t i = 0; i < sizeof rows / sizeof *rows; i++) {
    size_t length = nested(content, rows[i].depth);
    uint32_t status = rolgunai_handle_message(&parts, 0, bytes(header), strlen(header), bytes("{}"), 2, bytes(content),
                                              length, bytes(""), 0, &none, 0, &reply, &sent);
    check(status == rows[i].status && reply == rows[i].reply, rows[i].what);
    length = (size_t)snprintf(text, sizeof text, "{\"header\":%s,\"content\":%s}", header, content);
    status = rolgunai_handle_line(&lines, bytes(text), length, out, sizeof out, &size);
    check(status == ROLGUNAI_OK && memcmp(out, rows[i].text, strlen(rows[i].text)) == 0, rows[i].what);
  }
  check(rolgunai_free(&parts) == ROLGUNAI_OK && rolgunai_free(&lines) == ROLGUNAI_OK, "they end");
}

/* The text is asked for with less room than it takes, without a buffer, and again. */
static void short_buffers(void) {
  const char *text = "{\"header\":{\"msg_type\":\"comm_close\"},\"content\":{\"comm_id\":\"a\"}}";
  uint8_t few[4] = {9, 9, 9, 9};
  check(rolgunai_handle_line(&handle, bytes(text), strlen(text), few, 4, &size) == ROLGUNAI_BUFFER_TOO_SMALL
            && size == 15,
        "a short buffer");
  check(few[0] == 9 && few[3] == 9, "a short buffer stays");
  check(rolgunai_last_text(&handle, few, 4, &size) == ROLGUNAI_BUFFER_TOO_SMALL && size == 15,
        "the text again, in a short buffer");
  check(rolgunai_last_text(&handle, NULL, 0, &size) == ROLGUNAI_BUFFER_TOO_SMALL && size == 15,
        "its size, without a buffer");
  check(rolgunai_last_text(&handle, out, sizeof out, &size) == ROLGUNAI_OK && said("reply 7 closed\n"),
        "the text again");
  check(rolgunai_last_text(&handle, out, sizeof out, &size) == ROLGUNAI_OK && said("reply 7 closed\n"),
        "the text once more");
  check(line("") == ROLGUNAI_OK && size == 0, "an empty line says nothing");
  check(rolgunai_last_text(&handle, NULL, 0, &size) == ROLGUNAI_OK && size == 0, "nothing fits no buffer");
  check(rolgunai_handle_line(&handle, bytes("{"), 1, NULL, 0, &size) == ROLGUNAI_BUFFER_TOO_SMALL && size > 0,
        "a line without a buffer is played");
}

static void *elsewhere(void *nothing) {
  check_line("{\"call\":\"hang_up\",\"id\":\"nobody\"}", "reply 8 no_comm\n");
  check(rolgunai_free(&handle) == ROLGUNAI_OK, "it is freed");
  return nothing;
}

int main(void) {
  check(rolgunai_version() == ROLGUNAI_VERSION_NUMBER, "the library's version is the header's");
  closed_handles("before there is a manager");
  decimals();
  making();
  registering();
  many_targets();
  deep_contents();
  a_plain_comm();
  short_buffers();
  pthread_t thread;
  check(pthread_create(&thread, NULL, elsewhere, NULL) == 0 && pthread_join(thread, NULL) == 0, "a thread");
  closed_handles("after it is freed");
  printf("%d passed, %d failed\n", passed, failed);
  return failed != 0;
}

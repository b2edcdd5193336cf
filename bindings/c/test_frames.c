/* Buffers where they lie: each row is played one after another and by frames, over a handle and over a client, and each
 * time the reply, the content and the buffers that come out are those of the row. The frames lie apart, and are
 * overwritten and freed right after the call. The last line is 'N passed, M failed', and so is the status. */
#include "rolgunai_client.h"

#include <stdio.h>
#include <stdlib.h>
#include <string.h>

#define MOST 3
#define WIDGET_ID "00000000-0000-0000-0000-000000000001"
#define PATHS "[[\"p\"],[\"list\",1],[\"q\",\"r\"]]"
#define STATE "\"q\":{},\"list\":[0,null,2]"
#define PLACED "\"state\":{\"list\":[0,null,2],\"q\":{}}"

enum call { MESSAGE, LAUNCH, PUSH, SEND };

typedef struct {
  const char *name;
  enum call call;
  const char *first, *second, *third; /* MESSAGE: type, content, metadata. Others: target or id, state or data, paths */
  const char *buffers[MOST];
  size_t sizes[MOST], count;
  uint32_t status, reply;
  const char *content; /* of the first message that is sent, or else of the reply; NULL: of neither */
  int out[MOST + 1];   /* which of the buffers come with it, up to -1; -2: some of an earlier row */
} row;

static const row rows[] = {
    {"a widget's open",
     MESSAGE,
     "comm_open",
     "{\"comm_id\":\"w\",\"target_name\":\"jupyter.widget\",\"data\":"
     "{\"state\":{\"v\":1},\"buffer_paths\":[[\"b\"]]}}",
     "{\"version\":\"2.1.0\"}",
     {"\0\xff"},
     {2},
     1,
     ROLGUNAI_OK,
     ROLGUNAI_REPLY_OPENED,
     NULL,
     {-1}},
    {"an update, told again",
     MESSAGE,
     "comm_msg",
     "{\"comm_id\":\"w\",\"data\":{\"method\":\"update\",\"state\":{\"v\":2},"
     "\"buffer_paths\":[[\"c\"],[\"b\"]]}}",
     "{}",
     {"abc", ""},
     {3, 0},
     2,
     ROLGUNAI_OK,
     ROLGUNAI_REPLY_DELIVERED,
     "{\"comm_id\":\"w\",\"data\":{\"buffer_paths\":[[\"b\"],[\"c\"]],"
     "\"method\":\"echo_update\",\"state\":{\"v\":2}}}",
     {1, 0, -1}},
    {"a state that is asked for",
     MESSAGE,
     "comm_msg",
     "{\"comm_id\":\"w\",\"data\":{\"method\":\"request_state\"}}",
     "{}",
     {"unused"},
     {6},
     1,
     ROLGUNAI_OK,
     ROLGUNAI_REPLY_DELIVERED,
     "{\"comm_id\":\"w\",\"data\":{\"buffer_paths\":[[\"b\"],"
     "[\"c\"]],\"method\":\"update\",\"state\":{\"v\":2}}}",
     {-2}},
    {"for the kernel",
     MESSAGE,
     "comm_msg",
     "{\"comm_id\":\"m\",\"data\":{\"y\":2}}",
     "{}",
     {"one", "two"},
     {3, 3},
     2,
     ROLGUNAI_OK,
     ROLGUNAI_REPLY_FOR_KERNEL,
     "{\"y\":2}",
     {0, 1, -1}},
    {"a comm that isn't open",
     MESSAGE,
     "comm_msg",
     "{\"comm_id\":\"z\"}",
     "{}",
     {"one"},
     {3},
     1,
     ROLGUNAI_OK,
     ROLGUNAI_REPLY_NO_COMM,
     NULL,
     {-1}},
    {"no JSON", MESSAGE, "comm_msg", "{", "{}", {"one"}, {3}, 1, ROLGUNAI_NOT_JSON, ROLGUNAI_REPLY_NONE, NULL, {-1}},
    {"a widget is launched",
     LAUNCH,
     "jupyter.widget",
     "{" STATE "}",
     PATHS,
     {"pp", "", "rrr"},
     {2, 0, 3},
     3,
     ROLGUNAI_OK,
     ROLGUNAI_REPLY_LAUNCHED,
     "{\"comm_id\":\"" WIDGET_ID "\",\"data\":{\"buffer_paths\":[[\"list\",1],[\"p\"],"
     "[\"q\",\"r\"]]," PLACED "},\"target_name\":\"jupyter.widget\"}",
     {1, 0, 2, -1}},
    {"a buffer is missing",
     LAUNCH,
     "jupyter.widget",
     "{" STATE "}",
     PATHS,
     {"pp", ""},
     {2, 0},
     2,
     ROLGUNAI_OK,
     ROLGUNAI_REPLY_BAD,
     NULL,
     {-1}},
    {"a push",
     PUSH,
     WIDGET_ID,
     "{}",
     "[[\"p\"]]",
     {"new"},
     {3},
     1,
     ROLGUNAI_OK,
     ROLGUNAI_REPLY_DELIVERED,
     "{\"comm_id\":\"" WIDGET_ID "\",\"data\":{\"buffer_paths\":[[\"p\"]],"
     "\"method\":\"update\",\"state\":{}}}",
     {0, -1}},
    {"a name that isn't UTF-8",
     PUSH,
     "\xff",
     "{}",
     "[]",
     {"new"},
     {3},
     1,
     ROLGUNAI_BAD_NAME,
     ROLGUNAI_REPLY_NONE,
     NULL,
     {-1}},
    {"a send",
     SEND,
     "m",
     "{\"z\":[]}",
     "",
     {"first", "second", ""},
     {5, 6, 0},
     3,
     ROLGUNAI_OK,
     ROLGUNAI_REPLY_DELIVERED,
     "{\"comm_id\":\"m\",\"data\":{\"z\":[]}}",
     {0, 1, 2, -1}},
};

static int passed, failed;
static rolgunai_handle handles[2], nobody;
static rolgunai_client clients[2], no_client;
static uint32_t reply;
static size_t sent;

static void check(int holds, const row *of, const char *way, const char *what) {
  if (holds)
    passed++;
  else {
    failed++;
    printf("FAILED: %s, %s: %s\n", of->name, way, what);
  }
}

#define TEXT(text) (const uint8_t *)(text), strlen(text)
#define HEADER(type) "{\"msg_type\":\"" type "\"}"

static uint32_t by_frames(rolgunai_handle *at, rolgunai_client *client, const row *of, const rolgunai_frame *frames) {
  const size_t n = of->count;
  char header[64];
  snprintf(header, sizeof header, HEADER("%s"), of->first);
  switch (of->call) {
  case MESSAGE:
    return at ? rolgunai_handle_frames(at, 0, TEXT(header), TEXT(of->third), TEXT(of->second), frames, n, &reply, &sent)
              : rolgunai_client_handle_frames(client, TEXT(header), TEXT(of->third), TEXT(of->second), frames, n,
                                              &reply, &sent);
  case LAUNCH:
    return at ? rolgunai_launch_frames(at, 0, TEXT(of->first), TEXT(WIDGET_ID), TEXT(of->second), TEXT(of->third),
                                       frames, n, &reply, &sent)
              : rolgunai_client_launch_frames(client, TEXT(of->first), TEXT(WIDGET_ID), TEXT(of->second),
                                              TEXT(of->third), frames, n, &reply, &sent);
  case PUSH:
    return at ? rolgunai_push_frames(at, 0, TEXT(of->first), TEXT(of->second), TEXT(of->third), frames, n, &reply,
                                     &sent)
              : rolgunai_client_push_frames(client, TEXT(of->first), TEXT(of->second), TEXT(of->third), frames, n,
                                            &reply, &sent);
  default:
    return at ? rolgunai_send_frames(at, 0, TEXT(of->first), TEXT(of->second), frames, n, &reply, &sent)
              : rolgunai_client_send_frames(client, TEXT(of->first), TEXT(of->second), frames, n, &reply, &sent);
  }
}

static uint32_t joined(rolgunai_handle *at, rolgunai_client *client, const row *of, const uint8_t *all, size_t size) {
  const size_t *sizes = of->sizes, n = of->count;
  char header[64];
  snprintf(header, sizeof header, HEADER("%s"), of->first);
  switch (of->call) {
  case MESSAGE:
    return at ? rolgunai_handle_message(at, 0, TEXT(header), TEXT(of->third), TEXT(of->second), all, size, sizes, n,
                                        &reply, &sent)
              : rolgunai_client_handle_message(client, TEXT(header), TEXT(of->third), TEXT(of->second), all, size,
                                               sizes, n, &reply, &sent);
  case LAUNCH:
    return at ? rolgunai_launch(at, 0, TEXT(of->first), TEXT(WIDGET_ID), TEXT(of->second), TEXT(of->third), all, size,
                                sizes, n, &reply, &sent)
              : rolgunai_client_launch(client, TEXT(of->first), TEXT(WIDGET_ID), TEXT(of->second), TEXT(of->third), all,
                                       size, sizes, n, &reply, &sent);
  case PUSH:
    return at ? rolgunai_push(at, 0, TEXT(of->first), TEXT(of->second), TEXT(of->third), all, size, sizes, n, &reply,
                              &sent)
              : rolgunai_client_push(client, TEXT(of->first), TEXT(of->second), TEXT(of->third), all, size, sizes, n,
                                     &reply, &sent);
  default:
    return at ? rolgunai_send(at, 0, TEXT(of->first), TEXT(of->second), all, size, sizes, n, &reply, &sent)
              : rolgunai_client_send(client, TEXT(of->first), TEXT(of->second), all, size, sizes, n, &reply, &sent);
  }
}

static uint32_t play(rolgunai_handle *at, rolgunai_client *client, const row *of, int frames) {
  rolgunai_frame apart[MOST];
  uint8_t *copies[MOST], together[64], none = 0;
  size_t size = 0;
  for (size_t n = 0; n < of->count; n++) {
    memcpy(together + size, of->buffers[n], of->sizes[n]);
    size += of->sizes[n];
    copies[n] = malloc(of->sizes[n] + 1);
    memcpy(copies[n], of->buffers[n], of->sizes[n]);
    apart[n] = (rolgunai_frame){of->sizes[n] ? copies[n] : &none, of->sizes[n]};
  }
  const uint32_t status = frames ? by_frames(at, client, of, apart) : joined(at, client, of, together, size);
  for (size_t n = 0; n < of->count; n++) {
    memset(copies[n], 0x55, of->sizes[n]);
    free(copies[n]);
  }
  return status;
}

static uint32_t part(rolgunai_handle *at, rolgunai_client *client, size_t number, uint8_t *out, size_t room,
                     size_t *size) {
  if (sent)
    return at ? rolgunai_sent_part(at, 0, number, out, room, size)
              : rolgunai_client_sent_part(client, 0, number, out, room, size);
  return at ? rolgunai_reply_part(at, number, out, room, size)
            : rolgunai_client_reply_part(client, number, out, room, size);
}

static void tried(rolgunai_handle *at, rolgunai_client *client, const row *of, int frames, const char *way) {
  static uint8_t out[4096];
  size_t size, number = 0;
  const uint32_t status = play(at, client, of, frames);
  check(status == of->status && reply == of->reply, of, way, "status and reply");
  if (!of->content) return;
  check(part(at, client, ROLGUNAI_PART_CONTENT, out, sizeof out, &size) == ROLGUNAI_OK && size == strlen(of->content)
            && memcmp(out, of->content, size) == 0,
        of, way, "the content");
  for (; of->out[number] >= 0; number++) {
    const int which = of->out[number];
    check(part(at, client, ROLGUNAI_PART_BUFFERS + number, out, sizeof out, &size) == ROLGUNAI_OK
              && size == of->sizes[which] && memcmp(out, of->buffers[which], size) == 0,
          of, way, "a buffer");
  }
  check(part(at, client, ROLGUNAI_PART_BUFFERS + number, out, sizeof out, &size)
            == (of->out[number] == -2 ? ROLGUNAI_OK : ROLGUNAI_NO_PART),
        of, way, "no other buffer");
}

/* A manager with a plain target and a widget's, and a comm of the first. */
static void opened(rolgunai_handle *at, rolgunai_client *client) {
  static const row open = {"an open",   MESSAGE,
                           "comm_open", "{\"comm_id\":\"m\",\"target_name\":\"mine\"}",
                           "{}",        {0},
                           {0},         0,
                           ROLGUNAI_OK, ROLGUNAI_REPLY_OPENED,
                           NULL,        {-1}};
  static const char *const names[] = {"mine", "jupyter.widget"};
  static const uint32_t kinds[] = {ROLGUNAI_PLAIN, ROLGUNAI_WIDGET_ECHO};
  const uint32_t status = at ? rolgunai_new(at, 9) : rolgunai_open_shared(client, 9);
  check(status == ROLGUNAI_OK, &open, "new", "a manager");
  for (size_t n = 0; n < 2; n++) {
    const uint32_t found = at ? rolgunai_register(at, 0, kinds[n], TEXT(names[n]), &reply, &sent)
                              : rolgunai_client_register(client, kinds[n], TEXT(names[n]), &reply, &sent);
    check(found == ROLGUNAI_OK && reply == ROLGUNAI_REPLY_REGISTERED, &open, "new", names[n]);
  }
  tried(at, client, &open, 0, "new");
}

/* A handle and a client that have no manager answer CLOSED. */
static void without_manager(void) {
  static const row closed = {"no manager",        MESSAGE, "comm_msg", "{}", "{}", {"one"}, {3}, 1, ROLGUNAI_CLOSED,
                             ROLGUNAI_REPLY_NONE, NULL,    {-1}};
  for (enum call call = MESSAGE; call <= SEND; call++) {
    row of = closed;
    of.call = call;
    reply = 7;
    tried(&nobody, NULL, &of, 1, "a handle");
    reply = 7;
    tried(NULL, &no_client, &of, 1, "a client");
  }
}

int main(void) {
  static const char *const ways[] = {"one after another", "by frames"};
  for (int frames = 0; frames < 2; frames++) {
    opened(&handles[frames], NULL);
    opened(NULL, &clients[frames]);
    for (size_t n = 0; n < sizeof rows / sizeof *rows; n++) {
      reply = 7, sent = 7;
      tried(&handles[frames], NULL, &rows[n], frames, ways[frames]);
      tried(NULL, &clients[frames], &rows[n], frames, ways[frames]);
    }
    rolgunai_free(&handles[frames]);
    rolgunai_client_free(&clients[frames]);
  }
  without_manager();
  printf("%d passed, %d failed\n", passed, failed);
  return failed != 0;
}

/* A kernel of comms over pipes: a JSON message comes in on each line of standard input, and goes out on each line of
 * standard output. README.md says what stands in one, and what the kernel does. */
#include "rolgunai.h"

#include <stdio.h>
#include <stdlib.h>
#include <string.h>
#include <sys/types.h>

#include "wire.h"

#define WIDGET "jupyter.widget"
#define DOUBLER "doubler"

typedef struct kernel {
  rolgunai_handle manager;
  uint32_t reply; /* of the last call, and how many messages it sends */
  size_t sent;
  unsigned ids; /* how many were given out */
  text parent;  /* the header of the message that is being heard */
} kernel;

/* What each call with a reply ends in, and what one without buffers has. */
#define RESULT &self->reply, &self->sent
#define NO_BUFFERS (const uint8_t *)"", 0, &(size_t){0}, 0

static void need(int holds, const char *what) {
  if (holds) return;
  fprintf(stderr, "c_kernel: %s\n", what);
  exit(1);
}

/* ---- What goes out. */

static void begin_message(const kernel *self, const char *channel, text type, text metadata, text content) {
  printf("{\"channel\":\"%s\",\"header\":{\"msg_type\":\"%.*s\"},\"parent_header\":%.*s,", channel, WRITTEN(type),
         WRITTEN(self->parent));
  printf("\"metadata\":%.*s,\"content\":%.*s,\"buffers\":[", WRITTEN(metadata), WRITTEN(content));
}

static void end_message(void) {
  puts("]}");
  fflush(stdout);
}

/* A part of a message of the last call, or of its reply, with a zero behind it; `at` is null where there is none. To be
 * freed. */
enum { OF_REPLY = -1 };
static text part(kernel *self, int message, size_t number) {
  size_t room = 256, size = 0;
  uint8_t *out = NULL;
  uint32_t status;
  do {
    out = realloc(out, room + 1);
    need(out != NULL, "out of memory");
    status = message == OF_REPLY ? rolgunai_reply_part(&self->manager, number, out, room, &size)
                                 : rolgunai_sent_part(&self->manager, (size_t)message, number, out, room, &size);
    room = size;
  } while (status == ROLGUNAI_BUFFER_TOO_SMALL);
  out[status == ROLGUNAI_OK ? size : 0] = 0;
  if (status == ROLGUNAI_OK) return (text){(char *)out, size};
  free(out);
  return (text){NULL, 0};
}

static void send_one(kernel *self, int message) {
  text type = part(self, message, ROLGUNAI_PART_TYPE), content = part(self, message, ROLGUNAI_PART_CONTENT);
  text metadata = part(self, message, ROLGUNAI_PART_METADATA), buffer;
  begin_message(self, same(type, "comm_info_reply") ? "shell" : "iopub", type, metadata, content);
  for (size_t i = 0; (buffer = part(self, message, ROLGUNAI_PART_BUFFERS + i)).at; i++) {
    if (i) putchar(',');
    write_base64(buffer);
    free((char *)buffer.at);
  }
  end_message();
  free((char *)type.at), free((char *)metadata.at), free((char *)content.at);
}

/* After each call: its messages, before another call takes their place. */
static void send_all(kernel *self, uint32_t status) {
  need(status == ROLGUNAI_OK, "a call failed");
  for (size_t i = 0, sent = self->sent; i < sent; i++) send_one(self, (int)i);
}

/* ---- What the kernel does. */

/* The number `n` comes back doubled. */
static void answer(kernel *self, text id, text asked) {
  text n = member(asked, "n");
  char data[64];
  if (!consists_of(n, "-0123456789") || n.size > 9) return;
  snprintf(data, sizeof data, "{\"twice\":%ld}", 2 * strtol(n.at, NULL, 10));
  send_all(self, rolgunai_send(&self->manager, 0, BYTES(id), BYTES(literal(data)), NO_BUFFERS, RESULT));
}

/* A widget's `value` was set by a frontend: its description says so. */
static void on_update(kernel *self, text id, text data) {
  text value = member(member(data, "state"), "value");
  char state[128];
  if (!same(member(data, "method"), "\"update\"") || !consists_of(value, "+-.0123456789Ee") || value.size > 64) return;
  snprintf(state, sizeof state, "{\"description\":\"set to %.*s\"}", WRITTEN(value));
  send_all(self, rolgunai_push(&self->manager, 0, BYTES(id), BYTES(literal(state)), BYTES(literal("[]")), NO_BUFFERS,
                               RESULT));
}

static text next_id(kernel *self, char *room, size_t size) {
  int length = snprintf(room, size, "00000000-0000-4000-8000-%012u", ++self->ids);
  return (text){room, (size_t)length};
}

static void launch_slider(kernel *self) {
  char room[64];
  text id = next_id(self, room, sizeof room), target = literal(WIDGET), paths = literal("[]"),
       state = literal("{\"_model_name\":\"FloatSliderModel\",\"value\":0.5}");
  send_all(self, rolgunai_launch(&self->manager, 0, BYTES(target), BYTES(id), BYTES(state), BYTES(paths), NO_BUFFERS,
                                 RESULT));
}

/* A comm of the kernel's own that is no widget: the manager is told of it as of a frontend's. */
static void open_doubler(kernel *self) {
  char room[64], content[128];
  text id = next_id(self, room, sizeof room), header = literal("{\"msg_type\":\"comm_open\"}"), none = literal("{}");
  snprintf(content, sizeof content, "{\"comm_id\":\"%.*s\",\"target_name\":\"" DOUBLER "\",\"data\":{}}", WRITTEN(id));
  uint32_t status = rolgunai_handle_message(&self->manager, 0, BYTES(header), BYTES(none), BYTES(literal(content)),
                                            NO_BUFFERS, RESULT);
  need(status == ROLGUNAI_OK, "a call failed");
  if (self->reply != ROLGUNAI_REPLY_OPENED) return;
  begin_message(self, "iopub", literal("comm_open"), none, literal(content));
  end_message();
}

static void run(kernel *self, text code) {
  if (same(code, "\"slider\"")) launch_slider(self);
  if (same(code, "\"doubler\"")) open_doubler(self);
  begin_message(self, "shell", literal("execute_reply"), literal("{}"), literal("{\"status\":\"ok\"}"));
  end_message();
}

/* ---- What comes in. */

/* Not JSON for the manager. Who opens a comm waits for a close; a comm that is open under the id stays. */
static void refuse(kernel *self, text header, text content) {
  text id = member(content, "comm_id");
  char closed[256];
  if (!same(member(header, "msg_type"), "\"comm_open\"") || !is_plain_string(id) || id.size > 128) return;
  text inside = {id.at + 1, id.size - 2};
  if (rolgunai_state(&self->manager, BYTES(inside), RESULT) != ROLGUNAI_OK) return;
  if (self->reply != ROLGUNAI_REPLY_NO_COMM) return;
  snprintf(closed, sizeof closed, "{\"comm_id\":%.*s,\"data\":{}}", WRITTEN(id));
  begin_message(self, "iopub", literal("comm_close"), literal("{}"), literal(closed));
  end_message();
}

static void hear_comm(kernel *self, text header, text content, text message) {
  text metadata = member(message, "metadata"), none = literal("{}");
  buffers frames = read_buffers(member(message, "buffers"));
  need(frames.at && frames.sizes, "out of memory");
  uint32_t status = rolgunai_handle_message(&self->manager, 0, BYTES(header), BYTES(metadata.at ? metadata : none),
                                            BYTES(content), frames.at, frames.size, frames.sizes, frames.count, RESULT);
  free(frames.at), free(frames.sizes);
  if (status == ROLGUNAI_NOT_JSON) {
    refuse(self, header, content);
    return;
  }
  send_all(self, status);
  text id = part(self, OF_REPLY, ROLGUNAI_PART_ID), target = part(self, OF_REPLY, ROLGUNAI_PART_TARGET);
  text carried = part(self, OF_REPLY, ROLGUNAI_PART_CONTENT);
  if (self->reply == ROLGUNAI_REPLY_FOR_KERNEL && same(target, DOUBLER)) answer(self, id, carried);
  if (self->reply == ROLGUNAI_REPLY_DELIVERED && same(target, WIDGET)) on_update(self, id, member(content, "data"));
  free((char *)id.at), free((char *)target.at), free((char *)carried.at);
}

static void hear(kernel *self, text message) {
  text header = member(message, "header"), content = member(message, "content");
  if (!header.at || !content.at) {
    fputs("c_kernel: a line is no message\n", stderr);
    return;
  }
  self->parent = header;
  if (same(member(header, "msg_type"), "\"execute_request\""))
    run(self, member(content, "code"));
  else
    hear_comm(self, header, content, message);
}

int main(void) {
  kernel state = {0}, *self = &state;
  size_t room = 0;
  char *line = NULL;
  ssize_t length;
  need(rolgunai_new_with_decimals(&self->manager, 4096) == ROLGUNAI_OK, "no manager");
  send_all(self, rolgunai_register(&self->manager, 0, ROLGUNAI_WIDGET_ECHO, BYTES(literal(WIDGET)), RESULT));
  send_all(self, rolgunai_register(&self->manager, 0, ROLGUNAI_PLAIN, BYTES(literal(DOUBLER)), RESULT));
  while ((length = getline(&line, &room, stdin)) > 0) hear(self, (text){line, (size_t)length});
  free(line);
  return rolgunai_free(&self->manager) != ROLGUNAI_OK;
}

/* A storm: threads play a script's lines at once, each by a client of its own, over rolgunai_threads.h. storm SCRIPT
 * [free]: with `free` there is no lock, and a call that is BUSY is made again. tools/storm writes scripts and checks
 * what this writes. */
#include "rolgunai_threads.h"

#include <sched.h>
#include <stdatomic.h>
#include <stdio.h>
#include <stdlib.h>
#include <string.h>

enum { MOST_FIELDS = 9, MOST_CLIENTS = 64, MOST_BUFFERS = 8 };

typedef struct {
  int client, hear;
  char *fields[MOST_FIELDS]; /* from the call's name on */
  uint32_t status, reply, reason, shown, crc;
  uint64_t index, since, seen;
  size_t number, sent;
  rolgunai_turn turn;
} line;

typedef struct {
  rolgunai_client clients[2]; /* one at a time; the other is empty */
  int number, now;
  uint8_t *out;
  size_t room;
  uint32_t freed;
} player;

static line *lines;
static size_t line_count, client_count;
static player players[MOST_CLIENTS];
static _Atomic uint64_t told[MOST_CLIENTS]; /* the last number that each client was told */
static rolgunai_lock lock = ROLGUNAI_LOCK_INITIALIZER;
static rolgunai_outbox outbox = ROLGUNAI_OUTBOX_INITIALIZER;
static size_t *order, ordered; /* the lines of what was sent, written by whoever sends */
static int is_free;

static void need(int holds, const char *what) {
  if (!holds) {
    fprintf(stderr, "storm: %s\n", what);
    exit(2);
  }
}

static rolgunai_client *client_of(player *by) { return &by->clients[by->now]; }

/* ---- what a call came to, as one number: a CRC-32 of all parts, each with its size */

static uint32_t crc_of(uint32_t crc, const uint8_t *bytes, size_t size) {
  for (size_t i = 0; i < size; i++) {
    crc ^= bytes[i];
    for (int bit = 0; bit < 8; bit++) crc = crc >> 1 ^ (0xEDB88320u & (0u - (crc & 1)));
  }
  return crc;
}

static uint32_t part_of(player *by, long message, size_t part, size_t *size) {
  uint32_t status;
  for (;;) {
    status = message < 0 ? rolgunai_client_reply_part(client_of(by), part, by->out, by->room, size)
                         : rolgunai_client_sent_part(client_of(by), (size_t)message, part, by->out, by->room, size);
    if (status != ROLGUNAI_BUFFER_TOO_SMALL) return status;
    by->room = 2 * *size;
    by->out = realloc(by->out, by->room);
    need(by->out != NULL, "no memory");
  }
}

static int add_part(player *by, long message, size_t part, uint32_t *crc) {
  size_t size;
  const uint32_t status = part_of(by, message, part, &size);
  need(status == ROLGUNAI_OK || status == ROLGUNAI_NO_PART, "a part can't be read");
  const int is_there = status == ROLGUNAI_OK;
  const uint8_t head[9] = {(uint8_t)is_there, (uint8_t)size, (uint8_t)(size >> 8), (uint8_t)(size >> 16),
                           (uint8_t)(size >> 24)};
  *crc = crc_of(*crc, head, is_there ? sizeof head : 1);
  if (is_there) *crc = crc_of(*crc, by->out, size);
  return is_there;
}

static uint32_t crc_of_result(player *by, size_t sent) {
  uint32_t crc = 0xFFFFFFFFu;
  add_part(by, -1, ROLGUNAI_PART_ID, &crc);
  add_part(by, -1, ROLGUNAI_PART_TARGET, &crc);
  add_part(by, -1, ROLGUNAI_PART_CONTENT, &crc);
  for (size_t part = ROLGUNAI_PART_BUFFERS; add_part(by, -1, part, &crc); part++) {}
  for (size_t message = 0; message < sent; message++) {
    for (size_t part = ROLGUNAI_PART_TYPE; part <= ROLGUNAI_PART_METADATA; part++)
      add_part(by, (long)message, part, &crc);
    for (size_t part = ROLGUNAI_PART_BUFFERS; add_part(by, (long)message, part, &crc); part++) {}
  }
  return ~crc;
}

/* ---- the calls */

typedef struct {
  uint8_t bytes[4096];
  size_t sizes[MOST_BUFFERS], count, size;
} buffers;

/* Of sizes, as 3,0,50; the bytes tell the line. */
static void read_buffers(const line *at, const char *text, buffers *to) {
  to->count = to->size = 0;
  while (*text) {
    char *end;
    need(to->count < MOST_BUFFERS, "too many buffers");
    to->sizes[to->count] = strtoul(text, &end, 10);
    to->size += to->sizes[to->count++];
    text = *end ? end + 1 : end;
  }
  need(to->size <= sizeof to->bytes, "the buffers are too long");
  for (size_t k = 0; k < to->size; k++) to->bytes[k] = (uint8_t)((at->number * 7 + k) % 251);
}

#define TEXT(n) (const uint8_t *)at->fields[n], strlen(at->fields[n])
#define BUFFERS with.bytes, with.size, with.sizes, with.count

static uint32_t called(rolgunai_client *client, line *at) {
  const char *call = at->fields[0];
  uint32_t *reply = &at->reply;
  size_t *sent = &at->sent;
  buffers with;
  if (strcmp(call, "message") == 0) {
    read_buffers(at, at->fields[4], &with);
    return rolgunai_client_handle_message(client, TEXT(1), TEXT(2), TEXT(3), BUFFERS, reply, sent);
  }
  if (strcmp(call, "register") == 0)
    return rolgunai_client_register(client, (uint32_t)atoi(at->fields[1]), TEXT(2), reply, sent);
  if (strcmp(call, "unregister") == 0) return rolgunai_client_unregister(client, TEXT(1), reply, sent);
  if (strcmp(call, "launch") == 0) {
    read_buffers(at, at->fields[5], &with);
    return rolgunai_client_launch(client, TEXT(1), TEXT(2), TEXT(3), TEXT(4), BUFFERS, reply, sent);
  }
  if (strcmp(call, "push") == 0) {
    read_buffers(at, at->fields[4], &with);
    return rolgunai_client_push(client, TEXT(1), TEXT(2), TEXT(3), BUFFERS, reply, sent);
  }
  if (strcmp(call, "send") == 0) {
    read_buffers(at, at->fields[3], &with);
    return rolgunai_client_send(client, TEXT(1), TEXT(2), BUFFERS, reply, sent);
  }
  need(strcmp(call, "close") == 0, "no such call");
  return rolgunai_client_close(client, TEXT(1), reply, sent);
}

static uint32_t read_once(rolgunai_client *client, line *at) {
  const char *call = at->fields[0];
  if (strcmp(call, "state") == 0) return rolgunai_client_state(client, at->since, TEXT(1), &at->reply, &at->sent);
  if (strcmp(call, "target") == 0) return rolgunai_client_target(client, at->since, TEXT(1), &at->reply, &at->sent);
  if (strcmp(call, "infos") == 0) return rolgunai_client_infos(client, at->since, &at->reply, &at->sent);
  return rolgunai_client_infos_of(client, at->since, TEXT(1), &at->reply, &at->sent);
}

static int is_read(const line *at) {
  const char *call = at->fields[0];
  return strcmp(call, "state") == 0 || strcmp(call, "target") == 0 || strncmp(call, "infos", 5) == 0;
}

/* Shows the last change without the lock; another client's call may be inside. */
static void show_freely(rolgunai_client *client) {
  uint32_t shown;
  if (rolgunai_client_show(client, &shown) != ROLGUNAI_OK || !shown) sched_yield();
}

static uint32_t made(player *by, line *at) {
  int tries = 0;
  uint32_t status;
  if (is_read(at)) {
    do status = read_once(client_of(by), at);
    while (is_free ? status == ROLGUNAI_AGAIN && (show_freely(client_of(by)), ++tries < 100000)
                   : rolgunai_shown(&lock, client_of(by), status, &tries));
    return status;
  }
  if (!is_free) return ROLGUNAI_LOCKED(&lock, called(client_of(by), at));
  while ((status = called(client_of(by), at)) == ROLGUNAI_BUSY) sched_yield();
  return status;
}

/* Another client takes the place of this one. */
static uint32_t joined(player *by) {
  rolgunai_client *mine = client_of(by), *other = &by->clients[!by->now];
  uint32_t status;
  if (!is_free) status = ROLGUNAI_LOCKED(&lock, rolgunai_client_join(mine, other));
  else
    while ((status = rolgunai_client_join(mine, other)) == ROLGUNAI_BUSY) sched_yield();
  if (status != ROLGUNAI_OK) return status;
  by->now = !by->now;
  return rolgunai_client_free(mine);
}

static void sent_now(rolgunai_turn *turn) {
  const line *at = turn->with;
  for (size_t i = 0; i < at->sent; i++) order[ordered++] = at->number;
}

static void play_line(player *by, line *at) {
  const int is_join = strcmp(at->fields[0], "join") == 0;
  at->since = at->hear >= 0 ? atomic_load(&told[at->hear]) : 0;
  at->status = is_join ? joined(by) : made(by, at);
  rolgunai_client_seen(client_of(by), &at->seen, &at->shown);
  atomic_store(&told[by->number], at->seen);
  if (is_join || at->status != ROLGUNAI_OK) return;
  rolgunai_client_last_reason(client_of(by), &at->reason, &at->index);
  at->crc = crc_of_result(by, at->sent);
  if (is_read(at) && !at->sent) return;
  at->turn.with = at;
  at->turn.send = sent_now;
  rolgunai_outbox_put_result(&outbox, &at->turn, client_of(by), at->reply);
}

static void *played(void *of) {
  player *by = of;
  for (size_t i = 0; i < line_count; i++)
    if (lines[i].client == by->number) play_line(by, &lines[i]);
  by->freed = rolgunai_client_free(client_of(by));
  return NULL;
}

/* ---- the script and what came of it */

static char *next_field(char **from) {
  char *field = *from;
  if (field) *from = strchr(field, '\t');
  if (field && *from) *(*from)++ = 0;
  return field;
}

static void read_line(char *text, line *to) {
  char *client = next_field(&text), *hear = next_field(&text);
  need(client && hear && text, "a line is too short");
  to->client = atoi(client);
  to->hear = hear[0] == '-' ? -1 : atoi(hear);
  for (int i = 0; i < MOST_FIELDS; i++) {
    to->fields[i] = next_field(&text);
    if (!to->fields[i]) to->fields[i] = "";
  }
}

static char *read_file(const char *name) {
  FILE *file = fopen(name, "rb");
  need(file && fseek(file, 0, SEEK_END) == 0, "the script can't be read");
  const long size = ftell(file);
  char *text = malloc((size_t)size + 1);
  rewind(file);
  need(text && fread(text, 1, (size_t)size, file) == (size_t)size, "the script can't be read");
  text[size] = 0;
  fclose(file);
  return text;
}

/* The first line has the number of clients, the limit of comms, and 1 for decimals; the others are the script. */
static void begin(char *text) {
  char *rest = strchr(text, '\n');
  need(rest != NULL, "the script has no lines");
  *rest++ = 0;
  const char *clients = next_field(&text), *comms = next_field(&text), *decimals = next_field(&text);
  client_count = strtoul(clients, NULL, 10);
  need(comms && decimals && client_count >= 1 && client_count <= MOST_CLIENTS, "the first line is wrong");
  size_t most = 1;
  for (const char *at = rest; *at; at++) most += *at == '\n';
  lines = calloc(most, sizeof *lines);
  order = calloc(most * 4096, sizeof *order);
  need(lines && order, "no memory");
  for (char *end; *rest; rest = end) {
    end = strchr(rest, '\n');
    if (end) *end++ = 0;
    else end = rest + strlen(rest);
    lines[line_count].number = line_count + 1;
    read_line(rest, &lines[line_count++]);
  }
  rolgunai_client *first = client_of(&players[0]);
  need((atoi(decimals) ? rolgunai_open_shared_with_decimals(first, strtoul(comms, NULL, 10))
                       : rolgunai_open_shared(first, strtoul(comms, NULL, 10)))
           == ROLGUNAI_OK,
       "no manager");
  for (size_t i = 1; i < client_count; i++)
    need(rolgunai_client_join(first, client_of(&players[i])) == ROLGUNAI_OK, "no client");
}

static void tell(void) {
  for (size_t i = 0; i < line_count; i++) {
    const line *at = &lines[i];
    printf("line %zu status %u reply %u reason %u index %llu since %llu seen %llu shown %u sent %zu crc %08x\n",
           at->number, at->status, at->reply, at->reason, (unsigned long long)at->index,
           (unsigned long long)at->since, (unsigned long long)at->seen, at->shown, at->sent, at->crc);
  }
  for (size_t i = 0; i < ordered; i++) printf("sent %zu\n", order[i]);
  for (size_t i = 0; i < client_count; i++) printf("freed %u\n", players[i].freed);
}

int main(int count, char **words) {
  pthread_t threads[MOST_CLIENTS];
  is_free = count == 3 && strcmp(words[2], "free") == 0;
  need(count == 2 + is_free, "storm SCRIPT [free]");
  char *text = read_file(words[1]);
  begin(text);
  for (size_t i = 0; i < client_count; i++) {
    players[i].number = (int)i;
    need(pthread_create(&threads[i], NULL, played, &players[i]) == 0, "no thread");
  }
  for (size_t i = 0; i < client_count; i++) pthread_join(threads[i], NULL);
  tell();
  for (size_t i = 0; i < client_count; i++) free(players[i].out);
  free(lines);
  free(order);
  free(text);
  return 0;
}

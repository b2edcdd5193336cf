/* What calls take by a client that threads share, beside a handle of one thread: pushes to widgets of 23 keys, reads of
 * such a state, closes and opens beside many comms.
 *
 *   bench_clients WRITERS READERS CHANGES COMMS KEYS READ    threads; READ is state, info or none
 *   bench_clients --calls N WHAT BY COMMS    N times push, state or churn by a handle or a client, beside so many
 *                 comms: for counting instructions, by callgrind of two N and the difference between them
 *
 * With threads WRITERS make CHANGES pushes in all, under one lock, while READERS read, and one line says how many
 * changes and reads there were in how many ns; with no writer, READERS read for CHANGES milliseconds. Push n of a
 * writer gives one key of one comm in turn another number. */
#include "rolgunai_threads.h"

#include <stdatomic.h>
#include <stdio.h>
#include <stdlib.h>
#include <string.h>
#include <time.h>

enum { MOST_THREADS = 64, KEYS = 23 };

typedef struct {
  rolgunai_client client;
  int number, of;
  uint64_t made, sum;
  pthread_t thread;
} worker;

static rolgunai_handle handle;
static worker workers[MOST_THREADS];
static rolgunai_lock lock = ROLGUNAI_LOCK_INITIALIZER;
static long changes, comms, keys;
static _Atomic int is_over;
static const char *what_is_read;
static const size_t no_sizes[1];

static void need(int holds, const char *what) {
  if (!holds) {
    fprintf(stderr, "bench_clients: %s\n", what);
    exit(1);
  }
}

#define TEXT(text) (const uint8_t *)(text), strlen(text)
#define NONE TEXT(""), no_sizes, 0, reply, sent

static uint32_t launched(rolgunai_client *by, const char *id, const char *state, uint32_t *reply, size_t *sent) {
  return by ? rolgunai_client_launch(by, TEXT("jupyter.widget"), TEXT(id), TEXT(state), TEXT("[]"), NONE)
            : rolgunai_launch(&handle, 0, TEXT("jupyter.widget"), TEXT(id), TEXT(state), TEXT("[]"), NONE);
}

static uint32_t pushed(rolgunai_client *by, const char *id, const char *state, uint32_t *reply, size_t *sent) {
  return by ? rolgunai_client_push(by, TEXT(id), TEXT(state), TEXT("[]"), NONE)
            : rolgunai_push(&handle, 0, TEXT(id), TEXT(state), TEXT("[]"), NONE);
}

static uint32_t closed(rolgunai_client *by, const char *id, uint32_t *reply, size_t *sent) {
  return by ? rolgunai_client_close(by, TEXT(id), reply, sent) : rolgunai_close(&handle, 0, TEXT(id), reply, sent);
}

static void id_of(long comm, char *id) { sprintf(id, "00000000-0000-0000-0000-%012x", (unsigned)comm); }

/* A state of so many keys, k000 and on, with these numbers. */
static void state_of(long count, char *state) {
  char *at = state + sprintf(state, "{");
  for (long key = 0; key < count; key++) at += sprintf(at, "%s\"k%03ld\":%ld", key ? "," : "", key, key + 1);
  strcpy(at, "}");
}

static void begin(rolgunai_client *by, long count, long of_keys) {
  char id[40], *state = malloc((size_t)of_keys * 16 + 16);
  uint32_t reply;
  size_t sent;
  need(state != NULL, "no memory");
  state_of(of_keys, state);
  need((by ? rolgunai_open_shared(by, 1048576) : rolgunai_new(&handle, 1048576)) == ROLGUNAI_OK, "no manager");
  need((by ? rolgunai_client_register(by, ROLGUNAI_WIDGET, TEXT("jupyter.widget"), &reply, &sent)
           : rolgunai_register(&handle, 0, ROLGUNAI_WIDGET, TEXT("jupyter.widget"), &reply, &sent))
           == ROLGUNAI_OK,
       "no target");
  for (long comm = 0; comm < count; comm++) {
    id_of(comm, id);
    need(launched(by, id, state, &reply, &sent) == ROLGUNAI_OK && reply == ROLGUNAI_REPLY_LAUNCHED, "no widget");
  }
  free(state);
}

/* ---- counting instructions */

static void fetch_state(rolgunai_client *by) {
  static uint8_t out[4096];
  size_t size;
  need((by ? rolgunai_client_reply_part(by, ROLGUNAI_PART_CONTENT, out, sizeof out, &size)
           : rolgunai_reply_part(&handle, ROLGUNAI_PART_CONTENT, out, sizeof out, &size))
           == ROLGUNAI_OK,
       "a state has no content");
}

static void call(rolgunai_client *by, const char *what, long number, long of) {
  char id[40], state[64];
  uint32_t reply, status;
  size_t sent;
  id_of(number % of, id);
  if (strcmp(what, "push") == 0) {
    sprintf(state, "{\"k%03ld\":%ld}", number % KEYS, 1000 + number);
    need(pushed(by, id, state, &reply, &sent) == ROLGUNAI_OK && reply == ROLGUNAI_REPLY_DELIVERED, "no push");
  } else if (strcmp(what, "state") == 0) {
    status = by ? rolgunai_client_state(by, 0, TEXT(id), &reply, &sent)
                : rolgunai_state(&handle, TEXT(id), &reply, &sent);
    need(status == ROLGUNAI_OK && reply == ROLGUNAI_REPLY_STATE, "no state");
    fetch_state(by);
  } else {
    need(closed(by, id, &reply, &sent) == ROLGUNAI_OK && reply == ROLGUNAI_REPLY_CLOSED, "no close");
    need(launched(by, id, "{}", &reply, &sent) == ROLGUNAI_OK && reply == ROLGUNAI_REPLY_LAUNCHED, "no launch");
  }
}

static int count_calls(char **words) {
  rolgunai_client *by = strcmp(words[2], "client") == 0 ? &workers[0].client : NULL;
  const long calls = atol(words[0]), of = atol(words[3]);
  need(of > 0, "there is no comm");
  begin(by, of, strcmp(words[1], "churn") == 0 ? 0 : KEYS);
  for (long number = 0; number < calls; number++) call(by, words[1], number, of);
  return 0;
}

/* ---- threads */

static void *writes(void *of) {
  worker *by = of;
  char id[40], state[64];
  uint32_t reply;
  size_t sent;
  long comm = by->number * comms / by->of;
  for (uint64_t number = 0; number < (uint64_t)(changes / by->of); number++, comm = (comm + 1) % comms) {
    id_of(comm, id);
    sprintf(state, "{\"k%03ld\":%lu}", comm % keys, (unsigned long)(1000 + number));
    const uint32_t status = ROLGUNAI_LOCKED(&lock, pushed(&by->client, id, state, &reply, &sent));
    need(status == ROLGUNAI_OK && reply == ROLGUNAI_REPLY_DELIVERED, "a push isn't made");
    by->made++;
  }
  return NULL;
}

static void *reads(void *of) {
  worker *by = of;
  char id[40];
  uint32_t reply, status;
  size_t sent, size;
  static _Thread_local uint8_t out[1 << 20];
  for (long comm = by->number * comms / by->of; !atomic_load(&is_over); comm = (comm + 1) % comms) {
    int tries = 0;
    id_of(comm, id);
    const int is_state = what_is_read[0] == 's';
    do status = is_state ? rolgunai_client_state(&by->client, 0, TEXT(id), &reply, &sent)
                         : rolgunai_client_infos(&by->client, 0, &reply, &sent);
    while (rolgunai_shown(&lock, &by->client, status, &tries));
    need(status == ROLGUNAI_OK, "a read isn't made");
    if (is_state) status = rolgunai_client_reply_part(&by->client, ROLGUNAI_PART_CONTENT, out, sizeof out, &size);
    else status = rolgunai_client_sent_part(&by->client, 0, ROLGUNAI_PART_CONTENT, out, sizeof out, &size);
    need(status == ROLGUNAI_OK, "a read has no content");
    by->sum += size;
    by->made++;
  }
  return NULL;
}

static uint64_t nanoseconds(void) {
  struct timespec now;
  clock_gettime(CLOCK_MONOTONIC, &now);
  return (uint64_t)now.tv_sec * 1000000000u + (uint64_t)now.tv_nsec;
}

static int with_threads(char **words) {
  const int writers = atoi(words[0]), readers = atoi(words[1]);
  uint64_t made = 0, read = 0;
  changes = atol(words[2]), comms = atol(words[3]), keys = atol(words[4]), what_is_read = words[5];
  need(writers >= 0 && readers >= 0 && writers + readers <= MOST_THREADS && comms > 0 && keys > 0, "bad numbers");
  begin(&workers[0].client, comms, keys);
  for (int i = 1; i < writers + readers; i++)
    need(rolgunai_client_join(&workers[0].client, &workers[i].client) == ROLGUNAI_OK, "no client");
  const uint64_t start = nanoseconds();
  for (int i = writers + readers - 1; i >= 0; i--) {
    workers[i].number = i < writers ? i : i - writers;
    workers[i].of = i < writers ? writers : readers;
    need(!pthread_create(&workers[i].thread, NULL, i < writers ? writes : reads, &workers[i]), "no thread");
  }
  for (int i = 0; i < writers; i++) pthread_join(workers[i].thread, NULL);
  const struct timespec span = {changes / 1000, changes % 1000 * 1000000};
  if (!writers) nanosleep(&span, NULL);
  const uint64_t ns = nanoseconds() - start;
  atomic_store(&is_over, 1);
  for (int i = writers; i < writers + readers; i++) pthread_join(workers[i].thread, NULL);
  for (int i = 0; i < writers + readers; i++) *(i < writers ? &made : &read) += workers[i].made;
  printf("{\"changes\":%lu,\"reads\":%lu,\"ns\":%lu}\n", (unsigned long)made, (unsigned long)read, (unsigned long)ns);
  for (int i = 0; i < writers + readers; i++) rolgunai_client_free(&workers[i].client);
  return 0;
}

int main(int count, char **words) {
  if (count == 6 && strcmp(words[1], "--calls") == 0) return count_calls(words + 2);
  if (count == 7) return with_threads(words + 1);
  fprintf(stderr, "bench_clients WRITERS READERS CHANGES COMMS KEYS READ, or --calls N WHAT BY COMMS\n");
  return 3;
}

/* The calls of rolgunai_client.h: what each comes to, by which client and after how many changes, as rows; each status;
 * that a client's result is its own; BUSY, where another thread is inside; seats; ends in any order. The last line is
 * 'N passed, M failed', and the status is 1 where one failed. */
#include "rolgunai_threads.h"

#include <stdatomic.h>
#include <stdio.h>
#include <stdlib.h>
#include <string.h>
#include <time.h>

static int passed, failed;
static rolgunai_client A, B, none;
static char told[8192];
static uint32_t reply;
static size_t sent;

static void check(int holds, const char *what, const char *which) {
  if (holds) passed++;
  else {
    failed++;
    printf("FAILED: %s: %s\n", what, which);
  }
}

static void check_same(const char *found, const char *wanted, const char *what) {
  check(strcmp(found, wanted) == 0, what, "what it comes to");
  if (strcmp(found, wanted) != 0) printf("  it is    %s\n  and not  %s\n", found, wanted);
}

/* ---- a client's last result as a text: 'REPLY reason id@target carries CONTENT [buffer].. sends TYPE ID CONTENT
 * METADATA [buffer]..' */

static const char *const replies[] = {"none",    "bad",        "comm_info",  "registered", "replaced",
                                      "opened",  "id_in_use",  "refused",    "delivered",  "for_kernel",
                                      "fault",   "no_comm",    "closed",     "unregistered", "no_target",
                                      "launched", "not_widget", "state",     "no_state",   "target"};

static void say(const char *text) { strncat(told, text, sizeof told - strlen(told) - 1); }

/* The part, with this before it and behind it, where it is there. */
static int say_part(rolgunai_client *of, long message, size_t part, const char *before, const char *behind) {
  char out[4096];
  size_t size;
  const uint32_t status =
      message < 0 ? rolgunai_client_reply_part(of, part, (uint8_t *)out, sizeof out - 1, &size)
                  : rolgunai_client_sent_part(of, (size_t)message, part, (uint8_t *)out, sizeof out - 1, &size);
  if (status != ROLGUNAI_OK) return 0;
  out[size] = 0;
  say(before);
  say(out);
  say(behind);
  return 1;
}

static void say_result(rolgunai_client *of) {
  uint32_t number, reason;
  uint64_t index;
  size_t count;
  char text[64];
  told[0] = 0;
  if (rolgunai_client_last_result(of, &number, &count) != ROLGUNAI_OK) return say("no result");
  rolgunai_client_last_reason(of, &reason, &index);
  say(number < sizeof replies / sizeof *replies ? replies[number] : "unknown");
  snprintf(text, sizeof text, " (%u %u)", reason, (unsigned)index);
  if (reason) say(text);
  say_part(of, -1, ROLGUNAI_PART_ID, " id ", "");
  say_part(of, -1, ROLGUNAI_PART_TARGET, " of ", "");
  if (say_part(of, -1, ROLGUNAI_PART_CONTENT, " carries ", ""))
    for (size_t part = ROLGUNAI_PART_BUFFERS; say_part(of, -1, part, " [", "]"); part++) {}
  for (long i = 0; i < (long)count; i++) {
    say(" sends");
    for (size_t part = ROLGUNAI_PART_TYPE; part <= ROLGUNAI_PART_METADATA; part++) say_part(of, i, part, " ", "");
    for (size_t part = ROLGUNAI_PART_BUFFERS; say_part(of, i, part, " [", "]"); part++) {}
  }
}

/* ---- the calls, in few words */

static const size_t three[] = {3}, no_sizes[1];
#define TEXT(text) (const uint8_t *)(text), strlen(text)
#define OUT &reply, &sent
#define CUT "\xc3" /* no UTF-8 */
#define ONE "00000000-0000-0000-0000-000000000001"

static uint32_t says(rolgunai_client *by, const char *type, const char *content) {
  char header[64];
  snprintf(header, sizeof header, "{\"msg_type\":\"%s\"}", type);
  return rolgunai_client_handle_message(by, TEXT(header), TEXT("{\"version\":\"2.1.0\"}"), TEXT(content), TEXT("abc"),
                                        three, 1, OUT);
}
static uint32_t registers(rolgunai_client *by, uint32_t kind, const char *name) {
  return rolgunai_client_register(by, kind, TEXT(name), OUT);
}
static uint32_t unregisters(rolgunai_client *by, const char *name) {
  return rolgunai_client_unregister(by, TEXT(name), OUT);
}
static uint32_t launches(rolgunai_client *by, const char *target, const char *uuid, const char *state) {
  return rolgunai_client_launch(by, TEXT(target), TEXT(uuid), TEXT(state), TEXT("[]"), TEXT(""), no_sizes, 0, OUT);
}
static uint32_t pushes(rolgunai_client *by, const char *id, const char *state) {
  return rolgunai_client_push(by, TEXT(id), TEXT(state), TEXT("[[\"b\"]]"), TEXT("xyz"), three, 1, OUT);
}
static uint32_t sends(rolgunai_client *by, const char *id, const char *data) {
  return rolgunai_client_send(by, TEXT(id), TEXT(data), TEXT(""), no_sizes, 0, OUT);
}
static uint32_t closes(rolgunai_client *by, const char *id) { return rolgunai_client_close(by, TEXT(id), OUT); }
static uint32_t state_of(rolgunai_client *by, uint64_t since, const char *id) {
  return rolgunai_client_state(by, since, TEXT(id), OUT);
}
static uint32_t target_of(rolgunai_client *by, uint64_t since, const char *id) {
  return rolgunai_client_target(by, since, TEXT(id), OUT);
}
static uint32_t infos_of(rolgunai_client *by, uint64_t since, const char *target) {
  return rolgunai_client_infos_of(by, since, TEXT(target), OUT);
}
static uint32_t bad_sizes(rolgunai_client *by) {
  return rolgunai_client_send(by, TEXT(CUT), TEXT("{"), TEXT("ab"), three, 1, OUT);
}

/* One manager of two comms plays these in their order. `by` is the client, whose number of changes seen is `seen` after
 * it, and `result` what its last result then is: that of a call that isn't made is the one before. */
typedef struct {
  const char *what;
  uint32_t status;
  uint64_t seen;
  const char *result;
} wanted;

#define ROW(by, call, ...) check_call(&by, call, (wanted){#call, __VA_ARGS__})

static void check_call(rolgunai_client *by, uint32_t status, wanted row) {
  uint64_t seen;
  uint32_t shown;
  check(status == row.status, row.what, "the status");
  if (status != row.status) printf("  it is %u and not %u\n", status, row.status);
  check(rolgunai_client_seen(by, &seen, &shown) == ROLGUNAI_OK && seen == row.seen, row.what, "what is seen");
  if (seen != row.seen) printf("  it is %u and not %u\n", (unsigned)seen, (unsigned)row.seen);
  say_result(by);
  check_same(told, row.result, row.what);
}

#define OPEN_M "{\"comm_id\":\"m\",\"target_name\":\"p\"}"
#define MESSAGE_M "{\"comm_id\":\"m\",\"data\":{\"y\":1}}"
#define LAUNCHED                                                                                                  \
  "launched id " ONE " of w sends comm_open " ONE " {\"comm_id\":\"" ONE "\",\"data\":{\"buffer_paths\":[],"      \
  "\"state\":{\"v\":1}},\"target_name\":\"w\"} {\"version\":\"2.1.0\"}"
#define PUSHED                                                                                                    \
  "delivered id " ONE " of w sends comm_msg " ONE " {\"comm_id\":\"" ONE "\",\"data\":{\"buffer_paths\":[[\"b\"]]," \
  "\"method\":\"update\",\"state\":{\"v\":2}}} {} [xyz]"
#define PUSHED_STATE "state carries {\"buffer_paths\":[[\"b\"]],\"state\":{\"v\":2}} [xyz]"
#define INFOS "comm_info sends comm_info_reply  {\"comms\":{\"" ONE "\":{\"target_name\":\"w\"}},\"status\":\"ok\"} {}"

static void changes(void) {
  ROW(A, ROLGUNAI_OK, ROLGUNAI_OK, 0, "none");
  ROW(A, registers(&A, ROLGUNAI_WIDGET, "w"), ROLGUNAI_OK, 1, "registered of w");
  ROW(B, ROLGUNAI_OK, ROLGUNAI_OK, 0, "none");
  ROW(B, registers(&B, ROLGUNAI_PLAIN, "p"), ROLGUNAI_OK, 2, "registered of p");
  ROW(A, ROLGUNAI_OK, ROLGUNAI_OK, 1, "registered of w");
  ROW(A, launches(&A, "w", ONE, "{\"v\":1}"), ROLGUNAI_OK, 3, LAUNCHED);
  ROW(B, launches(&B, "w", ONE, "{}"), ROLGUNAI_OK, 4, "id_in_use id " ONE " of w");
  ROW(A, ROLGUNAI_OK, ROLGUNAI_OK, 3, LAUNCHED);
  ROW(B, says(&B, "comm_open", OPEN_M), ROLGUNAI_OK, 5, "opened id m of p");
  ROW(A, says(&A, "comm_open", "{\"comm_id\":\"n\",\"target_name\":\"p\"}"), ROLGUNAI_OK, 6,
      "refused (15 0) id n of p sends comm_close n {\"comm_id\":\"n\",\"data\":{}} {}");
  ROW(B, pushes(&B, ONE, "{\"v\":2}"), ROLGUNAI_OK, 7, PUSHED);
  ROW(A, pushes(&A, "m", "{}"), ROLGUNAI_OK, 8, "not_widget id m of p");
  ROW(B, says(&B, "comm_msg", MESSAGE_M), ROLGUNAI_OK, 9, "for_kernel id m of p carries {\"y\":1} [abc]");
  ROW(A, sends(&A, "m", "{\"z\":2}"), ROLGUNAI_OK, 10,
      "delivered id m of p sends comm_msg m {\"comm_id\":\"m\",\"data\":{\"z\":2}} {}");
  ROW(A, says(&A, "comm_msg", "{\"comm_id\":\"" ONE "\",\"data\":{}}"), ROLGUNAI_OK, 11,
      "fault (19 0) id " ONE " of w");
  ROW(A, sends(&A, "nobody", "{}"), ROLGUNAI_OK, 12, "no_comm id nobody");
  ROW(A, registers(&A, ROLGUNAI_OPAQUE, "p"), ROLGUNAI_OK, 13,
      "replaced of p carries [\"m\"] sends comm_close m {\"comm_id\":\"m\",\"data\":{}} {}");
  ROW(B, unregisters(&B, "p"), ROLGUNAI_OK, 14, "unregistered of p carries []");
  ROW(A, unregisters(&A, "p"), ROLGUNAI_OK, 15, "no_target of p");
}

/* What is no change takes no number: it comes after the whole history. */
static void no_changes(void) {
  ROW(B, says(&B, "comm_info_request", "{}"), ROLGUNAI_OK, 15, INFOS);
  ROW(B, says(&B, "comm_msg", "{}"), ROLGUNAI_OK, 15, "bad (4 1)");
  ROW(B, says(&B, "comm_open", "{\"comm_id\":\"q\",\"target_name\":3}"), ROLGUNAI_OK, 15,
      "bad (4 2) sends comm_close q {\"comm_id\":\"q\",\"data\":{}} {}");
  ROW(B, launches(&B, "w", "one", "{}"), ROLGUNAI_OK, 15, "bad (10 0)");
}

/* The first test that fails gives the status, and the last result stays. */
static void not_made(void) {
  const char *kept = "bad (10 0)";
  ROW(B, bad_sizes(&B), ROLGUNAI_BAD_SIZES, 15, kept);
  ROW(B, launches(&B, CUT, ONE, "{"), ROLGUNAI_BAD_NAME, 15, kept);
  ROW(B, launches(&B, "w", CUT, "{"), ROLGUNAI_BAD_NAME, 15, kept);
  ROW(B, launches(&B, "w", ONE, "{"), ROLGUNAI_NOT_JSON, 15, kept);
  ROW(B, pushes(&B, ONE, ""), ROLGUNAI_NOT_JSON, 15, kept);
  ROW(B, sends(&B, ONE, "}"), ROLGUNAI_NOT_JSON, 15, kept);
  ROW(B, says(&B, "comm_msg", "{"), ROLGUNAI_NOT_JSON, 15, kept);
  ROW(B, closes(&B, CUT), ROLGUNAI_BAD_NAME, 15, kept);
  ROW(B, unregisters(&B, CUT), ROLGUNAI_BAD_NAME, 15, kept);
  ROW(B, registers(&B, 6, CUT), ROLGUNAI_BAD_KIND, 15, kept);
  ROW(B, registers(&B, ROLGUNAI_PLAIN, CUT), ROLGUNAI_BAD_NAME, 15, kept);
  ROW(B, state_of(&B, 0, CUT), ROLGUNAI_BAD_NAME, 15, kept);
  ROW(B, target_of(&B, 0, CUT), ROLGUNAI_BAD_NAME, 15, kept);
  ROW(B, infos_of(&B, 0, CUT), ROLGUNAI_BAD_NAME, 15, kept);
  ROW(B, state_of(&B, 16, ONE), ROLGUNAI_AGAIN, 15, kept);
  ROW(B, target_of(&B, UINT64_MAX, ONE), ROLGUNAI_AGAIN, 15, kept);
  ROW(B, rolgunai_client_infos(&B, 16, OUT), ROLGUNAI_AGAIN, 15, kept);
  ROW(B, infos_of(&B, 16, "w"), ROLGUNAI_AGAIN, 15, kept);
}

static void reads(void) {
  uint32_t open, shown;
  check(rolgunai_client_show(&A, &shown) == ROLGUNAI_OK && shown == 1, "a show", "where no reader is");
  ROW(B, state_of(&B, 0, ONE), ROLGUNAI_OK, 15, PUSHED_STATE);
  ROW(B, state_of(&B, 15, "m"), ROLGUNAI_OK, 15, "no_comm");
  ROW(B, target_of(&B, 15, ONE), ROLGUNAI_OK, 15, "target of w");
  ROW(B, target_of(&B, 0, "m"), ROLGUNAI_OK, 15, "no_comm");
  ROW(B, rolgunai_client_infos(&B, 15, OUT), ROLGUNAI_OK, 15, INFOS);
  ROW(B, infos_of(&B, 0, "w"), ROLGUNAI_OK, 15, INFOS);
  ROW(B, infos_of(&B, 0, "p"), ROLGUNAI_OK, 15, "comm_info sends comm_info_reply  {\"comms\":{},\"status\":\"ok\"} {}");
  ROW(A, closes(&A, ONE), ROLGUNAI_OK, 16,
      "closed id " ONE " of w sends comm_close " ONE " {\"comm_id\":\"" ONE "\",\"data\":{}} {}");
  ROW(B, state_of(&B, 16, ONE), ROLGUNAI_OK, 16, "no_comm");
  check(rolgunai_client_is_open(&B, 16, TEXT(ONE), &open) == ROLGUNAI_OK && !open, "a comm that was closed", "");
  check(launches(&A, "w", ONE, "{}") == ROLGUNAI_OK, "a launch", "");
  check(rolgunai_client_is_open(&B, 17, TEXT(ONE), &open) == ROLGUNAI_OK && open, "a comm that is open", "");
  check(rolgunai_client_is_open(&B, 18, TEXT(ONE), &open) == ROLGUNAI_AGAIN && !open, "a comm after it", "");
}

/* ---- without a manager, limits, seats, ends */

static void closed(void) {
  uint64_t seen = 7;
  uint32_t number = 7;
  size_t size = 7;
  const uint32_t found[] = {
      says(&none, "comm_open", "{"), registers(&none, 9, CUT),         unregisters(&none, CUT),
      launches(&none, CUT, CUT, ""), pushes(&none, CUT, ""),           sends(&none, CUT, ""),
      closes(&none, CUT),            state_of(&none, 9, CUT),          target_of(&none, 9, CUT),
      infos_of(&none, 9, CUT),       rolgunai_client_infos(&none, 9, OUT), bad_sizes(&none),
      rolgunai_client_last_result(&none, OUT),                         rolgunai_client_join(&none, &A),
      rolgunai_client_last_reason(&none, &number, &seen),              rolgunai_client_free(&none)};
  for (size_t i = 0; i < sizeof found / sizeof *found; i++) check(found[i] == ROLGUNAI_CLOSED, "closed", "the status");
  check(reply == 0 && sent == 0 && number == 0 && seen == 0, "closed", "what is written");
  number = 7;
  check(rolgunai_client_show(&none, &number) == ROLGUNAI_CLOSED && number == 0, "closed", "a show");
  number = seen = 7;
  check(rolgunai_client_seen(&none, &seen, &number) == ROLGUNAI_CLOSED && !seen && !number, "closed", "what is seen");
  check(rolgunai_client_sent_part(&none, 0, 0, NULL, 0, &size) == ROLGUNAI_CLOSED && size == 0, "closed", "a message");
  size = 7;
  check(rolgunai_client_reply_part(&none, 0, NULL, 0, &size) == ROLGUNAI_CLOSED && size == 0, "closed", "a reply");
}

static void limits(void) {
  static const struct {
    size_t comms;
    uint32_t status;
  } rows[] = {{0, ROLGUNAI_BAD_LIMIT},     {1, ROLGUNAI_OK},
              {1048576, ROLGUNAI_OK},      {1048577, ROLGUNAI_BAD_LIMIT},
              {SIZE_MAX, ROLGUNAI_BAD_LIMIT}};
  for (size_t i = 0; i < sizeof rows / sizeof *rows; i++) {
    rolgunai_client first = {0}, second = {0};
    rolgunai_handle handle = {0};
    check(rolgunai_open_shared(&first, rows[i].comms) == rows[i].status, "a limit", "of a client's manager");
    check(rolgunai_open_shared_with_decimals(&second, rows[i].comms) == rows[i].status, "a limit", "with decimals");
    check(rolgunai_new(&handle, rows[i].comms) == rows[i].status, "a limit", "of a handle's manager");
    if (rows[i].status != ROLGUNAI_OK) continue;
    check(rolgunai_open_shared(&first, 0) == ROLGUNAI_ALREADY_OPEN, "a manager that is open", "");
    check(rolgunai_client_join(&first, &second) == ROLGUNAI_ALREADY_OPEN, "a client that has a manager", "");
    check(rolgunai_client_free(&first) == ROLGUNAI_OK && rolgunai_client_free(&second) == ROLGUNAI_OK, "an end", "");
    check(rolgunai_free(&handle) == ROLGUNAI_OK, "an end", "of a handle");
  }
}

enum { SEATS = 256 };

/* As many clients as there are seats, which end in an order that a step gives. */
static void seats(size_t step) {
  static rolgunai_client all[SEATS];
  rolgunai_client late = {0};
  uint64_t seen;
  uint32_t shown;
  check(rolgunai_open_shared(&all[0], 9) == ROLGUNAI_OK && registers(&all[0], ROLGUNAI_PLAIN, "p") == 0, "seats", "");
  int are_there = 1;
  for (size_t i = 1; i < SEATS; i++) are_there &= rolgunai_client_join(&all[i / 2], &all[i]) == ROLGUNAI_OK;
  check(are_there, "seats", "256 clients");
  check(rolgunai_client_seen(&all[SEATS - 1], &seen, &shown) == ROLGUNAI_OK && seen == 1, "seats", "the history");
  check(rolgunai_client_join(&all[7], &late) == ROLGUNAI_NO_SEAT, "seats", "one client more");
  check(rolgunai_client_join(&all[7], &all[8]) == ROLGUNAI_ALREADY_OPEN, "seats", "one that has a manager");
  check(rolgunai_client_free(&all[9]) == ROLGUNAI_OK && rolgunai_client_join(&all[7], &all[9]) == ROLGUNAI_OK, "seats",
        "one that ended gives its own up");
  int have_ended = 1;
  for (size_t i = 0, at = 0; i < SEATS; i++, at = (at + step) % SEATS) {
    have_ended &= rolgunai_client_free(&all[at]) == ROLGUNAI_OK;
    rolgunai_client *next = &all[(at + step) % SEATS];
    if (i + 1 < SEATS && i % 50 == 0) have_ended &= closes(next, "nobody") == ROLGUNAI_OK;
  }
  check(have_ended, "seats", "they end in any order");
  check(closes(&all[0], "nobody") == ROLGUNAI_CLOSED, "seats", "after the end");
}

/* ---- BUSY: another thread is inside, with a long text */

enum { LONG = 4000000, SECONDS = 60 };
static _Atomic int is_over;
static char *long_state;

static void *pushes_long(void *of) {
  uint32_t mine;
  size_t count;
  while (!atomic_load(&is_over))
    rolgunai_client_push(of, TEXT(ONE), TEXT(long_state), TEXT("[]"), TEXT(""), no_sizes, 0, &mine, &count);
  return NULL;
}

static void busy(void) {
  pthread_t thread;
  rolgunai_client other = {0};
  uint64_t before, seen = 0;
  uint32_t shown, status = ROLGUNAI_OK, joined = ROLGUNAI_OK, showing = ROLGUNAI_OK;
  long_state = malloc(LONG);
  char *at = long_state + sprintf(long_state, "{\"v\":[0");
  while (at < long_state + LONG - 4) at = memcpy(at, ",1", 3), at += 2;
  strcpy(at, "]}");
  check(pthread_create(&thread, NULL, pushes_long, &A) == 0, "busy", "a thread");
  say_result(&B);
  char *kept = strdup(told);
  rolgunai_client_seen(&B, &before, &shown);
  for (const time_t end = time(NULL) + SECONDS; status != ROLGUNAI_BUSY && time(NULL) < end;) status = bad_sizes(&B);
  check(status == ROLGUNAI_BUSY, "busy", "a call while another is inside, tested before its sizes");
  check(rolgunai_client_seen(&B, &seen, &shown) == ROLGUNAI_OK && seen == before, "busy", "nothing more is seen");
  say_result(&B);
  check_same(told, kept, "busy: the last result stays");
  check(registers(&B, 9, "x") == ROLGUNAI_BAD_KIND && registers(&B, 2, CUT) == ROLGUNAI_BAD_NAME, "busy",
        "a register's kind and name are tested before it");
  check(state_of(&B, 0, ONE) == ROLGUNAI_OK && reply == ROLGUNAI_REPLY_STATE, "busy", "a read enters nothing");
  for (const time_t end = time(NULL) + SECONDS; time(NULL) < end && showing != ROLGUNAI_BUSY;)
    showing = rolgunai_client_show(&B, &shown);
  check(showing == ROLGUNAI_BUSY && shown == 0, "busy", "a show");
  for (const time_t end = time(NULL) + SECONDS; time(NULL) < end && joined != ROLGUNAI_BUSY;) {
    joined = rolgunai_client_join(&B, &other);
    if (joined == ROLGUNAI_OK) rolgunai_client_free(&other);
  }
  check(joined == ROLGUNAI_BUSY && rolgunai_client_free(&other) == ROLGUNAI_CLOSED, "busy", "a join");
  atomic_store(&is_over, 1);
  pthread_join(thread, NULL);
  check(closes(&B, ONE) == ROLGUNAI_OK && reply == ROLGUNAI_REPLY_CLOSED, "busy", "made again");
  free(kept);
  free(long_state);
}

int main(void) {
  closed();
  limits();
  seats(1);
  seats(255);
  seats(77);
  check(rolgunai_open_shared(&A, 2) == ROLGUNAI_OK && rolgunai_client_join(&A, &B) == ROLGUNAI_OK, "clients", "");
  changes();
  no_changes();
  not_made();
  reads();
  busy();
  check(rolgunai_client_free(&A) == ROLGUNAI_OK && closes(&B, "m") == ROLGUNAI_OK, "the first has ended", "");
  check(rolgunai_client_free(&B) == ROLGUNAI_OK && rolgunai_client_free(&B) == ROLGUNAI_CLOSED, "the last", "");
  printf("%d passed, %d failed\n", passed, failed);
  return failed != 0;
}

/* Each allocation of some calls by two clients fails in turn. The call that it fails in answers ROLGUNAI_MEMORY, or as
 * if it hadn't; made again after ROLGUNAI_MEMORY it says what it says where nothing fails, by the same number, so
 * nothing had happened; the other client's result stays; and nothing is left after the end. Linked with heap_fail.c. */
#include "rolgunai_client.h"

#include <stdio.h>
#include <string.h>

extern long heap_fail_at, heap_count, heap_live;
static rolgunai_client A, B;
static uint8_t told[1 << 16], wanted[1 << 16];
static size_t told_size, sent;
static uint32_t reply;
static long refusals;

static int may_again(rolgunai_client *by, uint32_t status) {
  uint32_t shown;
  if (status == ROLGUNAI_MEMORY) refusals++;
  if (status == ROLGUNAI_AGAIN) rolgunai_client_show(by, &shown);
  return status == ROLGUNAI_MEMORY || status == ROLGUNAI_AGAIN;
}

static void tell(const void *bytes, size_t size) {
  memcpy(told + told_size, bytes, size);
  told_size += size;
}

/* Of a client how many changes it has seen, and the reason and each part of its last result. */
static int tell_all(rolgunai_client *of) {
  static uint8_t out[4096];
  size_t size, count;
  uint32_t reason, number, shown, status;
  uint64_t index, seen;
  if (rolgunai_client_last_result(of, &number, &count) || rolgunai_client_last_reason(of, &reason, &index)
      || rolgunai_client_seen(of, &seen, &shown))
    return 0;
  tell(&number, sizeof number);
  tell(&reason, sizeof reason);
  tell(&index, sizeof index);
  tell(&seen, sizeof seen);
  for (size_t message = 0; message <= count; message++) {
    for (size_t part = 0; part < 8; part++) {
      do {
        status = message < count ? rolgunai_client_sent_part(of, message, part, out, sizeof out, &size)
                                 : rolgunai_client_reply_part(of, part, out, sizeof out, &size);
      } while (may_again(of, status));
      if (status != ROLGUNAI_OK && status != ROLGUNAI_NO_PART) return 0;
      tell(&size, sizeof size);
      if (status == ROLGUNAI_OK) tell(out, size);
    }
  }
  return 1;
}

#define TEXT(text) (const uint8_t *)(text), strlen(text)
#define XYZ TEXT("xyz"), three, 1, &reply, &sent
#define ONE "00000000-0000-0000-0000-000000000001"
static const size_t three[] = {3};

static uint32_t says(rolgunai_client *by, const char *type, const char *content) {
  char header[64];
  snprintf(header, sizeof header, "{\"msg_type\":\"%s\"}", type);
  return rolgunai_client_handle_message(by, TEXT(header), TEXT("{\"version\":\"2\"}"), TEXT(content), XYZ);
}

/* The call is made, in the end, and both clients have what they have. */
#define MADE(by, call)                                                       \
  do {                                                                       \
    uint32_t status;                                                         \
    do status = (call);                                                      \
    while (may_again(by, status));                                           \
    if (status != ROLGUNAI_OK || !tell_all(&A) || !tell_all(&B)) return #call; \
  } while (0)

static const char *frontends(void) {
  MADE(&A, says(&A, "comm_open", "{\"comm_id\":\"m\",\"target_name\":\"mine\"}"));
  MADE(&B, says(&B, "comm_open", "{\"comm_id\":\"w\",\"target_name\":\"echoing\",\"data\":{\"state\":{\"v\":1}}}"));
  MADE(&A, says(&A, "comm_open", "{\"comm_id\":\"o\",\"target_name\":\"figures\",\"data\":\"text\"}"));
  MADE(&B, says(&B, "comm_open", "{\"comm_id\":\"z\",\"target_name\":\"mine\",\"data\":\"text\"}"));
  MADE(&B, says(&B, "comm_msg", "{\"comm_id\":\"o\",\"data\":\"text\"}"));
  MADE(&A, says(&A, "comm_msg", "{\"comm_id\":\"m\",\"data\":{\"x\":1}}"));
  const char *update = "{\"method\":\"update\",\"state\":{\"u\":[2]},\"buffer_paths\":[[\"b\"]]}";
  char content[128];
  snprintf(content, sizeof content, "{\"comm_id\":\"w\",\"data\":%s}", update);
  MADE(&A, says(&A, "comm_msg", content));
  MADE(&B, says(&B, "comm_msg", "{\"comm_id\":\"w\",\"data\":{\"method\":\"request_state\"}}"));
  MADE(&B, says(&B, "comm_info_request", "{}"));
  MADE(&A, says(&A, "comm_close", "{\"comm_id\":\"w\"}"));
  return NULL;
}

static const char *kernel(void) {
  static const rolgunai_frame frames[] = {{(const uint8_t *)"abc", 3}, {(const uint8_t *)"", 0}};
  MADE(&A, rolgunai_client_launch(&A, TEXT("widget"), TEXT(ONE), TEXT("{\"v\":[1]}"), TEXT("[[\"b\"]]"), XYZ));
  MADE(&B, rolgunai_client_push(&B, TEXT(ONE), TEXT("{\"v\":[1]}"), TEXT("[[\"b\"]]"), XYZ));
  MADE(&A, rolgunai_client_send(&A, TEXT("m"), TEXT("{\"v\":[1]}"), XYZ));
  MADE(&A, rolgunai_client_send_frames(&A, TEXT("m"), TEXT("{\"v\":[1]}"), frames, 2, &reply, &sent));
  MADE(&A, rolgunai_client_state(&A, 0, TEXT(ONE), &reply, &sent));
  MADE(&B, rolgunai_client_state(&B, 2, TEXT("m"), &reply, &sent));
  MADE(&A, rolgunai_client_target(&A, 0, TEXT("o"), &reply, &sent));
  MADE(&B, rolgunai_client_infos(&B, 3, &reply, &sent));
  MADE(&A, rolgunai_client_infos_of(&A, 0, TEXT("mine"), &reply, &sent));
  MADE(&B, rolgunai_client_close(&B, TEXT(ONE), &reply, &sent));
  MADE(&A, rolgunai_client_register(&A, ROLGUNAI_WIDGET, TEXT("mine"), &reply, &sent));
  MADE(&B, rolgunai_client_unregister(&B, TEXT("mine"), &reply, &sent));
  return NULL;
}

static const char *calls(void) {
  static const struct {
    uint32_t kind;
    const char *name;
  } targets[] = {{ROLGUNAI_PLAIN, "mine"}, {ROLGUNAI_WIDGET, "widget"}, {ROLGUNAI_WIDGET_ECHO, "echoing"},
                 {ROLGUNAI_OPAQUE, "figures"}};
  uint32_t status;
  do status = rolgunai_client_join(&A, &B);
  while (may_again(&A, status));
  if (status != ROLGUNAI_OK) return "a join";
  for (size_t i = 0; i < sizeof targets / sizeof *targets; i++) {
    rolgunai_client *by = i % 2 ? &B : &A;
    MADE(by, rolgunai_client_register(by, targets[i].kind, TEXT(targets[i].name), &reply, &sent));
  }
  const char *why = frontends();
  return why ? why : kernel();
}

static const char *played(long at) {
  uint32_t status;
  heap_fail_at = at;
  heap_count = 0;
  told_size = 0;
  do status = rolgunai_open_shared_with_decimals(&A, 9);
  while (may_again(&A, status));
  const char *why = status == ROLGUNAI_OK ? calls() : "a new manager";
  rolgunai_client_free(&A);
  if (rolgunai_client_free(&B) != ROLGUNAI_OK && !why) why = "the end";
  return why || !heap_live ? why : "blocks are left";
}

int main(void) {
  const char *why = played(-1);
  const size_t wanted_size = told_size;
  memcpy(wanted, told, told_size);
  const long all = heap_count;
  long tried = 0;
  for (; !why && tried < all; tried++) {
    why = played(tried + 1);
    if (!why && (told_size != wanted_size || memcmp(told, wanted, wanted_size) != 0)) why = "other answers";
  }
  if (why) printf("FAILED at allocation %ld: %s\n", tried, why);
  printf("%ld allocations failed in turn, %ld of them in a call that answered so\n", tried, refusals);
  return why != NULL || refusals == 0;
}

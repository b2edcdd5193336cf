/* A hundred thousand open comms, by a handle and by a client: what they take of memory, that calls beside them take no
 * more of it and no longer than beside ten, the list of all of them, and their end at once. `test_clients_many client`
 * is by a client alone. The last line is 'N passed, M failed', and the status is 1 where one failed. */
#include "rolgunai_client.h"

#include <stdio.h>
#include <stdlib.h>
#include <string.h>
#include <time.h>
#include <unistd.h>

enum { COMMS = 100000, LIMIT = 1048576, FEW = 10, CALLS = 40000, ROUNDS = 6 };
enum { BYTES_OF_A_COMM = 2000, MORE_BYTES = 2 << 20 };
#ifdef __SANITIZE_ADDRESS__
enum { FREES = 0 }; /* the address sanitizer keeps what is freed for a while */
#else
enum { FREES = 1 };
#endif
static const double TIMES = 10; /* as long as beside ten, at most; a search through all would be 10,000 times */

static int passed, failed, is_shared;
static int open_ones[COMMS], next_number; /* the numbers in the ids of the comms that are open; no id comes twice */
static rolgunai_handle handle;
static rolgunai_client client;
static uint32_t reply;
static size_t sent;
static const size_t no_sizes[1];

static void check(int holds, const char *what) {
  if (holds) passed++;
  else failed++;
  if (!holds) printf("FAILED: %s, by a %s\n", what, is_shared ? "client" : "handle");
}

#define TEXT(text) (const uint8_t *)(text), strlen(text)
#define NONE TEXT(""), no_sizes, 0, &reply, &sent

static uint32_t says(const char *type, const char *content) {
  char header[64];
  snprintf(header, sizeof header, "{\"msg_type\":\"%s\"}", type);
  return is_shared ? rolgunai_client_handle_message(&client, TEXT(header), TEXT("{}"), TEXT(content), NONE)
                   : rolgunai_handle_message(&handle, 0, TEXT(header), TEXT("{}"), TEXT(content), NONE);
}

static int opens(int number) {
  char content[64];
  snprintf(content, sizeof content, "{\"comm_id\":\"comm%d\",\"target_name\":\"p\"}", number);
  return says("comm_open", content) == ROLGUNAI_OK && reply == ROLGUNAI_REPLY_OPENED;
}

static int closes(int number) {
  char id[32];
  snprintf(id, sizeof id, "comm%d", number);
  const uint32_t status = is_shared ? rolgunai_client_close(&client, TEXT(id), &reply, &sent)
                                    : rolgunai_close(&handle, 0, TEXT(id), &reply, &sent);
  return status == ROLGUNAI_OK && reply == ROLGUNAI_REPLY_CLOSED;
}

/* Bytes of this process that are in memory. */
static long resident(void) {
  long pages = 0, here = 0;
  FILE *file = fopen("/proc/self/statm", "r");
  if (file && fscanf(file, "%ld %ld", &pages, &here) != 2) here = 0;
  if (file) fclose(file);
  return here * sysconf(_SC_PAGESIZE);
}

/* Opens a comm of a new id in a place. */
static int opens_at(int place) { return opens(open_ones[place] = next_number++); }

/* Seconds of processor time that closes of comms, and opens of others in their places, take. */
static double churned(int among) {
  const clock_t begin = clock();
  int are_done = 1;
  for (int i = 0; i < CALLS; i++) {
    const int place = (int)((unsigned)i * 7919u % (unsigned)among);
    are_done &= closes(open_ones[place]) && opens_at(place);
  }
  check(are_done, "closes and opens");
  return (double)(clock() - begin) / CLOCKS_PER_SEC;
}

/* How long the list of open comms is. */
static size_t listed(void) {
  size_t size = 0;
  uint8_t none;
  if (says("comm_info_request", "{}") != ROLGUNAI_OK || sent != 1) return 0;
  if (is_shared) rolgunai_client_copy_sent_part(&client, 0, ROLGUNAI_PART_CONTENT, &none, 0, &size);
  else rolgunai_copy_sent_part(&handle, 0, ROLGUNAI_PART_CONTENT, &none, 0, &size);
  return size;
}

static void many(void) {
  check((is_shared ? rolgunai_open_shared(&client, LIMIT) : rolgunai_new(&handle, LIMIT)) == ROLGUNAI_OK, "a manager");
  check((is_shared ? rolgunai_client_register(&client, ROLGUNAI_PLAIN, TEXT("p"), &reply, &sent)
                   : rolgunai_register(&handle, 0, ROLGUNAI_PLAIN, TEXT("p"), &reply, &sent))
            == ROLGUNAI_OK,
        "a target");
  int are_open = 1;
  const long before = resident();
  for (int i = next_number = 0; i < FEW; i++) are_open &= opens_at(i);
  const double beside_few = churned(FEW);
  for (int i = FEW; i < COMMS; i++) are_open &= opens_at(i);
  check(are_open, "a hundred thousand opens");
  const long with_all = resident();
  check((with_all - before) / COMMS <= BYTES_OF_A_COMM, "bytes of a comm");
  const double beside_all = churned(COMMS);
  for (int i = 0; i < ROUNDS; i++) churned(COMMS);
  const long settled = resident(); /* as many closes as leave a table the most gaps that it keeps */
  for (int i = 0; i < ROUNDS; i++) churned(COMMS);
  const long after = resident() - settled;
  check(!FREES || after <= MORE_BYTES, "no more memory after closes and opens");
  check(beside_all <= TIMES * beside_few, "calls beside them take as long as beside ten");
  size_t wanted = strlen("{\"comms\":{},\"status\":\"ok\"}") - 1;
  for (int i = 0; i < COMMS; i++)
    wanted += (size_t)snprintf(NULL, 0, "\"comm%d\":{\"target_name\":\"p\"},", open_ones[i]);
  check(listed() == wanted, "all are listed");
  printf("%s: %ld bytes a comm, %ld more after %d closes and opens; these take %.2f us beside %d, %.2f beside %d\n",
         is_shared ? "client" : "handle", (with_all - before) / COMMS, after, ROUNDS * CALLS,
         beside_few / CALLS * 1e6, FEW, beside_all / CALLS * 1e6, COMMS);
  check((is_shared ? rolgunai_client_unregister(&client, TEXT("p"), &reply, &sent)
                   : rolgunai_unregister(&handle, 0, TEXT("p"), &reply, &sent))
                == ROLGUNAI_OK
            && sent == COMMS,
        "all end with their target");
  check((is_shared ? rolgunai_client_free(&client) : rolgunai_free(&handle)) == ROLGUNAI_OK, "the end");
}

int main(int count, char **words) {
  for (is_shared = count > 1 && strcmp(words[1], "client") == 0; is_shared < 2; is_shared++) many();
  printf("%d passed, %d failed\n", passed, failed);
  return failed != 0;
}

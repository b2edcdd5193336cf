/* The manager that threads share. Each thread has a client of it, made from another, whose last result is its own.
 *
 *   rolgunai_client first = {0}, other = {0};
 *   rolgunai_open_shared_with_decimals(&first, 1048576);
 *   rolgunai_client_join(&first, &other);                      (other goes to another thread)
 *   status = rolgunai_client_push(&first, id, id_size, ..the state, its paths and buffers.., &reply, &sent);
 *   for (size_t i = 0; i < sent; i++) send_parts(&first, i);   (in its turn, as said below)
 *
 * Messages, kinds, replies, reasons and parts are those of rolgunai.h, and so are what a kernel has to know and what a
 * caller owes. Owed besides is one thing: one client has one call at a time, and goes to another thread between two
 * calls alone, ordered by a lock, a join or the like. Calls on different clients may be made at the same time: they
 * need no lock, and none waits for another.
 *
 * - A change (rolgunai_client_handle_message to rolgunai_client_close) enters alone. Where another client's call is
 *   inside it is ROLGUNAI_BUSY at once, and nothing has happened: call again, or make these calls under one lock, as
 *   rolgunai_threads.h does, and BUSY never comes. The lock is for the one call: its result and parts are the client's.
 * - Changes have numbers, from 1: the history is what one manager of one thread comes to by these calls in this order.
 *   A call is a change exactly where its reply is 3 to 16, REGISTERED to NOT_WIDGET, and it isn't a read.
 * - A read (rolgunai_client_state to rolgunai_client_infos_of) enters nothing and is never BUSY. It is of the state
 *   after `since` changes or more, and never before what its client has seen. To see what another thread did, ask with
 *   the number that it was told, and else with 0. ROLGUNAI_AGAIN says that what is shown isn't so late, since the last
 *   change isn't shown yet or `since` is beyond the history: rolgunai_client_show, and call again.
 * - What is sent goes out in the order of the changes: the messages of change n after those of all with lower numbers,
 *   and what a call that is no change sends (COMM_INFO, a BAD open) after those of all changes up to its
 *   rolgunai_client_seen. That is owed to the frontends, whose view is the history only then; `rolgunai_outbox` of
 *   rolgunai_threads.h does it. A change that sends nothing has its turn too.
 * - Each status but ROLGUNAI_OK and ROLGUNAI_BUFFER_TOO_SMALL leaves the manager, the client and its last result as
 *   they were. */
#ifndef ROLGUNAI_CLIENT_H
#define ROLGUNAI_CLIENT_H
#include "rolgunai.h"
#ifdef __cplusplus
extern "C" {
#endif

/* A struct of yours, treated as a rolgunai_handle: zero before the first call, and then the library's alone. */
typedef struct rolgunai_client {
  void *at;
} rolgunai_client;

/* Makes a manager, and its first client: as rolgunai_new and rolgunai_new_with_decimals. Statuses, in the order of the
 * tests: ALREADY_OPEN, BAD_LIMIT (`comms` isn't from 1 to 1,048,576), MEMORY. */
uint32_t rolgunai_open_shared(rolgunai_client *client, size_t comms);
uint32_t rolgunai_open_shared_with_decimals(rolgunai_client *client, size_t comms);

/* Makes another client of the same manager, that has seen the whole history, in `other`. Statuses, in the order of the
 * tests: CLOSED (`client` has no manager), ALREADY_OPEN (`other` has one), NO_SEAT, BUSY, MEMORY. */
uint32_t rolgunai_client_join(rolgunai_client *client, rolgunai_client *other);

/* Takes the client from the manager. The last one ends comms and targets, and frees all memory. Statuses: CLOSED. */
uint32_t rolgunai_client_free(rolgunai_client *client);

/* ---- Changes: the calls of rolgunai.h of these names, without a client's number, since the client is one. Each gives
 * the number of its reply and how many messages it sends. Statuses, in the order of the tests: CLOSED; BUSY; then
 * those of the call of rolgunai.h, with EXHAUSTED also where the history has 2^62 changes; STRANGER. A register's kind
 * and name are tested before BUSY. A `comm_info_request`, and why a message is BAD, are answered after the whole
 * history. */
uint32_t rolgunai_client_handle_message(rolgunai_client *client, const uint8_t *header, size_t header_size,
                                        const uint8_t *metadata, size_t metadata_size, const uint8_t *content,
                                        size_t content_size, const uint8_t *buffers, size_t buffers_size,
                                        const size_t *sizes, size_t count, uint32_t *reply, size_t *sent);
uint32_t rolgunai_client_register(rolgunai_client *client, uint32_t kind, const uint8_t *name, size_t name_size,
                                  uint32_t *reply, size_t *sent);
uint32_t rolgunai_client_unregister(rolgunai_client *client, const uint8_t *name, size_t name_size, uint32_t *reply,
                                    size_t *sent);
uint32_t rolgunai_client_launch(rolgunai_client *client, const uint8_t *target, size_t target_size,
                                const uint8_t *uuid, size_t uuid_size, const uint8_t *state, size_t state_size,
                                const uint8_t *paths, size_t paths_size, const uint8_t *buffers, size_t buffers_size,
                                const size_t *sizes, size_t count, uint32_t *reply, size_t *sent);
uint32_t rolgunai_client_push(rolgunai_client *client, const uint8_t *id, size_t id_size, const uint8_t *state,
                              size_t state_size, const uint8_t *paths, size_t paths_size, const uint8_t *buffers,
                              size_t buffers_size, const size_t *sizes, size_t count, uint32_t *reply, size_t *sent);
uint32_t rolgunai_client_send(rolgunai_client *client, const uint8_t *id, size_t id_size, const uint8_t *data,
                              size_t data_size, const uint8_t *buffers, size_t buffers_size, const size_t *sizes,
                              size_t count, uint32_t *reply, size_t *sent);
uint32_t rolgunai_client_handle_frames(rolgunai_client *client, const uint8_t *header, size_t header_size,
                                       const uint8_t *metadata, size_t metadata_size, const uint8_t *content,
                                       size_t content_size, const rolgunai_frame *frames, size_t count,
                                       uint32_t *reply, size_t *sent);
uint32_t rolgunai_client_launch_frames(rolgunai_client *client, const uint8_t *target, size_t target_size,
                                       const uint8_t *uuid, size_t uuid_size, const uint8_t *state, size_t state_size,
                                       const uint8_t *paths, size_t paths_size, const rolgunai_frame *frames,
                                       size_t count, uint32_t *reply, size_t *sent);
uint32_t rolgunai_client_push_frames(rolgunai_client *client, const uint8_t *id, size_t id_size, const uint8_t *state,
                                     size_t state_size, const uint8_t *paths, size_t paths_size,
                                     const rolgunai_frame *frames, size_t count, uint32_t *reply, size_t *sent);
uint32_t rolgunai_client_send_frames(rolgunai_client *client, const uint8_t *id, size_t id_size, const uint8_t *data,
                                     size_t data_size, const rolgunai_frame *frames, size_t count, uint32_t *reply,
                                     size_t *sent);
uint32_t rolgunai_client_close(rolgunai_client *client, const uint8_t *id, size_t id_size, uint32_t *reply,
                               size_t *sent);

/* ---- Reads. Statuses: CLOSED, BAD_NAME, AGAIN, MEMORY, EXHAUSTED. */

/* A comm's state, as rolgunai_state has it. Replies: STATE, NO_STATE, NO_COMM. */
uint32_t rolgunai_client_state(rolgunai_client *client, uint64_t since, const uint8_t *id, size_t id_size,
                               uint32_t *reply, size_t *sent);

/* The name of an open comm's target, ROLGUNAI_PART_TARGET of the reply. Replies: TARGET, NO_COMM. */
uint32_t rolgunai_client_target(rolgunai_client *client, uint64_t since, const uint8_t *id, size_t id_size,
                                uint32_t *reply, size_t *sent);

/* The open comms, and those of one target: a `comm_info_reply`, as a `comm_info_request` has it. Reply: COMM_INFO. */
uint32_t rolgunai_client_infos(rolgunai_client *client, uint64_t since, uint32_t *reply, size_t *sent);
uint32_t rolgunai_client_infos_of(rolgunai_client *client, uint64_t since, const uint8_t *target, size_t target_size,
                                  uint32_t *reply, size_t *sent);

/* Shows readers the last change, where they don't see it yet. `*shown` is 1 where they see it now, and 0 where readers
 * are still in every place that it could be shown in: call again. Statuses: CLOSED, BUSY. */
uint32_t rolgunai_client_show(rolgunai_client *client, uint32_t *shown);

/* ---- What this client's last call came to, of those above that gave ROLGUNAI_OK, but rolgunai_client_show and those
 * that make and free clients. No call of another client changes it. Each is as that of rolgunai.h. */
uint32_t rolgunai_client_last_result(rolgunai_client *client, uint32_t *reply, size_t *sent);
uint32_t rolgunai_client_last_reason(rolgunai_client *client, uint32_t *reason, uint64_t *index);
uint32_t rolgunai_client_copy_sent_part(rolgunai_client *client, size_t message, size_t part, uint8_t *out,
                                        size_t out_size, size_t *size);
uint32_t rolgunai_client_copy_reply_part(rolgunai_client *client, size_t part, uint8_t *out, size_t out_size,
                                         size_t *size);

/* How many changes this client has seen: right after a change its own number, and right after any other call the number
 * of changes that its answer comes after. `*shown` is 0 where the client's last change wasn't shown to readers yet when
 * it was made. Status: CLOSED. */
uint32_t rolgunai_client_seen(rolgunai_client *client, uint64_t *seen, uint32_t *shown);

static inline uint32_t rolgunai_client_sent_part(rolgunai_client *client, size_t message, size_t part, uint8_t *out,
                                                 size_t out_size, size_t *size) {
  uint8_t none;
  return rolgunai_client_copy_sent_part(client, message, part, out_size ? out : &none, out_size, size);
}

static inline uint32_t rolgunai_client_reply_part(rolgunai_client *client, size_t part, uint8_t *out, size_t out_size,
                                                  size_t *size) {
  uint8_t none;
  return rolgunai_client_copy_reply_part(client, part, out_size ? out : &none, out_size, size);
}

/* Whether a comm is open: `*open` is 1 or 0, and 0 where the status isn't ROLGUNAI_OK. */
static inline uint32_t rolgunai_client_is_open(rolgunai_client *client, uint64_t since, const uint8_t *id,
                                               size_t id_size, uint32_t *open) {
  uint32_t reply;
  size_t sent;
  const uint32_t status = rolgunai_client_target(client, since, id, id_size, &reply, &sent);
  *open = status == ROLGUNAI_OK && reply == ROLGUNAI_REPLY_TARGET;
  return status;
}

/* Whether a reply is a change's, where the call isn't a read. */
static inline int rolgunai_is_change(uint32_t reply) {
  return reply >= ROLGUNAI_REPLY_REGISTERED && reply <= ROLGUNAI_REPLY_NOT_WIDGET;
}

#ifdef __cplusplus
}
#endif
#endif

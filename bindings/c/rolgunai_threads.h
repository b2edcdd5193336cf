/* For threads that share a manager, over pthreads: a lock under which no call is ROLGUNAI_BUSY, and an outbox that lets
 * messages go out in the order of the changes. Link with -pthread. Either may be left out: a kernel may call again
 * where a call is BUSY, or have a lock and an order of its own.
 *
 *   static rolgunai_lock lock = ROLGUNAI_LOCK_INITIALIZER;              (one for each manager)
 *   static rolgunai_outbox outbox = ROLGUNAI_OUTBOX_INITIALIZER;
 *   status = ROLGUNAI_LOCKED(&lock, rolgunai_client_push(&client, .., &reply, &sent));
 *   if (status == ROLGUNAI_OK) {
 *     turn->with = ..what is to be sent: the parts of each message, copied..;
 *     turn->send = send;                                                (called once it is this turn's time)
 *     rolgunai_outbox_put_result(&outbox, turn, &client, reply);
 *   }
 */
#ifndef ROLGUNAI_THREADS_H
#define ROLGUNAI_THREADS_H
#include "rolgunai_client.h"

#include <pthread.h>
#ifdef __cplusplus
extern "C" {
#endif

/* ---- The lock: take it round each change, rolgunai_client_show and rolgunai_client_join of a manager's clients. No
 * call waits or calls back, so that whoever holds it lets it go. */
typedef struct rolgunai_lock {
  pthread_mutex_t mutex;
} rolgunai_lock;

#define ROLGUNAI_LOCK_INITIALIZER \
  { PTHREAD_MUTEX_INITIALIZER }

static inline void rolgunai_lock_take(rolgunai_lock *lock) { pthread_mutex_lock(&lock->mutex); }

static inline uint32_t rolgunai_lock_let_go(rolgunai_lock *lock, uint32_t status) {
  pthread_mutex_unlock(&lock->mutex);
  return status;
}

/* One call under the lock, and its status. `lock` is evaluated twice. */
#define ROLGUNAI_LOCKED(lock, call) (rolgunai_lock_take(lock), rolgunai_lock_let_go((lock), (call)))

enum { ROLGUNAI_READ_TRIES = 1000 };

/* For `do status = ..a read..; while (rolgunai_shown(&lock, &client, status, &tries));`, with tries 0 at first: whether
 * to make the read again, after ROLGUNAI_AGAIN. A read that stays AGAIN asks for more changes than there are. */
static inline int rolgunai_shown(rolgunai_lock *lock, rolgunai_client *client, uint32_t status, int *tries) {
  uint32_t shown;
  return status == ROLGUNAI_AGAIN && ++*tries < ROLGUNAI_READ_TRIES
         && ROLGUNAI_LOCKED(lock, rolgunai_client_show(client, &shown)) == ROLGUNAI_OK;
}

/* ---- The outbox: it holds back what a change sends until all changes of lower numbers have had their turn, and what a
 * call that is no change sends until all that it comes after have. One thread sends at a time, without the lock: it may
 * be the one that puts a turn, for others too, and a `send` may make calls and put turns. Every change of the manager
 * has to be put, also one that sends nothing; until then those behind it wait. */
typedef struct rolgunai_turn {
  uint64_t number;                      /* the change's; of a call that is none, how many changes it comes after */
  int is_change;                        /* rolgunai_is_change */
  void (*send)(struct rolgunai_turn *); /* sends; from here on the turn is the caller's again, who may free it */
  void *with;                           /* the caller's */
  struct rolgunai_turn *next;           /* the outbox's */
} rolgunai_turn;

typedef struct rolgunai_outbox {
  pthread_mutex_t mutex;
  uint64_t gone; /* changes that have had their turn; all up to this number */
  int is_sending;
  rolgunai_turn *first, *last; /* those that wait, in their order */
} rolgunai_outbox;

#define ROLGUNAI_OUTBOX_INITIALIZER \
  { PTHREAD_MUTEX_INITIALIZER, 0, 0, 0, 0 }

static inline int rolgunai_turn_is_before(const rolgunai_turn *turn, const rolgunai_turn *other) {
  return turn->number < other->number || (turn->number == other->number && turn->is_change && !other->is_change);
}

static inline void rolgunai_outbox_keep(rolgunai_outbox *outbox, rolgunai_turn *turn) {
  rolgunai_turn **at = &outbox->first;
  if (outbox->last && !rolgunai_turn_is_before(turn, outbox->last)) at = &outbox->last->next;
  while (*at && !rolgunai_turn_is_before(turn, *at)) at = &(*at)->next;
  turn->next = *at;
  *at = turn;
  if (!turn->next) outbox->last = turn;
}

/* The next one whose time has come, taken out, or none. */
static inline rolgunai_turn *rolgunai_outbox_next(rolgunai_outbox *outbox) {
  rolgunai_turn *turn = outbox->first;
  if (!turn || turn->number > outbox->gone + (turn->is_change != 0)) return 0;
  outbox->first = turn->next;
  if (!outbox->first) outbox->last = 0;
  if (turn->is_change) outbox->gone = turn->number;
  return turn;
}

/* Puts a turn, all but whose `next` is set, and sends all whose time has come. */
static inline void rolgunai_outbox_put(rolgunai_outbox *outbox, rolgunai_turn *turn) {
  pthread_mutex_lock(&outbox->mutex);
  rolgunai_outbox_keep(outbox, turn);
  if (!outbox->is_sending) {
    outbox->is_sending = 1;
    while ((turn = rolgunai_outbox_next(outbox))) {
      pthread_mutex_unlock(&outbox->mutex);
      turn->send(turn);
      pthread_mutex_lock(&outbox->mutex);
    }
    outbox->is_sending = 0;
  }
  pthread_mutex_unlock(&outbox->mutex);
}

/* Puts the turn of the client's last call, which came to this reply and is no read, or one of COMM_INFO. The turn's
 * `send` and `with` are set. */
static inline void rolgunai_outbox_put_result(rolgunai_outbox *outbox, rolgunai_turn *turn, rolgunai_client *client,
                                              uint32_t reply) {
  uint32_t shown;
  rolgunai_client_seen(client, &turn->number, &shown);
  turn->is_change = rolgunai_is_change(reply);
  rolgunai_outbox_put(outbox, turn);
}

#ifdef __cplusplus
}
#endif
#endif

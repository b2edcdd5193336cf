/* What turns.c and sending.c share: the type Turns, one call at a time of Python's functions, and what is sent in the
 * order of the calls. All fields are guarded by the GIL: nothing runs between a look at one and what is done then. */
#ifndef ROLGUNAI_TURNS_H
#define ROLGUNAI_TURNS_H
#include "native.h"

/* An exception that was caught; all NULL is none. */
typedef struct {
  PyObject *type, *value, *trace;
} caught;

/* What a call sends, whose thread waits until it is out. It lies on that thread's stack. */
typedef struct batch {
  unsigned long thread;
  size_t left;              /* that isn't sent yet */
  caught error;             /* that the sending raised */
  PyThread_type_lock woken; /* NULL until the thread waits; given back by who has sent what comes before */
  int is_waiting;
  struct batch *next;       /* of those that wait */
} batch;

/* A function that sends, which is called in its turn: by the thread of its batch, by one that has to send after it, or,
 * where nobody waits for it (NULL), by whichever sends just before. */
typedef struct outgoing {
  PyObject *f, *arguments;
  batch *of;
  struct outgoing *next;
} outgoing;

typedef struct {
  PyObject_HEAD
  PyThread_type_lock lock;
  unsigned long owner;      /* the thread whose call is under way; 0 where none is */
  batch *sends;             /* what that call sends, or NULL where nobody waits for it */
  PyObject *waiting;        /* a list: the calls that come right after it, under the lock; tuples (f, arguments) */
  PyObject *afterwards;     /* a list, or NULL: those that the same thread makes once it has given the lock back */
  PyObject *on_error;       /* is told the exception that a call raised which nobody waits for */
  unsigned long sender;     /* the thread that sends; 0 where none does. It has no lock */
  outgoing *sending;        /* what it sends just now */
  PyObject *after_sending;  /* a list, or NULL: the calls that it makes once it has stopped */
  outgoing *first, *last;   /* what is to be sent, in the order of the calls */
  batch *waiters;
  unsigned long main_thread; /* which alone is interrupted, and so sends nothing that another one waits for */
} turns;

/* turns.c: keeps the exception that is set, or shows it where another one is kept. */
void catch(caught *into);
/* Puts a call into a list, which may be made for it: 0, or -1 with an exception. */
int add_call(PyObject **list, PyObject *f, PyObject *arguments);
/* What a call raised that nobody waits for: an Exception is for `on_error`, by this list of calls that are made without
 * the lock; any other, as KeyboardInterrupt, is raised in this thread. */
void failed(turns *self, PyObject **afterwards, caught *interrupt);
/* Makes the calls of a list, which may be NULL and is taken over. */
void make_each(PyObject *calls, caught *interrupt);
/* Makes those that wait for the lock, where no other thread has it, which makes them else. */
void make_waiting(turns *self, caught *interrupt);

/* sending.c: 0, or -1 with an exception. */
int put_outgoing(turns *self, PyObject *f, PyObject *arguments);
/* Sends what this thread waits for, and what nobody does. */
void send_each(turns *self, batch *mine);
int traverse_outgoing(turns *self, visitproc visit, void *arg);
void end_outgoing(turns *self);

#endif

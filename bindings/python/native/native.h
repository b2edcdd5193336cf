/* What the files of the extension module share. It takes nothing of CPython but its stable ABI, so that one binary
 * serves each version from 3.11 on: of that version is the buffer protocol in it. */
#ifndef ROLGUNAI_NATIVE_H
#define ROLGUNAI_NATIVE_H
#define Py_LIMITED_API 0x030B0000
#define PY_SSIZE_T_CLEAN
#include <Python.h>
#include <sched.h>
#include <stdlib.h>
#include <string.h>

#include "rolgunai_client.h"

/* The GIL is let go for what takes some 5 milliseconds: the copies of 16 MiB, or the reading or writing of a 64th of
 * it in JSON. After that time (sys.setswitchinterval) Python itself has threads take turns. For less it is kept, since
 * whoever lets it go may wait as long until a thread that computes gives it back: beside one, a call with 4 MiB that
 * let it go took 7 ms in place of 1. */
enum { LONG_WORK = 1 << 24, WORK_OF_JSON = 64 };

/* Up to FRAME_ROOM a buffer is asked for in one call, with a copy more; a longer one needs a call for its size. JSON,
 * which the library writes anew each time, has a room that grows up to TEXT_ROOM, so that it's written once. */
enum { FRAME_ROOM = 4096, TEXT_ROOM = LONG_WORK / WORK_OF_JSON };

/* How many lists and dicts may stand in one another, whatever sys.setrecursionlimit says: C's stack doesn't grow by
 * it. */
enum { MOST_LEVELS = 1000 };

/* The numbers of sent messages' types, and of the keys of a frontend's, in module_state. */
enum { TYPES = 4 };
enum { OF_CONTENT, OF_DATA, OF_METHOD, OF_COMM_ID, OF_STATE, OF_SYNC_DATA, OF_BUFFERS, OF_PATHS, OF_KEYS, WORDS };

/* What rolgunai/_types.py has, and constants. */
typedef struct {
  PyObject *outcome, *sent;     /* classes */
  PyObject *thread_local;       /* the class threading.local */
  PyObject *seat_type;          /* rolgunai._native._Seat */
  PyObject *watch_type;         /* rolgunai._native.Watch */
  PyObject *known_traits;       /* a dict: the classes whose traits are read past their descriptors */
  PyObject *trait_values;       /* "_trait_values" */
  PyObject *replies, *reasons;  /* tuples: the members of Reply and Reason by their numbers */
  PyObject *error;              /* makes the exception of a status */
  PyObject *not_finite;         /* the exception for a number that JSON hasn't */
  PyObject *types[TYPES];       /* "comm_open" and the like */
  PyObject *words[WORDS];       /* "content" and the like */
  PyObject *empty, *nothing;    /* b"{}" and () */
  PyObject *seat;               /* "seat" */
} module_state;

/* Whose last result is read, a handle's or a client's, and what it is read into. */
typedef struct {
  const module_state *state;
  rolgunai_handle *handle; /* NULL where it is a client's */
  rolgunai_client *client;
  uint8_t *room;
  size_t room_size;
  PyObject *comm_id, *target; /* the last of each, or NULL: the next call is mostly about the same */
} source;

/* A client of a manager that threads share, which one thread has until it ends. */
typedef struct seat {
  rolgunai_client client;
  source from;
  int has_called;       /* since the thread has it */
  int is_inside;        /* a call of it is under way, which may have let the GIL go */
  unsigned long thread; /* whose the last result is */
  struct seat *next;    /* of the spare ones */
} seat;

/* What they share. Where `gate` isn't named it is guarded by the GIL. */
typedef struct {
  size_t holders;          /* the manager, and the threads that have a seat; it ends with the last */
  PyThread_type_lock gate; /* over what enters: each change, and the making of a client; and over the first seat */
  seat *first;             /* from which others are made, and which those threads use that find none left */
  seat *spare;             /* that no thread has */
  int is_full;             /* the library makes no more */
  uint64_t latest;         /* the last change that a thread was told of */
  unsigned long thread;    /* that asked for its seat last, and the seat, or NULL */
  seat *seat_of_it;
} shared;

/* A text that was handed in, which stays as it is until text_end: of bytes and str the text itself, else a copy. */
typedef struct {
  const uint8_t *bytes;
  size_t size;
  PyObject *owner;
} text;

enum { FEW_FRAMES = 4 };

/* The binary buffers that were handed in, where they lie; of one whose bytes don't stand together a copy. */
typedef struct {
  rolgunai_frame *list;
  size_t size; /* of all together */
  size_t count, views_held;
  Py_buffer *views;
  rolgunai_frame few[FEW_FRAMES];
  Py_buffer few_views[FEW_FRAMES];
} frames;

/* arguments.c: each gives 0, or -1 with an exception. What was read has to be ended, also after -1 of read_frames. */
int read_text(PyObject *object, text *into);
void text_end(text *read);
int read_frames(PyObject *object, frames *into);
void frames_end(frames *read);
int read_number(PyObject *object, uint32_t *into);
int read_limits(PyObject *arguments, PyObject *names, const char *format, size_t *comms, int *decimals);

enum call { MESSAGE, REGISTER, UNREGISTER, LAUNCH, PUSH, SEND, CLOSE, STATE };
enum { MOST_TEXTS = 4 };

/* What a call was handed. */
typedef struct {
  enum call call;
  uint32_t client, kind;
  text texts[MOST_TEXTS];
  size_t text_count;
  frames buffers;
} request;

/* requests.c: 0, or -1 with an exception; what was read has to be ended, also then. `is_numbered` says whether the call
 * takes the number of a client, as a handle's does. */
int read_request(enum call call, int is_numbered, PyObject *const *arguments, Py_ssize_t count, PyObject *names,
                 request *into);
void request_end(request *of);

/* Lets the GIL go where a request takes long, and gives what takes it again. */
PyThreadState *let_go_for(const request *of);
void take_back(PyThreadState *let_go);

enum { FEW_PARTS = 32 };

/* The parts of an outcome in a row: of the reply its comm's id, its target, content and buffers, then an end (NULL); of
 * each message its type, id, content, metadata and buffers, then an end. There are no tuples yet: to make one may run
 * the garbage collector, and so a `__del__` that makes the next call, amid the parts of this one. */
typedef struct {
  uint32_t reply, reason;
  uint64_t index;
  PyObject **items;
  size_t count, next, room;
  PyObject *few[FEW_PARTS];
} gathered;

/* gather.c: gathers what the last call came to, where it was made (ROLGUNAI_OK), while nobody else calls by the handle
 * or the client; `gather_nothing` is for where there was none. What was gathered has to be ended. */
uint32_t gather(source *from, uint32_t status, uint32_t reply, size_t sent, gathered *into);
void gather_nothing(gathered *into);
void gathered_end(gathered *of);
uint32_t gather_text(source *from, uint32_t status, size_t size, PyObject **into);
uint32_t gather_target(source *from, PyObject **into);
int give_room(source *of, size_t size);
void source_end(source *of);

/* outcome.c: makes the Outcome of what was gathered, and ends that; or raises the exception of the status. */
PyObject *made_outcome(const module_state *state, uint32_t status, gathered *from);

/* json.c, values.c, updates.c, traits.c: functions of the module. */
PyObject *call_write(PyObject *module, PyObject *const *arguments, Py_ssize_t count);
PyObject *call_write_update(PyObject *module, PyObject *const *arguments, Py_ssize_t count);
PyObject *call_copied(PyObject *module, PyObject *value);
PyObject *call_placed(PyObject *module, PyObject *const *arguments, Py_ssize_t count);
PyObject *call_know_traits(PyObject *module, PyObject *const *arguments, Py_ssize_t count);
PyObject *call_trait(PyObject *module, PyObject *const *arguments, Py_ssize_t count);
PyObject *call_read_update(PyObject *module, PyObject *const *arguments, Py_ssize_t count);
PyObject *call_write_said(PyObject *module, PyObject *const *arguments, Py_ssize_t count);
int make_words(PyObject **into);

/* seats.c. The seat of this thread, as its threading.local has it, or NULL where there are no more: 0, or -1 with an
 * exception. With the gate held, `keep_spare` sees to it that a new thread finds one without the gate. */
shared *new_shared(const module_state *state);
void shared_let_go(shared *of);
int seat_of_thread(shared *of, PyObject *local, seat **into);
void keep_spare(shared *of);

/* outcome.c: the exception of a status, and NULL. */
PyObject *raised(const module_state *state, uint32_t status);

/* Takes a lock, and lets the GIL go where it has to wait. Whoever holds it runs no code of Python's: nothing is made
 * that the garbage collector watches, and nothing is let go of. So it is never asked for again by who holds it, and
 * whoever does waits for nobody who waits for it. */
void take_lock(PyThread_type_lock lock);

/* The types. */
extern PyType_Spec manager_type, shared_type, seat_type, turns_type, long_buffers_type, event_pipe_type, watch_type,
    watches_type;

/* module.c: the state of the module that a type is of, or NULL with an exception. */
PyObject *module_of(PyTypeObject *type);

#endif

/* The type SharedManager: each thread's calls go by a client of its own, changes one at a time, reads at any time. */
#include "native.h"

enum { MOST_TRIES = 1000 };

typedef struct {
  PyObject_HEAD
  PyObject *module;
  PyObject *local; /* a threading.local, which has each thread's seat */
  const module_state *state;
  shared *of;
} shared_manager;

/* Who makes a call: the thread's own seat, or, where there is none for it, the first one, with the gate held until what
 * it came to is gathered. */
typedef struct {
  shared *of;
  seat *by;
  int is_first;
} caller;

static int find_caller(PyObject *object, caller *into) {
  shared_manager *self = (shared_manager *)object;
  into->of = self->of;
  if (seat_of_thread(self->of, self->local, &into->by) < 0) return -1;
  into->is_first = !into->by;
  if (into->is_first) {
    into->by = self->of->first;
    take_lock(self->of->gate);
  }
  return 0;
}

static void caller_end(const caller *who) {
  if (who->is_first) PyThread_release_lock(who->of->gate);
}

/* A call was made by the seat: its result is this thread's. */
static uint32_t called(const caller *who, uint32_t status) {
  if (status != ROLGUNAI_OK) return status;
  who->by->has_called = 1;
  who->by->thread = PyThread_get_thread_ident();
  return status;
}

static PyObject *gathered_outcome(const caller *who, uint32_t status, uint32_t reply, size_t sent) {
  gathered parts;
  status = gather(&who->by->from, called(who, status), reply, sent, &parts);
  caller_end(who);
  return made_outcome(who->of->first->from.state, status, &parts);
}

/* ---- Changes. */

static uint32_t played(rolgunai_client *client, const request *of, uint32_t *reply, size_t *sent) {
  const text *t = of->texts;
  const frames *b = &of->buffers;
  switch (of->call) {
    case MESSAGE:
      return rolgunai_client_handle_frames(client, t[0].bytes, t[0].size, t[1].bytes, t[1].size, t[2].bytes, t[2].size,
                                           b->list, b->count, reply, sent);
    case REGISTER: return rolgunai_client_register(client, of->kind, t[0].bytes, t[0].size, reply, sent);
    case UNREGISTER: return rolgunai_client_unregister(client, t[0].bytes, t[0].size, reply, sent);
    case LAUNCH:
      return rolgunai_client_launch_frames(client, t[0].bytes, t[0].size, t[1].bytes, t[1].size, t[2].bytes, t[2].size,
                                           t[3].bytes, t[3].size, b->list, b->count, reply, sent);
    case PUSH:
      return rolgunai_client_push_frames(client, t[0].bytes, t[0].size, t[1].bytes, t[1].size, t[2].bytes, t[2].size,
                                         b->list, b->count, reply, sent);
    case SEND:
      return rolgunai_client_send_frames(client, t[0].bytes, t[0].size, t[1].bytes, t[1].size, b->list, b->count,
                                         reply, sent);
    case CLOSE: return rolgunai_client_close(client, t[0].bytes, t[0].size, reply, sent);
    case STATE: break;
  }
  return ROLGUNAI_CLOSED;
}

/* Makes a change alone, and notes how many there are. */
static uint32_t changed(const caller *who, const request *asked, uint32_t *reply, size_t *sent) {
  shared *of = who->of;
  uint64_t seen = 0;
  uint32_t shown;
  if (!who->is_first) take_lock(of->gate);
  PyThreadState *let_go = let_go_for(asked);
  who->by->is_inside = 1;
  uint32_t status = played(&who->by->client, asked, reply, sent);
  take_back(let_go);
  who->by->is_inside = 0;
  if (status == ROLGUNAI_OK) rolgunai_client_seen(&who->by->client, &seen, &shown);
  if (seen > of->latest) of->latest = seen;
  keep_spare(of);
  if (!who->is_first) PyThread_release_lock(of->gate);
  return status;
}

static PyObject *change(PyObject *object, enum call call, PyObject *const *arguments, Py_ssize_t count,
                        PyObject *names) {
  PyObject *outcome = NULL;
  request asked;
  caller who;
  if (read_request(call, 0, arguments, count, names, &asked) == 0 && find_caller(object, &who) == 0) {
    uint32_t reply = 0;
    size_t sent = 0;
    uint32_t status = changed(&who, &asked, &reply, &sent);
    outcome = gathered_outcome(&who, status, reply, sent);
  }
  request_end(&asked);
  return outcome;
}

/* A `comm_msg` of a frontend. Most are just delivered, of which there is nothing to tell. */
static PyObject *hear(PyObject *object, PyObject *const *given, Py_ssize_t count) {
  static const char header[] = "{\"msg_type\":\"comm_msg\"}";
  const text type = {(const uint8_t *)header, sizeof header - 1, NULL}, no_metadata = {(const uint8_t *)"{}", 2, NULL};
  request asked = {.call = MESSAGE, .texts = {type, no_metadata}, .text_count = 3};
  PyObject *outcome = NULL;
  caller who;
  read_frames(NULL, &asked.buffers);
  if (read_text(given[0], &asked.texts[2]) == 0 && read_frames(count > 1 ? given[1] : NULL, &asked.buffers) == 0
      && find_caller(object, &who) == 0) {
    uint32_t reply = 0;
    size_t sent = 0;
    uint32_t status = changed(&who, &asked, &reply, &sent);
    if (status == ROLGUNAI_OK && reply == ROLGUNAI_REPLY_DELIVERED && !sent) {
      called(&who, status);
      caller_end(&who);
      outcome = Py_NewRef(Py_None);
    } else outcome = gathered_outcome(&who, status, reply, sent);
  }
  request_end(&asked);
  return outcome;
}

static PyObject *call_hear(PyObject *self, PyObject *const *given, Py_ssize_t count) {
  if (count == 1 || count == 2) return hear(self, given, count);
  PyErr_Format(PyExc_TypeError, "hear() takes 1 or 2 positional arguments (%zd given)", count);
  return NULL;
}

#define CHANGE(function, number)                                                                                  \
  static PyObject *function(PyObject *self, PyObject *const *arguments, Py_ssize_t count, PyObject *names) {     \
    return change(self, number, arguments, count, names);                                                        \
  }
CHANGE(call_message, MESSAGE)
CHANGE(call_register, REGISTER)
CHANGE(call_unregister, UNREGISTER)
CHANGE(call_launch, LAUNCH)
CHANGE(call_push, PUSH)
CHANGE(call_send, SEND)
CHANGE(call_close, CLOSE)
#undef CHANGE

/* ---- Reads. */

enum what { THE_STATE, THE_TARGET, ALL_INFOS, INFOS_OF_TARGET };

static uint32_t read_once(const caller *who, enum what what, const text *name, uint32_t *reply, size_t *sent) {
  rolgunai_client *client = &who->by->client;
  uint64_t since = who->of->latest;
  switch (what) {
    case THE_STATE: return rolgunai_client_state(client, since, name->bytes, name->size, reply, sent);
    case THE_TARGET: return rolgunai_client_target(client, since, name->bytes, name->size, reply, sent);
    case ALL_INFOS: return rolgunai_client_infos(client, since, reply, sent);
    case INFOS_OF_TARGET: return rolgunai_client_infos_of(client, since, name->bytes, name->size, reply, sent);
  }
  return ROLGUNAI_CLOSED;
}

/* Shows readers the last change; where they are still in every place for it, they are let go on. */
static void show(const caller *who) {
  uint32_t shown = 0;
  if (!who->is_first) take_lock(who->of->gate);
  rolgunai_client_show(&who->by->client, &shown);
  if (!who->is_first) PyThread_release_lock(who->of->gate);
  if (shown) return;
  PyThreadState *let_go = PyEval_SaveThread();
  sched_yield();
  PyEval_RestoreThread(let_go);
}

/* Reads what comes after all changes that anybody was told of. It takes no lock, but where the last change isn't shown
 * yet. */
static uint32_t read_by(const caller *who, enum what what, const text *name, uint32_t *reply, size_t *sent) {
  uint32_t status = read_once(who, what, name, reply, sent);
  for (int tries = 1; status == ROLGUNAI_AGAIN && tries < MOST_TRIES; tries++) {
    show(who);
    status = read_once(who, what, name, reply, sent);
  }
  return status;
}

static PyObject *read_outcome(PyObject *self, enum what what, const text *name) {
  uint32_t reply = 0;
  size_t sent = 0;
  caller who;
  if (find_caller(self, &who) < 0) return NULL;
  uint32_t status = read_by(&who, what, name, &reply, &sent);
  return gathered_outcome(&who, status, reply, sent);
}

static PyObject *call_state(PyObject *self, PyObject *const *arguments, Py_ssize_t count, PyObject *names) {
  request asked;
  int status = read_request(STATE, 0, arguments, count, names, &asked);
  PyObject *outcome = status == 0 ? read_outcome(self, THE_STATE, &asked.texts[0]) : NULL;
  request_end(&asked);
  return outcome;
}

static PyObject *call_infos(PyObject *self, PyObject *const *given, Py_ssize_t count) {
  text name = {NULL, 0, NULL};
  if (count > 1) {
    PyErr_Format(PyExc_TypeError, "infos() takes at most 1 argument (%zd given)", count);
    return NULL;
  }
  if (!count || given[0] == Py_None) return read_outcome(self, ALL_INFOS, NULL);
  PyObject *outcome = read_text(given[0], &name) == 0 ? read_outcome(self, INFOS_OF_TARGET, &name) : NULL;
  text_end(&name);
  return outcome;
}

static PyObject *target_of(PyObject *self, const text *comm_id) {
  uint32_t reply = 0;
  size_t sent = 0;
  caller who;
  PyObject *target = NULL;
  if (find_caller(self, &who) < 0) return NULL;
  uint32_t status = called(&who, read_by(&who, THE_TARGET, comm_id, &reply, &sent));
  int is_open = status == ROLGUNAI_OK && reply == ROLGUNAI_REPLY_TARGET;
  if (is_open) status = gather_target(&who.by->from, &target);
  caller_end(&who);
  if (status != ROLGUNAI_OK) return raised(who.of->first->from.state, status);
  return is_open ? target : Py_NewRef(Py_None);
}

static PyObject *call_target(PyObject *self, PyObject *argument) {
  text comm_id;
  PyObject *target = read_text(argument, &comm_id) == 0 ? target_of(self, &comm_id) : NULL;
  text_end(&comm_id);
  return target;
}

static PyObject *call_seen(PyObject *self, PyObject *none) {
  uint64_t seen = 0;
  uint32_t shown;
  caller who;
  (void)none;
  if (find_caller(self, &who) < 0) return NULL;
  uint32_t status = rolgunai_client_seen(&who.by->client, &seen, &shown);
  caller_end(&who);
  if (status != ROLGUNAI_OK) return raised(who.of->first->from.state, status);
  return PyLong_FromUnsignedLongLong(seen);
}

/* What the thread's last call came to, again. Of the first seat it may be another thread's by now. */
static PyObject *call_outcome(PyObject *self, PyObject *none) {
  uint32_t reply = 0;
  size_t sent = 0;
  caller who;
  gathered parts;
  (void)none;
  if (find_caller(self, &who) < 0) return NULL;
  const seat *by = who.by;
  if (by->has_called && (!who.is_first || by->thread == PyThread_get_thread_ident())) {
    uint32_t status = rolgunai_client_last_result(&who.by->client, &reply, &sent);
    return gathered_outcome(&who, status, reply, sent);
  }
  uint32_t status = by->has_called ? ROLGUNAI_NO_TEXT : ROLGUNAI_OK;
  gather_nothing(&parts);
  caller_end(&who);
  return made_outcome(who.of->first->from.state, status, &parts);
}

/* ---- Its making and its end. */

static PyObject *new_manager(PyTypeObject *type, PyObject *arguments, PyObject *names) {
  (void)arguments, (void)names;
  PyObject *module = module_of(type);
  if (!module) return NULL;
  allocfunc allocate = (allocfunc)PyType_GetSlot(type, Py_tp_alloc);
  shared_manager *self = (shared_manager *)allocate(type, 0);
  if (!self) return NULL;
  self->module = Py_NewRef(module);
  self->state = PyModule_GetState(module);
  self->of = new_shared(self->state);
  self->local = self->of ? PyObject_CallNoArgs(self->state->thread_local) : PyErr_NoMemory();
  if (self->local) return (PyObject *)self;
  Py_DECREF(self);
  return NULL;
}

static int make_manager(PyObject *object, PyObject *arguments, PyObject *names) {
  shared_manager *self = (shared_manager *)object;
  rolgunai_client *client = &self->of->first->client;
  size_t comms;
  int decimals;
  if (read_limits(arguments, names, "|$Op:SharedManager", &comms, &decimals) < 0) return -1;
  take_lock(self->of->gate);
  uint32_t status =
      decimals ? rolgunai_open_shared_with_decimals(client, comms) : rolgunai_open_shared(client, comms);
  PyThread_release_lock(self->of->gate);
  if (status == ROLGUNAI_OK) return 0;
  raised(self->state, status);
  return -1;
}

static int traverse_manager(PyObject *object, visitproc visit, void *arg) {
  shared_manager *self = (shared_manager *)object;
  Py_VISIT(Py_TYPE(object));
  Py_VISIT(self->module);
  Py_VISIT(self->local);
  return 0;
}

static void end_manager(PyObject *object) {
  shared_manager *self = (shared_manager *)object;
  PyTypeObject *type = Py_TYPE(object);
  PyObject_GC_UnTrack(object);
  Py_CLEAR(self->local); /* and with it each thread's seat */
  if (self->of) shared_let_go(self->of);
  Py_XDECREF(self->module);
  freefunc release = (freefunc)PyType_GetSlot(type, Py_tp_free);
  release(object);
  Py_DECREF(type);
}

#define WITH_NAMES(function) (PyCFunction)(void (*)(void))function, METH_FASTCALL | METH_KEYWORDS
static PyMethodDef methods[] = {
    {"message", WITH_NAMES(call_message),
     "message($self, header, metadata, content, buffers=())\n--\n\nAs Manager.message."},
    {"hear", (PyCFunction)(void (*)(void))call_hear, METH_FASTCALL,
     "hear($self, content, buffers=(), /)\n--\n\n"
     "As message of a `comm_msg` with this content, but None where that is DELIVERED and nothing is sent."},
    {"register", WITH_NAMES(call_register), "register($self, kind, name)\n--\n\nAs Manager.register."},
    {"unregister", WITH_NAMES(call_unregister), "unregister($self, name)\n--\n\nAs Manager.unregister."},
    {"launch", WITH_NAMES(call_launch),
     "launch($self, target, uuid, state, paths=b'[]', buffers=())\n--\n\nAs Manager.launch."},
    {"push", WITH_NAMES(call_push), "push($self, comm_id, state, paths=b'[]', buffers=())\n--\n\nAs Manager.push."},
    {"send", WITH_NAMES(call_send), "send($self, comm_id, data, buffers=())\n--\n\nAs Manager.send."},
    {"close", WITH_NAMES(call_close), "close($self, comm_id)\n--\n\nAs Manager.close."},
    {"state", WITH_NAMES(call_state), "state($self, comm_id)\n--\n\nReads a widget's state, as Manager.state."},
    {"target", call_target, METH_O,
     "target($self, comm_id, /)\n--\n\nReads the name of a comm's target; None where no comm of this id is open."},
    {"infos", (PyCFunction)(void (*)(void))call_infos, METH_FASTCALL,
     "infos($self, target=None, /)\n--\n\nReads which comms are open, all or those of a target: a `comm_info_reply`."},
    {"seen", call_seen, METH_NOARGS,
     "seen($self, /)\n--\n\nHow many changes this thread's calls come after: right after a change its own number."},
    {"outcome", call_outcome, METH_NOARGS, "outcome($self, /)\n--\n\nWhat this thread's last call came to, again."},
    {NULL, NULL, 0, NULL},
};

static const char documentation[] =
    "SharedManager(*, comms=4096, decimals=False)\n--\n\n"
    "A comm manager whose calls threads make at once. Changes (message, register, unregister, launch, push, send,\n"
    "close) are made one at a time, and have numbers, from 1: what one thread was answered another one sees. Reads\n"
    "(state, target, infos) wait for nobody, and come after each change that any thread was answered before.\n\n"
    "Each thread has a client of its own, until it ends. There are 256: threads beyond wait for each other's calls.\n"
    "It ends with its last reference, or with that of a thread's call.";

static PyType_Slot slots[] = {
    {Py_tp_new, new_manager},           {Py_tp_init, make_manager}, {Py_tp_dealloc, end_manager},
    {Py_tp_traverse, traverse_manager}, {Py_tp_methods, methods},   {Py_tp_doc, (void *)documentation},
    {0, NULL},
};

PyType_Spec shared_type = {
    .name = "rolgunai.SharedManager",
    .basicsize = sizeof(shared_manager),
    .flags = Py_TPFLAGS_DEFAULT | Py_TPFLAGS_BASETYPE | Py_TPFLAGS_HAVE_GC,
    .slots = slots,
};

/* The type Manager: one call plays, gathers what came of it and gives it as objects. */
#include "native.h"

typedef struct {
  PyObject_HEAD
  PyObject *module; /* which the state in `from` is of */
  PyThread_type_lock lock; /* held by who uses what follows, also while it has let the GIL go */
  rolgunai_handle handle;
  source from;
} manager;

void take_lock(PyThread_type_lock lock) {
  if (PyThread_acquire_lock(lock, NOWAIT_LOCK)) return;
  PyThreadState *let_go = PyEval_SaveThread();
  PyThread_acquire_lock(lock, WAIT_LOCK);
  PyEval_RestoreThread(let_go);
}

static uint32_t played(rolgunai_handle *handle, const request *of, uint32_t *reply, size_t *sent) {
  const text *t = of->texts;
  const frames *b = &of->buffers;
  switch (of->call) {
    case MESSAGE:
      return rolgunai_handle_frames(handle, of->client, t[0].bytes, t[0].size, t[1].bytes, t[1].size, t[2].bytes,
                                    t[2].size, b->list, b->count, reply, sent);
    case REGISTER: return rolgunai_register(handle, of->client, of->kind, t[0].bytes, t[0].size, reply, sent);
    case UNREGISTER: return rolgunai_unregister(handle, of->client, t[0].bytes, t[0].size, reply, sent);
    case LAUNCH:
      return rolgunai_launch_frames(handle, of->client, t[0].bytes, t[0].size, t[1].bytes, t[1].size, t[2].bytes,
                                    t[2].size, t[3].bytes, t[3].size, b->list, b->count, reply, sent);
    case PUSH:
      return rolgunai_push_frames(handle, of->client, t[0].bytes, t[0].size, t[1].bytes, t[1].size, t[2].bytes,
                                  t[2].size, b->list, b->count, reply, sent);
    case SEND:
      return rolgunai_send_frames(handle, of->client, t[0].bytes, t[0].size, t[1].bytes, t[1].size, b->list, b->count,
                                  reply, sent);
    case CLOSE: return rolgunai_close(handle, of->client, t[0].bytes, t[0].size, reply, sent);
    case STATE: return rolgunai_state(handle, t[0].bytes, t[0].size, reply, sent);
  }
  return ROLGUNAI_CLOSED;
}

/* Gathers what the call came to, with the lock held; gives the lock back; and makes the Outcome. */
static PyObject *finished(manager *self, uint32_t status, uint32_t reply, size_t sent) {
  gathered parts;
  status = gather(&self->from, status, reply, sent, &parts);
  PyThread_release_lock(self->lock);
  return made_outcome(self->from.state, status, &parts);
}

static PyObject *ask(PyObject *object, enum call call, PyObject *const *arguments, Py_ssize_t count, PyObject *names) {
  manager *self = (manager *)object;
  PyObject *outcome = NULL;
  request asked;
  if (read_request(call, 1, arguments, count, names, &asked) == 0) {
    uint32_t reply = 0;
    size_t sent = 0;
    take_lock(self->lock);
    PyThreadState *let_go = let_go_for(&asked);
    uint32_t status = played(&self->handle, &asked, &reply, &sent);
    take_back(let_go);
    outcome = finished(self, status, reply, sent);
  }
  request_end(&asked);
  return outcome;
}

#define CALL(function, number)                                                                                    \
  static PyObject *function(PyObject *self, PyObject *const *arguments, Py_ssize_t count, PyObject *names) {     \
    return ask(self, number, arguments, count, names);                                                           \
  }
CALL(call_message, MESSAGE)
CALL(call_register, REGISTER)
CALL(call_unregister, UNREGISTER)
CALL(call_launch, LAUNCH)
CALL(call_push, PUSH)
CALL(call_send, SEND)
CALL(call_close, CLOSE)
CALL(call_state, STATE)
#undef CALL

static PyObject *call_outcome(PyObject *object, PyObject *none) {
  (void)none;
  manager *self = (manager *)object;
  uint32_t reply = 0;
  size_t sent = 0;
  take_lock(self->lock);
  uint32_t status = rolgunai_last_result(&self->handle, &reply, &sent);
  return finished(self, status, reply, sent);
}

static PyObject *given_text(manager *self, uint32_t status, size_t size) {
  PyObject *made = NULL;
  status = gather_text(&self->from, status, size, &made);
  PyThread_release_lock(self->lock);
  return status == ROLGUNAI_OK ? made : raised(self->from.state, status);
}

static PyObject *call_line(PyObject *object, PyObject *argument) {
  manager *self = (manager *)object;
  text line;
  size_t size = 0;
  if (read_text(argument, &line) < 0) {
    text_end(&line);
    return NULL;
  }
  take_lock(self->lock);
  PyThreadState *let_go = line.size >= LONG_WORK / WORK_OF_JSON ? PyEval_SaveThread() : NULL;
  uint32_t status =
      rolgunai_play_line(&self->handle, line.bytes, line.size, self->from.room, self->from.room_size, &size);
  if (let_go) PyEval_RestoreThread(let_go);
  PyObject *said = given_text(self, status, size);
  text_end(&line);
  return said;
}

static PyObject *call_text(PyObject *object, PyObject *none) {
  (void)none;
  manager *self = (manager *)object;
  size_t size = 0;
  take_lock(self->lock);
  uint32_t status = rolgunai_copy_last_text(&self->handle, self->from.room, self->from.room_size, &size);
  return given_text(self, status, size);
}

static uint32_t ended(manager *self) {
  take_lock(self->lock);
  uint32_t status = rolgunai_free(&self->handle);
  PyThread_release_lock(self->lock);
  return status;
}

static PyObject *call_end(PyObject *object, PyObject *none) {
  (void)none;
  manager *self = (manager *)object;
  uint32_t status = ended(self);
  return status == ROLGUNAI_OK ? Py_NewRef(Py_None) : raised(self->from.state, status);
}

static PyObject *call_enter(PyObject *self, PyObject *none) {
  (void)none;
  return Py_NewRef(self);
}

static PyObject *call_exit(PyObject *self, PyObject *arguments) {
  (void)arguments;
  ended((manager *)self);
  return Py_NewRef(Py_None);
}

/* ---- Its making and its end. */

static PyObject *new_manager(PyTypeObject *type, PyObject *arguments, PyObject *names) {
  (void)arguments, (void)names;
  PyObject *module = module_of(type);
  if (!module) return NULL;
  allocfunc allocate = (allocfunc)PyType_GetSlot(type, Py_tp_alloc);
  manager *self = (manager *)allocate(type, 0);
  if (!self) return NULL;
  self->module = Py_NewRef(module);
  self->from.state = PyModule_GetState(module);
  self->from.handle = &self->handle;
  self->lock = PyThread_allocate_lock();
  if (self->lock && give_room(&self->from, FRAME_ROOM) == 0) return (PyObject *)self;
  Py_DECREF(self);
  return PyErr_NoMemory();
}

static int make_manager(PyObject *object, PyObject *arguments, PyObject *names) {
  manager *self = (manager *)object;
  size_t comms;
  int decimals;
  if (read_limits(arguments, names, "|$Op:Manager", &comms, &decimals) < 0) return -1;
  take_lock(self->lock);
  uint32_t status =
      decimals ? rolgunai_new_with_decimals(&self->handle, comms) : rolgunai_new(&self->handle, comms);
  PyThread_release_lock(self->lock);
  if (status == ROLGUNAI_OK) return 0;
  raised(self->from.state, status);
  return -1;
}

static int traverse_manager(PyObject *object, visitproc visit, void *arg) {
  manager *self = (manager *)object;
  Py_VISIT(Py_TYPE(object));
  Py_VISIT(self->module);
  return 0;
}

static void end_manager(PyObject *object) {
  manager *self = (manager *)object;
  PyTypeObject *type = Py_TYPE(object);
  PyObject_GC_UnTrack(object);
  rolgunai_free(&self->handle);
  if (self->lock) PyThread_free_lock(self->lock);
  source_end(&self->from);
  Py_XDECREF(self->module);
  freefunc release = (freefunc)PyType_GetSlot(type, Py_tp_free);
  release(object);
  Py_DECREF(type);
}

#define WITH_NAMES(function) (PyCFunction)(void (*)(void))function, METH_FASTCALL | METH_KEYWORDS
static PyMethodDef methods[] = {
    {"message", WITH_NAMES(call_message),
     "message($self, header, metadata, content, buffers=(), *, client=0)\n--\n\n"
     "Plays a message of a frontend by its parts: JSON texts, each `{}` where there is nothing to say, and buffers."},
    {"register", WITH_NAMES(call_register),
     "register($self, kind, name, *, client=0)\n--\n\n"
     "Registers a new target of a kind. One that has the name is replaced, and its comms are closed."},
    {"unregister", WITH_NAMES(call_unregister),
     "unregister($self, name, *, client=0)\n--\n\nTakes a target out: its comms are closed, then it ends."},
    {"launch", WITH_NAMES(call_launch),
     "launch($self, target, uuid, state, paths=b'[]', buffers=(), *, client=0)\n--\n\n"
     "Opens a widget of the kernel with its state, a JSON object, and the buffers at the paths, a JSON list of lists."},
    {"push", WITH_NAMES(call_push),
     "push($self, comm_id, state, paths=b'[]', buffers=(), *, client=0)\n--\n\n"
     "Changes these keys of a widget's state, and sends an `update` with just them."},
    {"send", WITH_NAMES(call_send),
     "send($self, comm_id, data, buffers=(), *, client=0)\n--\n\n"
     "Sends a `comm_msg` with this data, a JSON object, past the comm's target."},
    {"close", WITH_NAMES(call_close),
     "close($self, comm_id, *, client=0)\n--\n\nCloses a comm, and sends a `comm_close`."},
    {"state", WITH_NAMES(call_state), "state($self, comm_id)\n--\n\nReads a widget's state."},
    {"line", call_line, METH_O,
     "line($self, line, /)\n--\n\n"
     "Plays a line of a script (docs/FORMATS.md), and gives the lines of its answer, which may be none."},
    {"outcome", call_outcome, METH_NOARGS,
     "outcome($self, /)\n--\n\nWhat the last call came to, again, also of a line."},
    {"text", call_text, METH_NOARGS,
     "text($self, /)\n--\n\nThe lines that say what the last call came to, also where it wasn't a line."},
    {"end", call_end, METH_NOARGS,
     "end($self, /)\n--\n\n"
     "Closes the comms, stops the targets, frees all memory. Every call raises ClosedError from then on."},
    {"__enter__", call_enter, METH_NOARGS, NULL},
    {"__exit__", call_exit, METH_VARARGS, NULL},
    {NULL, NULL, 0, NULL},
};

static const char documentation[] =
    "Manager(*, comms=4096, decimals=False)\n--\n\n"
    "A comm manager, of which at most `comms` comms, 1 to 1048576, are open at a time. With `decimals` each JSON\n"
    "number is a value, kept and sent as the text that came; without, one that isn't whole makes a call bad\n"
    "(NOT_WHOLE).\n\n"
    "Each call gives its Outcome. A text is a str or bytes-like, a buffer is bytes-like. Threads may share a manager:\n"
    "a call waits for the one that is under way. A `__del__` may call it at any time.";

static PyType_Slot slots[] = {
    {Py_tp_new, new_manager},           {Py_tp_init, make_manager}, {Py_tp_dealloc, end_manager},
    {Py_tp_traverse, traverse_manager}, {Py_tp_methods, methods},   {Py_tp_doc, (void *)documentation},
    {0, NULL},
};

PyType_Spec manager_type = {
    .name = "rolgunai.Manager",
    .basicsize = sizeof(manager),
    .flags = Py_TPFLAGS_DEFAULT | Py_TPFLAGS_BASETYPE | Py_TPFLAGS_HAVE_GC,
    .slots = slots,
};

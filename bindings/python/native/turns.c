/* The type Turns: one call at a time of Python's functions. The lock is taken, held and given back within one call of
 * C, so that no exception that a signal raises, which may come between any two steps of Python's, leaves it held. */
#include "turns.h"

void catch(caught *into) {
  if (into->type) { /* the first is raised again, another is shown */
    PyErr_WriteUnraisable(NULL);
    return;
  }
  PyErr_Fetch(&into->type, &into->value, &into->trace);
}

int add_call(PyObject **list, PyObject *f, PyObject *arguments) {
  PyObject *call = PyTuple_Pack(2, f, arguments);
  if (call && !*list) *list = PyList_New(0);
  int status = call && *list ? PyList_Append(*list, call) : -1;
  Py_XDECREF(call);
  return status;
}

/* Takes the first call out of a list that has one. */
static PyObject *first(PyObject *list) {
  PyObject *call = Py_XNewRef(PyList_GetItem(list, 0));
  if (call && PySequence_DelItem(list, 0) < 0) Py_CLEAR(call);
  return call;
}

static PyObject *made(PyObject *call) {
  return PyObject_Call(PyTuple_GetItem(call, 0), PyTuple_GetItem(call, 1), NULL);
}

void failed(turns *self, PyObject **afterwards, caught *interrupt) {
  if (!PyErr_ExceptionMatches(PyExc_Exception)) {
    catch(interrupt);
    return;
  }
  caught error = {NULL, NULL, NULL};
  catch(&error);
  PyErr_NormalizeException(&error.type, &error.value, &error.trace);
  if (error.trace) PyException_SetTraceback(error.value, error.trace);
  PyObject *arguments = PyTuple_Pack(1, error.value);
  if (!arguments || add_call(afterwards, self->on_error, arguments) < 0) PyErr_WriteUnraisable(self->on_error);
  Py_XDECREF(arguments);
  Py_XDECREF(error.type);
  Py_XDECREF(error.value);
  Py_XDECREF(error.trace);
}

/* Gives the lock back where no call waits. Nothing runs between the look and that, so that none is left behind. */
static PyObject *given_back(turns *self, caught *interrupt) {
  self->sends = NULL;
  while (PyList_Size(self->waiting) > 0) {
    PyObject *call = first(self->waiting), *result = call ? made(call) : NULL;
    if (!result) failed(self, &self->afterwards, interrupt);
    Py_XDECREF(result);
    Py_XDECREF(call);
  }
  PyObject *afterwards = self->afterwards;
  self->afterwards = NULL;
  self->owner = 0;
  PyThread_release_lock(self->lock);
  return afterwards;
}

void make_each(PyObject *calls, caught *interrupt) {
  for (Py_ssize_t i = 0; calls && i < PyList_Size(calls); i++) {
    PyObject *result = made(PyList_GetItem(calls, i));
    if (!result && PyErr_ExceptionMatches(PyExc_Exception)) PyErr_WriteUnraisable(NULL);
    else if (!result) catch(interrupt);
    Py_XDECREF(result);
  }
  Py_XDECREF(calls);
}

/* Makes those calls of a list later, once this thread has stopped sending. */
static void put_off(turns *self, PyObject *calls) {
  for (Py_ssize_t i = 0; calls && i < PyList_Size(calls); i++) {
    if (!self->after_sending) self->after_sending = PyList_New(0);
    if (!self->after_sending || PyList_Append(self->after_sending, PyList_GetItem(calls, i)) < 0)
      PyErr_WriteUnraisable(NULL);
  }
  Py_XDECREF(calls);
}

void make_waiting(turns *self, caught *interrupt) {
  if (PyList_Size(self->waiting) == 0 || !PyThread_acquire_lock(self->lock, NOWAIT_LOCK)) return;
  self->owner = PyThread_get_thread_ident();
  put_off(self, given_back(self, interrupt));
}

/* Makes a call under the lock, which this thread has taken, sends what comes of it, and makes what comes after it.
 * Amid what this thread sends, that is sent when its time comes, and so it is where nobody is to wait for it. */
static PyObject *turn(turns *self, PyObject *f, PyObject *arguments, int is_awaited) {
  batch mine = {.thread = PyThread_get_thread_ident()};
  int is_sending = self->sender == mine.thread;
  self->owner = mine.thread;
  self->sends = is_awaited && !is_sending ? &mine : NULL;
  PyObject *result = PyObject_Call(f, arguments, NULL);
  if (!result) catch(&mine.error);
  PyObject *afterwards = given_back(self, &mine.error);
  if (is_sending) put_off(self, afterwards);
  else {
    send_each(self, &mine);
    make_each(afterwards, &mine.error);
  }
  if (!mine.error.type) return result;
  Py_CLEAR(result);
  PyErr_Restore(mine.error.type, mine.error.value, mine.error.trace);
  return NULL;
}

/* Waits for the lock; -1 where a signal's handler raises an exception meanwhile. */
static int take(turns *self) {
  PyLockStatus status = PyThread_acquire_lock_timed(self->lock, 0, 0);
  while (status != PY_LOCK_ACQUIRED) {
    PyThreadState *let_go = PyEval_SaveThread();
    status = PyThread_acquire_lock_timed(self->lock, -1, 1);
    PyEval_RestoreThread(let_go);
    if (status == PY_LOCK_INTR && PyErr_CheckSignals() < 0) return -1;
  }
  return 0;
}

/* Whether this thread has the lock, and whether it has it or sends. */
static int is_owner(const turns *self) { return self->owner == PyThread_get_thread_ident(); }
static int is_amid(const turns *self) { return is_owner(self) || self->sender == PyThread_get_thread_ident(); }

/* The arguments of f, which is the first of these. */
static PyObject *rest(PyObject *const *given, Py_ssize_t count) {
  if (count < 1) {
    PyErr_SetString(PyExc_TypeError, "which function is to be called?");
    return NULL;
  }
  PyObject *arguments = PyTuple_New(count - 1);
  for (Py_ssize_t i = 1; arguments && i < count; i++) PyTuple_SetItem(arguments, i - 1, Py_NewRef(given[i]));
  return arguments;
}

enum way { CALL, IN_TURN, SOON, UNLOCKED };

static PyObject *none_if(int status) { return status < 0 ? NULL : Py_NewRef(Py_None); }

/* The call is put together before the look at the lock: amid that the garbage collector may run code of Python's, and
 * so other threads. Nothing runs between the look and the list's growing, so that who has the lock finds it there. */
static PyObject *made_soon(turns *self, int amid, PyObject *f, PyObject *arguments) {
  PyObject *call = PyTuple_Pack(2, f, arguments), *result = NULL;
  if (!call) return NULL;
  if (amid || !PyThread_acquire_lock(self->lock, NOWAIT_LOCK)) {
    int status = PyList_Append(self->waiting, call);
    Py_DECREF(call);
    return none_if(status);
  }
  result = turn(self, f, arguments, 0);
  Py_DECREF(call);
  Py_XDECREF(result);
  return none_if(result ? 0 : -1);
}

static PyObject *made_in(turns *self, enum way way, PyObject *f, PyObject *arguments) {
  int owns = is_owner(self), amid = is_amid(self);
  if (way == SOON) return made_soon(self, amid, f, arguments);
  if (way == UNLOCKED && amid) return none_if(add_call(owns ? &self->afterwards : &self->after_sending, f, arguments));
  if (way == UNLOCKED || (way == CALL && owns)) return PyObject_Call(f, arguments, NULL);
  if (way == IN_TURN && amid) return none_if(add_call(&self->waiting, f, arguments));
  return take(self) < 0 ? NULL : turn(self, f, arguments, 1);
}

static PyObject *make(PyObject *object, enum way way, PyObject *const *given, Py_ssize_t count) {
  PyObject *arguments = rest(given, count);
  PyObject *result = arguments ? made_in((turns *)object, way, given[0], arguments) : NULL;
  Py_XDECREF(arguments);
  return result;
}

#define WAY(function, way)                                                                                        \
  static PyObject *function(PyObject *self, PyObject *const *given, Py_ssize_t count) {                            \
    return make(self, way, given, count);                                                                         \
  }
WAY(turns_call, CALL)
WAY(turns_in_turn, IN_TURN)
WAY(turns_soon, SOON)
WAY(turns_unlocked, UNLOCKED)
#undef WAY

static PyObject *turns_send(PyObject *object, PyObject *const *given, Py_ssize_t count) {
  turns *self = (turns *)object;
  PyObject *arguments = rest(given, count), *result = NULL;
  if (arguments && is_owner(self)) result = none_if(put_outgoing(self, given[0], arguments));
  else if (arguments) PyErr_SetString(PyExc_RuntimeError, "send is for a call that is under way");
  Py_XDECREF(arguments);
  return result;
}

static PyObject *turns_is_amid(PyObject *self, PyObject *none) {
  (void)none;
  return PyBool_FromLong(is_amid((turns *)self));
}

/* ---- Its making and its end. */

static int find_main_thread(turns *self) {
  PyObject *threading = PyImport_ImportModule("threading");
  PyObject *thread = threading ? PyObject_CallMethod(threading, "main_thread", NULL) : NULL;
  PyObject *ident = thread ? PyObject_GetAttrString(thread, "ident") : NULL;
  if (ident) self->main_thread = PyLong_AsUnsignedLong(ident);
  Py_XDECREF(ident);
  Py_XDECREF(thread);
  Py_XDECREF(threading);
  return PyErr_Occurred() ? -1 : 0;
}

static int make_turns(PyObject *object, PyObject *arguments, PyObject *names) {
  static char *parameters[] = {"on_error", NULL};
  turns *self = (turns *)object;
  PyObject *on_error;
  if (!PyArg_ParseTupleAndKeywords(arguments, names, "O:Turns", parameters, &on_error)) return -1;
  PyObject *before = self->on_error;
  self->on_error = Py_NewRef(on_error);
  Py_XDECREF(before);
  if (!self->waiting) self->waiting = PyList_New(0);
  if (!self->lock) self->lock = PyThread_allocate_lock();
  if (self->waiting && self->lock) return find_main_thread(self);
  PyErr_NoMemory();
  return -1;
}

static int traverse_turns(PyObject *object, visitproc visit, void *arg) {
  turns *self = (turns *)object;
  Py_VISIT(Py_TYPE(object));
  Py_VISIT(self->waiting);
  Py_VISIT(self->afterwards);
  Py_VISIT(self->after_sending);
  Py_VISIT(self->on_error);
  return traverse_outgoing(self, visit, arg);
}

static int clear_turns(PyObject *object) {
  turns *self = (turns *)object;
  Py_CLEAR(self->afterwards);
  Py_CLEAR(self->after_sending);
  Py_CLEAR(self->on_error);
  end_outgoing(self);
  return 0;
}

static void end_turns(PyObject *object) {
  turns *self = (turns *)object;
  PyTypeObject *type = Py_TYPE(object);
  PyObject_GC_UnTrack(object);
  clear_turns(object);
  Py_CLEAR(self->waiting);
  if (self->lock) PyThread_free_lock(self->lock);
  freefunc release = (freefunc)PyType_GetSlot(type, Py_tp_free);
  release(object);
  Py_DECREF(type);
}

#define METHOD(name, function, words) {name, (PyCFunction)(void (*)(void))function, METH_FASTCALL, words}
static PyMethodDef methods[] = {
    METHOD("call", turns_call,
           "call($self, f, /, *arguments)\n--\n\nCalls f under the lock, and gives what it gives, once all that it "
           "sends is out. Amid a call of this thread it is called at once."),
    METHOD("call_in_turn", turns_in_turn,
           "call_in_turn($self, f, /, *arguments)\n--\n\nAs call; but amid a call of this thread, or what it sends, f "
           "is called right after that, and None is given."),
    METHOD("call_soon", turns_soon,
           "call_soon($self, f, /, *arguments)\n--\n\nCalls f under the lock where no call is under way, else right "
           "after the one that is, whatever thread makes that: never waits, nor for what f sends."),
    METHOD("call_unlocked", turns_unlocked,
           "call_unlocked($self, f, /, *arguments)\n--\n\nCalls f without the lock: at once, or, amid a call of this "
           "thread or what it sends, when that and what waited for it are through."),
    METHOD("send", turns_send,
           "send($self, f, /, *arguments)\n--\n\nAmid a call: has f called without the lock, after all that was handed "
           "to `send` before it, by whatever thread, is through. What f raises the call raises."),
    {"is_amid", turns_is_amid, METH_NOARGS,
     "is_amid($self, /)\n--\n\nWhether this thread is amid a call, or amid what it sends."},
    {NULL, NULL, 0, NULL},
};
#undef METHOD

static const char doc[] =
    "Turns(on_error)\n--\n\nOne call at a time, of whatever thread, under a lock; what calls send is sent in their "
    "order, without it. on_error(exception) is told, without the lock, what a call or a sending raised that nobody "
    "waits for.";

static PyType_Slot slots[] = {
    {Py_tp_doc, (void *)doc},           {Py_tp_init, make_turns},   {Py_tp_dealloc, end_turns},
    {Py_tp_traverse, traverse_turns},   {Py_tp_clear, clear_turns}, {Py_tp_methods, methods},
    {0, NULL},
};

PyType_Spec turns_type = {
    .name = "rolgunai._native.Turns",
    .basicsize = sizeof(turns),
    .flags = Py_TPFLAGS_DEFAULT | Py_TPFLAGS_HAVE_GC,
    .slots = slots,
};

/* The types Watch and Watches: what the kernel says of a widget's state while somebody watches it. The calls of Watches
 * are made under the lock that the manager's are made under. */
#include "native.h"
#include <structmember.h>

typedef struct {
  PyObject_HEAD
  PyObject *comm_id, *end; /* `end(watch)` is called where its context ends */
  PyObject *held;          /* a dict: what the manager has of the widget */
  PyObject *keys;          /* of the widget, where it was asked for them */
  unsigned long thread;
  Py_ssize_t times; /* that something was said */
  char is_answered; /* by an update that the same thread has said */
  char is_crossed;  /* by what another thread said */
} watch;

typedef struct {
  PyObject_HEAD
  const module_state *state;
  PyObject *module;
  PyObject *by_comm; /* a dict: lists of those of each comm, by its id */
  PyObject *keys;    /* a dict: of the widgets that were asked for them */
  PyObject *threads; /* a dict: which one spoke of a comm's state last, or ended a watch of it */
} watches;

static PyObject *none_if(int status) { return status < 0 ? NULL : Py_NewRef(Py_None); }

static int is_watch(const watches *self, PyObject *object) {
  if (Py_TYPE(object) == (PyTypeObject *)self->state->watch_type) return 1;
  PyErr_SetString(PyExc_TypeError, "no Watch");
  return 0;
}

/* Takes out what a dict has of a key, which needn't be there. */
static int discard(PyObject *dict, PyObject *key) {
  if (PyDict_Contains(dict, key) == 1 && PyDict_DelItem(dict, key) < 0) return -1;
  return PyErr_Occurred() ? -1 : 0;
}

/* ---- One of them. */

static int hear(watch *self, PyObject *placed) {
  if (PyDict_Update(self->held, placed) < 0) return -1;
  self->times++;
  if (self->thread != PyThread_get_thread_ident()) self->is_crossed = 1;
  return 0;
}

static int tell(watch *self, PyObject *placed) {
  if (hear(self, placed) < 0) return -1;
  if (self->thread == PyThread_get_thread_ident()) self->is_answered = 1;
  return 0;
}

static PyObject *watch_told(PyObject *self, PyObject *placed) { return none_if(tell((watch *)self, placed)); }

static PyObject *watch_enter(PyObject *self, PyObject *none) {
  (void)none;
  return Py_NewRef(self);
}

static PyObject *watch_exit(PyObject *self, PyObject *error) {
  (void)error;
  PyObject *ended = PyObject_CallFunctionObjArgs(((watch *)self)->end, self, NULL);
  Py_XDECREF(ended);
  return none_if(ended ? 0 : -1);
}

static PyObject *new_watch(PyTypeObject *type, PyObject *arguments, PyObject *names) {
  PyObject *comm_id = NULL, *end = NULL;
  (void)names;
  if (!PyArg_UnpackTuple(arguments, "Watch", 2, 2, &comm_id, &end)) return NULL;
  allocfunc allocate = (allocfunc)PyType_GetSlot(type, Py_tp_alloc);
  watch *self = (watch *)allocate(type, 0);
  if (!self) return NULL;
  self->comm_id = Py_NewRef(comm_id);
  self->end = Py_NewRef(end);
  self->thread = PyThread_get_thread_ident();
  self->held = PyDict_New();
  if (!self->held) Py_CLEAR(self);
  return (PyObject *)self;
}

static int traverse_watch(PyObject *object, visitproc visit, void *arg) {
  watch *self = (watch *)object;
  Py_VISIT(Py_TYPE(object));
  Py_VISIT(self->end);
  Py_VISIT(self->held);
  Py_VISIT(self->keys);
  return 0;
}

static int clear_watch(PyObject *object) {
  watch *self = (watch *)object;
  Py_CLEAR(self->end);
  Py_CLEAR(self->held);
  Py_CLEAR(self->keys);
  return 0;
}

static void free_object(PyObject *object) {
  PyTypeObject *type = Py_TYPE(object);
  freefunc release = (freefunc)PyType_GetSlot(type, Py_tp_free);
  release(object);
  Py_DECREF(type);
}

static void end_watch(PyObject *object) {
  PyObject_GC_UnTrack(object);
  clear_watch(object);
  Py_CLEAR(((watch *)object)->comm_id);
  free_object(object);
}

static PyMemberDef watch_members[] = {
    {"comm_id", T_OBJECT_EX, offsetof(watch, comm_id), READONLY, NULL},
    {"held", T_OBJECT_EX, offsetof(watch, held), 0, "What the manager has of the widget."},
    {"keys", T_OBJECT, offsetof(watch, keys), 0, "The widget's, where it was asked for them, or None."},
    {"times", T_PYSSIZET, offsetof(watch, times), READONLY, "How many times something was said."},
    {"is_answered", T_BOOL, offsetof(watch, is_answered), READONLY, "By an update that the same thread has said."},
    {"is_crossed", T_BOOL, offsetof(watch, is_crossed), READONLY, "By what another thread said."},
    {NULL, 0, 0, 0, NULL},
};

static PyMethodDef watch_methods[] = {
    {"told", watch_told, METH_O, "told($self, placed, /)\n--\n\nThe kernel has said this."},
    {"__enter__", watch_enter, METH_NOARGS, NULL},
    {"__exit__", watch_exit, METH_VARARGS, NULL},
    {NULL, NULL, 0, NULL},
};

static const char watch_doc[] =
    "Watch(comm_id, end, /)\n--\n\n"
    "What the manager has of a widget, from a moment on: `held` is added to by each update that the kernel says. It\n"
    "is a context: at its end `end(watch)` is called.";

static PyType_Slot watch_slots[] = {
    {Py_tp_doc, (void *)watch_doc},     {Py_tp_new, new_watch},         {Py_tp_dealloc, end_watch},
    {Py_tp_traverse, traverse_watch},   {Py_tp_clear, clear_watch},     {Py_tp_members, watch_members},
    {Py_tp_methods, watch_methods},     {0, NULL},
};

PyType_Spec watch_type = {
    .name = "rolgunai._native.Watch",
    .basicsize = sizeof(watch),
    .flags = Py_TPFLAGS_DEFAULT | Py_TPFLAGS_HAVE_GC,
    .slots = watch_slots,
};

/* ---- All of them. */

/* What is let go of amid that may run code of Python's, which ends watches. */
static int hear_each(const watches *self, PyObject *list, PyObject *placed, int (*say)(watch *, PyObject *)) {
  int status = 0;
  Py_INCREF(list);
  for (Py_ssize_t i = 0; status == 0 && i < PyList_Size(list); i++) {
    PyObject *one = Py_NewRef(PyList_GetItem(list, i));
    status = is_watch(self, one) ? say((watch *)one, placed) : -1;
    Py_DECREF(one);
  }
  Py_DECREF(list);
  return status;
}

/* A widget's first watch, which is mostly its only one. */
static int begin_first(watches *self, watch *it) {
  PyObject *list = PyErr_Occurred() ? NULL : PyList_New(1);
  if (!list) return -1;
  PyList_SetItem(list, 0, Py_NewRef((PyObject *)it));
  int status = PyDict_SetItem(self->by_comm, it->comm_id, list);
  Py_DECREF(list);
  return status;
}

static int begin(watches *self, watch *it, PyObject *held) {
  PyObject *before = it->held;
  it->held = Py_NewRef(held);
  Py_XDECREF(before);
  if (it->keys && it->keys != Py_None && PyDict_SetItem(self->keys, it->comm_id, it->keys) < 0) return -1;
  PyObject *list = PyDict_GetItemWithError(self->by_comm, it->comm_id);
  if (!list) return begin_first(self, it);
  Py_INCREF(list);
  int status = hear_each(self, list, held, hear) < 0 ? -1 : PyList_Append(list, (PyObject *)it);
  Py_DECREF(list);
  return status;
}

static PyObject *watches_begin(PyObject *object, PyObject *const *given, Py_ssize_t count) {
  watches *self = (watches *)object;
  if (count != 2) {
    PyErr_Format(PyExc_TypeError, "begin() takes 2 positional arguments (%zd given)", count);
    return NULL;
  }
  if (!is_watch(self, given[0])) return NULL;
  return none_if(begin(self, (watch *)given[0], given[1]));
}

/* Where a watch stands in a list, or -1. */
static Py_ssize_t place_of(PyObject *list, const watch *it) {
  Py_ssize_t at = PyList_Size(list);
  while (--at >= 0)
    if (PyList_GetItem(list, at) == (const PyObject *)it) return at;
  return -1;
}

static int note_thread(watches *self, PyObject *comm_id, unsigned long thread) {
  PyObject *number = PyLong_FromUnsignedLong(thread);
  int status = number ? PyDict_SetItem(self->threads, comm_id, number) : -1;
  Py_XDECREF(number);
  return status;
}

static int end(watches *self, watch *it) {
  PyObject *list = PyDict_GetItemWithError(self->by_comm, it->comm_id);
  Py_ssize_t at = list ? place_of(list, it) : -1;
  if (at < 0) return PyErr_Occurred() ? -1 : 0;
  if (note_thread(self, it->comm_id, it->thread) < 0) return -1;
  if (PyList_Size(list) == 1) return PyDict_DelItem(self->by_comm, it->comm_id);
  return PySequence_DelItem(list, at);
}

static PyObject *watches_end(PyObject *object, PyObject *it) {
  watches *self = (watches *)object;
  return is_watch(self, it) ? none_if(end(self, (watch *)it)) : NULL;
}

static PyObject *watches_forget(PyObject *object, PyObject *comm_id) {
  watches *self = (watches *)object;
  int status = discard(self->by_comm, comm_id);
  if (status == 0) status = discard(self->keys, comm_id);
  return none_if(status == 0 ? discard(self->threads, comm_id) : status);
}

static PyObject *watches_told(PyObject *object, PyObject *const *given, Py_ssize_t count) {
  watches *self = (watches *)object;
  if (count != 2) {
    PyErr_Format(PyExc_TypeError, "told() takes 2 positional arguments (%zd given)", count);
    return NULL;
  }
  PyObject *list = PyDict_GetItemWithError(self->by_comm, given[0]);
  if (list) return none_if(hear_each(self, list, given[1], tell));
  return none_if(PyErr_Occurred() ? -1 : 0);
}

/* Whether another thread watches: 1 or 0, or -1 with an exception. */
static int is_watched_by_another(const watches *self, PyObject *comm_id, unsigned long thread) {
  PyObject *list = PyDict_GetItemWithError(self->by_comm, comm_id);
  for (Py_ssize_t i = 0; list && i < PyList_Size(list); i++) {
    PyObject *one = PyList_GetItem(list, i);
    if (!is_watch(self, one)) return -1;
    if (((watch *)one)->thread != thread) return 1;
  }
  return PyErr_Occurred() ? -1 : 0;
}

static PyObject *watches_change_hands(PyObject *object, PyObject *comm_id) {
  watches *self = (watches *)object;
  unsigned long thread = PyThread_get_thread_ident();
  PyObject *last = PyDict_GetItemWithError(self->threads, comm_id);
  int is_same = last && PyLong_AsUnsignedLong(last) == thread;
  if (PyErr_Occurred() || (!is_same && note_thread(self, comm_id, thread) < 0)) return NULL;
  if (last && !is_same) return Py_NewRef(Py_True);
  int is_watched = is_watched_by_another(self, comm_id, thread);
  return is_watched < 0 ? NULL : PyBool_FromLong(is_watched);
}

static PyObject *new_watches(PyTypeObject *type, PyObject *arguments, PyObject *names) {
  (void)arguments, (void)names;
  PyObject *module = module_of(type);
  if (!module) return NULL;
  allocfunc allocate = (allocfunc)PyType_GetSlot(type, Py_tp_alloc);
  watches *self = (watches *)allocate(type, 0);
  if (!self) return NULL;
  self->module = Py_NewRef(module);
  self->state = PyModule_GetState(module);
  self->by_comm = PyDict_New();
  self->keys = PyDict_New();
  self->threads = PyDict_New();
  if (!self->by_comm || !self->keys || !self->threads) Py_CLEAR(self);
  return (PyObject *)self;
}

static int traverse_watches(PyObject *object, visitproc visit, void *arg) {
  watches *self = (watches *)object;
  Py_VISIT(Py_TYPE(object));
  Py_VISIT(self->module);
  Py_VISIT(self->by_comm);
  Py_VISIT(self->keys);
  return 0;
}

static int clear_watches(PyObject *object) {
  watches *self = (watches *)object;
  Py_CLEAR(self->by_comm);
  Py_CLEAR(self->keys);
  Py_CLEAR(self->threads);
  return 0;
}

static void end_watches(PyObject *object) {
  PyObject_GC_UnTrack(object);
  clear_watches(object);
  Py_CLEAR(((watches *)object)->module);
  free_object(object);
}

static PyMemberDef members[] = {
    {"by_comm", T_OBJECT_EX, offsetof(watches, by_comm), READONLY, "Those of each comm, by its id."},
    {"keys", T_OBJECT_EX, offsetof(watches, keys), READONLY, "Of the widgets that were asked for them."},
    {NULL, 0, 0, 0, NULL},
};

static PyMethodDef methods[] = {
    {"begin", (PyCFunction)(void (*)(void))watches_begin, METH_FASTCALL,
     "begin($self, watch, held, /)\n--\n\nFrom now on it is told; this is what the manager has."},
    {"end", watches_end, METH_O,
     "end($self, watch, /)\n--\n\nNo longer; it may never have begun, or have ended with its comm."},
    {"forget", watches_forget, METH_O, "forget($self, comm_id, /)\n--\n\nThe comm is closed."},
    {"told", (PyCFunction)(void (*)(void))watches_told, METH_FASTCALL,
     "told($self, comm_id, placed, /)\n--\n\nThe kernel says this of the comm's state."},
    {"changes_hands", watches_change_hands, METH_O,
     "changes_hands($self, comm_id, /)\n--\n\n"
     "This thread speaks of the comm's state: whether another one did before it, or watches. What this one says it\n"
     "may have read before that then, and it may not be what the widget holds."},
    {NULL, NULL, 0, NULL},
};

static const char doc[] =
    "All watches, by the ids of their comms. Its calls are made under the lock that the manager's are made under.";

static PyType_Slot slots[] = {
    {Py_tp_doc, (void *)doc},           {Py_tp_new, new_watches},     {Py_tp_dealloc, end_watches},
    {Py_tp_traverse, traverse_watches}, {Py_tp_clear, clear_watches}, {Py_tp_members, members},
    {Py_tp_methods, methods},           {0, NULL},
};

PyType_Spec watches_type = {
    .name = "rolgunai._native.Watches",
    .basicsize = sizeof(watches),
    .flags = Py_TPFLAGS_DEFAULT | Py_TPFLAGS_HAVE_GC,
    .slots = slots,
};

/* The type EventPipe: wakes a thread that sends, once for all that it is handed until it looks. What it says of itself
 * is guarded by the GIL, which is never let go of: so nobody waits for who wakes. */
#include <errno.h>
#include <sys/socket.h>
#include <unistd.h>

#include "native.h"

enum { WAKING, WOKEN, ENDS };

typedef struct {
  PyObject_HEAD
  int ends[ENDS]; /* of a pair of sockets, which doesn't block; -1 where it is closed */
  int is_woken;   /* and hasn't looked since */
} event_pipe;

/* A socket of the system's can't be full here: no more than one byte is on its way. */
static PyObject *pipe_send(PyObject *object, PyObject *const *given, Py_ssize_t count, PyObject *names) {
  event_pipe *self = (event_pipe *)object;
  (void)given, (void)count, (void)names;
  while (!self->is_woken && self->ends[WAKING] >= 0) {
    self->is_woken = send(self->ends[WAKING], "", 1, MSG_NOSIGNAL) == 1;
    if (!self->is_woken && errno != EINTR) return PyErr_SetFromErrno(PyExc_OSError);
  }
  return Py_NewRef(Py_None);
}

static PyObject *pipe_heard(PyObject *object, PyObject *none) {
  event_pipe *self = (event_pipe *)object;
  char bytes[8];
  (void)none;
  while (self->ends[WOKEN] >= 0 && recv(self->ends[WOKEN], bytes, sizeof bytes, 0) < 0 && errno == EINTR) continue;
  self->is_woken = 0;
  return Py_NewRef(Py_None);
}

static PyObject *pipe_fileno(PyObject *object, PyObject *none) {
  (void)none;
  return PyLong_FromLong(((event_pipe *)object)->ends[WOKEN]);
}

static PyObject *pipe_close(PyObject *object, PyObject *none) {
  event_pipe *self = (event_pipe *)object;
  (void)none;
  for (int i = 0; i < ENDS; i++)
    if (self->ends[i] >= 0) {
      close(self->ends[i]);
      self->ends[i] = -1;
    }
  return Py_NewRef(Py_None);
}

static PyObject *own_pipe(PyObject *object, void *none) {
  (void)none;
  return Py_NewRef(object);
}

static PyObject *new_pipe(PyTypeObject *type, PyObject *arguments, PyObject *names) {
  (void)arguments, (void)names;
  allocfunc allocate = (allocfunc)PyType_GetSlot(type, Py_tp_alloc);
  event_pipe *self = (event_pipe *)allocate(type, 0);
  if (!self) return NULL;
  self->ends[WAKING] = self->ends[WOKEN] = -1;
  if (socketpair(AF_UNIX, SOCK_STREAM | SOCK_CLOEXEC | SOCK_NONBLOCK, 0, self->ends) == 0) return (PyObject *)self;
  PyErr_SetFromErrno(PyExc_OSError);
  Py_DECREF(self);
  return NULL;
}

static void end_pipe(PyObject *object) {
  PyTypeObject *type = Py_TYPE(object);
  Py_DECREF(pipe_close(object, NULL));
  freefunc release = (freefunc)PyType_GetSlot(type, Py_tp_free);
  release(object);
  Py_DECREF(type);
}

static PyMethodDef methods[] = {
    {"send", (PyCFunction)(void (*)(void))pipe_send, METH_FASTCALL | METH_KEYWORDS,
     "send($self, /, *message, **how)\n--\n\n"
     "Wakes the thread, where it has looked since it was woken last. What is sent says nothing."},
    {"heard", pipe_heard, METH_NOARGS, "heard($self, /)\n--\n\nThe thread is awake, and looks from now on."},
    {"fileno", pipe_fileno, METH_NOARGS, "fileno($self, /)\n--\n\nThe socket that can be read where it is woken."},
    {"close", pipe_close, METH_NOARGS, "close($self, /)\n--\n\nThe thread has ended: nobody is woken any more."},
    {NULL, NULL, 0, NULL},
};

static PyGetSetDef attributes[] = {
    {"event_pipe", own_pipe, NULL, "Itself, whatever thread asks: so it can stand in a threading.local's place.", NULL},
    {NULL, NULL, NULL, NULL, NULL},
};

static const char doc[] =
    "EventPipe()\n--\n\nWakes a thread, once for all that it is handed until it looks. All threads may share it.";

static PyType_Slot slots[] = {
    {Py_tp_doc, (void *)doc},   {Py_tp_new, new_pipe},      {Py_tp_dealloc, end_pipe},
    {Py_tp_methods, methods},   {Py_tp_getset, attributes}, {0, NULL},
};

PyType_Spec event_pipe_type = {
    .name = "rolgunai._native.EventPipe",
    .basicsize = sizeof(event_pipe),
    .flags = Py_TPFLAGS_DEFAULT,
    .slots = slots,
};

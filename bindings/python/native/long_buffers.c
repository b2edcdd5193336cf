/* The type LongBuffers: what rolgunai/_long_buffers.py says of them. No code of Python's runs amid a step that its
 * tables have half done, but where a value is let go of, which comes last. */
#include "native.h"
#include <structmember.h>

enum { TOKEN_SIZE = 23, LONG_SIZE = 1 << 16 };

typedef struct {
  PyObject_HEAD
  PyObject *buffers; /* a dict: the long ones by their tokens */
  PyObject *lent;    /* a set: the tokens of those that may still be changed */
  PyObject *tokens;  /* a dict: of each comm by its id, the dict of its tokens, lists by the keys of its state */
  unsigned long long next;
} long_buffers;

static long_buffers *of(PyObject *object) { return (long_buffers *)object; }

static PyObject *none_if(int status) { return status < 0 ? NULL : Py_NewRef(Py_None); }

/* ---- Buffers. */

/* The buffer itself where nobody can change it, since it shows bytes, and most of them; else a copy, of a Fortran
 * array's in its own order, as they lie. */
static PyObject *fixed(PyObject *buffer) {
  PyObject *view = PyMemoryView_FromObject(buffer), *owner = view ? PyObject_GetAttrString(view, "obj") : NULL;
  PyObject *made = NULL;
  Py_buffer shown;
  if (owner && PyObject_GetBuffer(view, &shown, PyBUF_FULL_RO) == 0) {
    int is_most = PyBytes_CheckExact(owner) && 2 * shown.len >= PyBytes_Size(owner);
    int is_whole = is_most && PyBuffer_IsContiguous(&shown, 'C');
    PyBuffer_Release(&shown);
    made = is_whole ? PyObject_CallMethod(view, "cast", "s", "B") : PyObject_CallMethod(view, "tobytes", "s", "A");
  }
  Py_XDECREF(owner);
  Py_XDECREF(view);
  return made;
}

static Py_ssize_t size_of(PyObject *buffer) {
  Py_buffer view;
  if (PyBytes_CheckExact(buffer)) return PyBytes_Size(buffer);
  if (PyObject_GetBuffer(buffer, &view, PyBUF_FULL_RO) < 0) return -1;
  Py_ssize_t size = view.len;
  PyBuffer_Release(&view);
  return size;
}

static PyObject *new_token(long_buffers *self) {
  char digits[TOKEN_SIZE];
  unsigned long long rest = self->next++;
  for (size_t at = TOKEN_SIZE; at > 0; rest /= 10) digits[--at] = (char)('0' + rest % 10);
  return PyBytes_FromStringAndSize(digits, TOKEN_SIZE);
}

/* Puts a token in the place of a buffer that stays here, among those that were handed in with it. */
static int keep(long_buffers *self, PyObject *frames, Py_ssize_t place, int is_lent, PyObject *stay, PyObject *kept) {
  PyObject *buffer = PyList_GetItem(frames, place);
  PyObject *own = PyBytes_CheckExact(buffer) || is_lent ? Py_NewRef(buffer) : fixed(buffer);
  PyObject *token = own ? new_token(self) : NULL, *number = token ? PyLong_FromSsize_t(place) : NULL;
  PyObject *entry = number ? PyTuple_Pack(2, number, token) : NULL;
  int status = entry && PyDict_SetItem(stay, token, own) == 0 ? PyList_Append(kept, entry) : -1;
  if (status == 0) status = PyList_SetItem(frames, place, Py_NewRef(token));
  Py_XDECREF(entry);
  Py_XDECREF(number);
  Py_XDECREF(token);
  Py_XDECREF(own);
  return status;
}

static int keep_each(long_buffers *self, PyObject *frames, int is_lent, PyObject *stay, PyObject *kept) {
  for (Py_ssize_t place = 0; place < PyList_Size(frames); place++) {
    Py_ssize_t size = size_of(PyList_GetItem(frames, place));
    if (size < 0) return -1;
    if ((size >= LONG_SIZE || size == TOKEN_SIZE) && keep(self, frames, place, is_lent, stay, kept) < 0) return -1;
  }
  return 0;
}

static int lend(long_buffers *self, PyObject *stay) {
  Py_ssize_t at = 0;
  PyObject *token, *buffer;
  while (PyDict_Next(stay, &at, &token, &buffer))
    if (!PyBytes_CheckExact(buffer) && PySet_Add(self->lent, token) < 0) return -1;
  return 0;
}

static PyObject *taken_in(long_buffers *self, PyObject *given, int is_lent) {
  PyObject *frames = PySequence_List(given), *kept = PyList_New(0), *stay = PyDict_New(), *made = NULL;
  if (frames && kept && stay && keep_each(self, frames, is_lent, stay, kept) == 0
      && PyDict_Update(self->buffers, stay) == 0 && (!is_lent || lend(self, stay) == 0))
    made = PyTuple_Pack(2, frames, kept);
  Py_XDECREF(stay);
  Py_XDECREF(kept);
  Py_XDECREF(frames);
  return made;
}

static PyObject *handed_in(PyObject *object, PyObject *given) { return taken_in(of(object), given, 0); }
static PyObject *lent(PyObject *object, PyObject *given) { return taken_in(of(object), given, 1); }

/* What was written into one that was lent stays. */
static int settle_one(long_buffers *self, PyObject *token) {
  PyObject *buffer = PyDict_GetItemWithError(self->buffers, token), *own = buffer ? fixed(buffer) : NULL;
  if (!own) return PyErr_Occurred() ? -1 : 0;
  int status = PyDict_SetItem(self->buffers, token, own);
  Py_DECREF(own);
  return status;
}

static PyObject *settle(PyObject *object, PyObject *none) {
  int status = 0;
  (void)none;
  while (status == 0 && PySet_Size(of(object)->lent) > 0) {
    PyObject *token = PySet_Pop(of(object)->lent);
    status = token ? settle_one(of(object), token) : -1;
    Py_XDECREF(token);
  }
  return none_if(status);
}

/* ---- What is let go of. */

static int drop(long_buffers *self, PyObject *token) {
  return PySet_Discard(self->lent, token) < 0 ? -1 : PyDict_DelItem(self->buffers, token);
}

/* Lets go of the tokens of a list. */
static int drop_each(long_buffers *self, PyObject *list) {
  for (Py_ssize_t i = 0; i < PyList_Size(list); i++)
    if (drop(self, PyList_GetItem(list, i)) < 0) return -1;
  return 0;
}

/* Lets go of what lies under a key of a comm's state. */
static int drop_key(long_buffers *self, PyObject *tokens, PyObject *key) {
  PyObject *list = Py_XNewRef(PyDict_GetItemWithError(tokens, key));
  if (!list) return PyErr_Occurred() ? -1 : 0;
  int status = PyDict_DelItem(tokens, key) < 0 ? -1 : drop_each(self, list);
  Py_DECREF(list);
  return status;
}

static int drop_keys(long_buffers *self, PyObject *tokens, PyObject *keys) {
  PyObject *list = PyDict_Size(tokens) > 0 ? PySequence_List(keys) : PyList_New(0);
  int status = list ? 0 : -1;
  for (Py_ssize_t i = 0; status == 0 && i < PyList_Size(list); i++)
    status = drop_key(self, tokens, PyList_GetItem(list, i));
  Py_XDECREF(list);
  return status;
}

static PyObject *refused(PyObject *object, PyObject *kept) {
  PyObject *list = PySequence_List(kept);
  int status = list ? 0 : -1;
  for (Py_ssize_t i = 0; status == 0 && i < PyList_Size(list); i++) {
    PyObject *token = PySequence_GetItem(PyList_GetItem(list, i), 1);
    status = token ? drop(of(object), token) : -1;
    Py_XDECREF(token);
  }
  Py_XDECREF(list);
  return none_if(status);
}

/* ---- What the manager took. */

/* Notes that a token lies under a key. */
static int note(PyObject *tokens, PyObject *key, PyObject *token) {
  PyObject *list = PyDict_GetItemWithError(tokens, key);
  if (list) return PyList_Append(list, token);
  PyObject *made = PyErr_Occurred() ? NULL : PyList_New(0);
  int status = made && PyList_Append(made, token) == 0 ? PyDict_SetItem(tokens, key, made) : -1;
  Py_XDECREF(made);
  return status;
}

static int note_each(long_buffers *self, PyObject *tokens, PyObject *roots, PyObject *kept) {
  for (Py_ssize_t i = 0, status = 0; i < PyList_Size(kept); i++) {
    PyObject *entry = PyList_GetItem(kept, i), *token = PyTuple_GetItem(entry, 1);
    Py_ssize_t place = token ? PyLong_AsSsize_t(PyTuple_GetItem(entry, 0)) : -1;
    if (place < 0) return -1;
    status = place < PyList_Size(roots) ? note(tokens, PyList_GetItem(roots, place), token) : drop(self, token);
    if (status < 0) return -1;
  }
  return 0;
}

static int take(long_buffers *self, PyObject *comm_id, PyObject *keys, PyObject *roots, PyObject *kept) {
  PyObject *tokens = Py_XNewRef(PyDict_GetItemWithError(self->tokens, comm_id));
  if (!tokens && !PyErr_Occurred()) tokens = PyDict_New();
  int status = tokens ? drop_keys(self, tokens, keys) : -1;
  if (status == 0) status = drop_keys(self, tokens, roots);
  if (status == 0) status = note_each(self, tokens, roots, kept);
  if (status == 0 && PyDict_Size(tokens) > 0) status = PyDict_SetItem(self->tokens, comm_id, tokens);
  else if (status == 0 && PyDict_Contains(self->tokens, comm_id) == 1) status = PyDict_DelItem(self->tokens, comm_id);
  Py_XDECREF(tokens);
  return status;
}

static PyObject *taken(PyObject *object, PyObject *const *given, Py_ssize_t count) {
  enum { ID, KEYS, ROOTS, KEPT, MOST };
  if (count != MOST) {
    PyErr_Format(PyExc_TypeError, "taken() takes 4 positional arguments (%zd given)", count);
    return NULL;
  }
  PyObject *roots = PySequence_List(given[ROOTS]), *kept = roots ? PySequence_List(given[KEPT]) : NULL;
  int status = kept ? take(of(object), given[ID], given[KEYS], roots, kept) : -1;
  Py_XDECREF(kept);
  Py_XDECREF(roots);
  return none_if(status);
}

static PyObject *given_out(PyObject *object, PyObject *given) {
  PyObject *frames = PySequence_List(given);
  for (Py_ssize_t i = 0; frames && i < PyList_Size(frames); i++) {
    PyObject *frame = PyList_GetItem(frames, i);
    if (!PyBytes_Check(frame) || PyBytes_Size(frame) != TOKEN_SIZE) continue;
    PyObject *buffer = PyDict_GetItemWithError(of(object)->buffers, frame);
    if (buffer) PyList_SetItem(frames, i, Py_NewRef(buffer));
    else {
      if (!PyErr_Occurred()) PyErr_SetObject(PyExc_KeyError, frame);
      Py_CLEAR(frames);
    }
  }
  return frames;
}

static PyObject *forget(PyObject *object, PyObject *comm_id) {
  long_buffers *self = of(object);
  PyObject *tokens = Py_XNewRef(PyDict_GetItemWithError(self->tokens, comm_id));
  if (!tokens) return PyErr_Occurred() ? NULL : Py_NewRef(Py_None);
  PyObject *keys = PyDict_Keys(tokens);
  int status = keys && PyDict_DelItem(self->tokens, comm_id) == 0 ? drop_keys(self, tokens, keys) : -1;
  Py_XDECREF(keys);
  Py_DECREF(tokens);
  return none_if(status);
}

static Py_ssize_t length(PyObject *object) { return PyDict_Size(of(object)->buffers); }

/* ---- Its making and its end. */

static PyObject *new_buffers(PyTypeObject *type, PyObject *arguments, PyObject *names) {
  (void)arguments, (void)names;
  allocfunc allocate = (allocfunc)PyType_GetSlot(type, Py_tp_alloc);
  long_buffers *self = (long_buffers *)allocate(type, 0);
  if (!self) return NULL;
  self->buffers = PyDict_New();
  self->lent = PySet_New(NULL);
  self->tokens = PyDict_New();
  if (self->buffers && self->lent && self->tokens) return (PyObject *)self;
  Py_DECREF(self);
  return NULL;
}

static int traverse_buffers(PyObject *object, visitproc visit, void *arg) {
  Py_VISIT(Py_TYPE(object));
  Py_VISIT(of(object)->buffers);
  Py_VISIT(of(object)->tokens);
  return 0;
}

static int clear_buffers(PyObject *object) {
  Py_CLEAR(of(object)->buffers);
  Py_CLEAR(of(object)->lent);
  Py_CLEAR(of(object)->tokens);
  return 0;
}

static void end_buffers(PyObject *object) {
  PyTypeObject *type = Py_TYPE(object);
  PyObject_GC_UnTrack(object);
  clear_buffers(object);
  freefunc release = (freefunc)PyType_GetSlot(type, Py_tp_free);
  release(object);
  Py_DECREF(type);
}

static PyMemberDef members[] = {
    {"_buffers", T_OBJECT_EX, offsetof(long_buffers, buffers), READONLY, "The buffers, by their tokens."},
    {"tokens", T_OBJECT_EX, offsetof(long_buffers, tokens), READONLY,
     "The tokens of each comm, by the keys of its state."},
    {NULL, 0, 0, 0, NULL},
};

static PyMethodDef methods[] = {
    {"handed_in", handed_in, METH_O,
     "handed_in($self, buffers, /)\n--\n\n"
     "What the manager is to be handed for these buffers, and the places and tokens of those that stay here, as\n"
     "nobody can change them. They are here before the call, so that an interrupt after it loses none: `taken` or\n"
     "`refused` is told of each."},
    {"lent", lent, METH_O,
     "lent($self, buffers, /)\n--\n\nAs handed_in, of buffers that may be changed until `settle`."},
    {"settle", settle, METH_NOARGS,
     "settle($self, /)\n--\n\n"
     "Nobody changes any more what was lent: what callbacks have written into it is the widget's."},
    {"refused", refused, METH_O, "refused($self, kept, /)\n--\n\nThe manager didn't take them."},
    {"taken", (PyCFunction)(void (*)(void))taken, METH_FASTCALL,
     "taken($self, comm_id, keys, roots, kept, /)\n--\n\n"
     "The manager took an open or an update of a state with these keys, with a buffer somewhere under each of these\n"
     "roots: what it replaces is let go of."},
    {"given_out", given_out, METH_O,
     "given_out($self, frames, /)\n--\n\nThe buffers that these of the manager's stand for."},
    {"forget", forget, METH_O, "forget($self, comm_id, /)\n--\n\nThe comm is closed."},
    {NULL, NULL, 0, NULL},
};

static const char doc[] =
    "The long buffers of all comms. Its calls are made under the lock that the manager's are made under.";

static PyType_Slot slots[] = {
    {Py_tp_doc, (void *)doc},           {Py_tp_new, new_buffers},     {Py_tp_dealloc, end_buffers},
    {Py_tp_traverse, traverse_buffers}, {Py_tp_clear, clear_buffers}, {Py_tp_members, members},
    {Py_tp_methods, methods},           {Py_mp_length, length},       {0, NULL},
};

PyType_Spec long_buffers_type = {
    .name = "rolgunai._native.LongBuffers",
    .basicsize = sizeof(long_buffers),
    .flags = Py_TPFLAGS_DEFAULT | Py_TPFLAGS_BASETYPE | Py_TPFLAGS_HAVE_GC,
    .slots = slots,
};

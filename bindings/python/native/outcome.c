/* What a call came to, as an Outcome: tuples of what was gathered, which is theirs then; or an exception. */
#include "native.h"

PyObject *raised(const module_state *state, uint32_t status) {
  PyObject *error = PyObject_CallFunction(state->error, "k", (unsigned long)status);
  if (error) PyErr_SetObject((PyObject *)Py_TYPE(error), error);
  Py_XDECREF(error);
  return NULL;
}

static PyObject *taken(gathered *from) { return from->items[from->next++]; }

static PyObject *made_frames(const module_state *state, gathered *from) {
  Py_ssize_t count = 0;
  while (from->items[from->next + (size_t)count]) count++;
  PyObject *made = count ? PyTuple_New(count) : Py_NewRef(state->nothing);
  if (!made) return NULL;
  for (Py_ssize_t i = 0; i < count; i++) PyTuple_SetItem(made, i, taken(from));
  from->next++;
  return made;
}

/* A NamedTuple with room for its fields, as its own `__new__` makes it, without the way through Python. */
static PyObject *new_named(PyObject *type, Py_ssize_t fields) {
  allocfunc allocate = (allocfunc)PyType_GetSlot((PyTypeObject *)type, Py_tp_alloc);
  return allocate((PyTypeObject *)type, fields);
}

static PyObject *made_sent(const module_state *state, gathered *from) {
  enum { BUFFERS = 4, FIELDS };
  PyObject *sent = new_named(state->sent, FIELDS);
  if (!sent) return NULL;
  for (Py_ssize_t i = 0; i < BUFFERS; i++) PyTuple_SetItem(sent, i, taken(from));
  PyObject *buffers = made_frames(state, from);
  if (buffers) PyTuple_SetItem(sent, BUFFERS, buffers);
  else Py_CLEAR(sent);
  return sent;
}

static PyObject *made_messages(const module_state *state, gathered *from) {
  size_t ends = 0;
  for (size_t i = from->next; i < from->count; i++) ends += from->items[i] == NULL;
  if (!ends) return Py_NewRef(state->nothing);
  PyObject *made = PyTuple_New((Py_ssize_t)ends);
  for (size_t i = 0; made && i < ends; i++) {
    PyObject *message = made_sent(state, from);
    if (message) PyTuple_SetItem(made, (Py_ssize_t)i, message);
    else Py_CLEAR(made);
  }
  return made;
}

/* The member of an enumeration by its number. */
static PyObject *member(PyObject *members, uint32_t number) {
  PyObject *found = PyTuple_GetItem(members, (Py_ssize_t)number);
  return found ? Py_NewRef(found) : NULL;
}

static PyObject *made(const module_state *state, gathered *from) {
  enum { REPLY, REASON, INDEX, ID, TARGET, CONTENT, BUFFERS, SENT, FIELDS };
  PyObject *outcome = new_named(state->outcome, FIELDS);
  PyObject *values[FIELDS] = {member(state->replies, from->reply), member(state->reasons, from->reason),
                              PyLong_FromUnsignedLongLong(from->index), taken(from), taken(from), taken(from)};
  values[BUFFERS] = made_frames(state, from);
  if (values[BUFFERS]) values[SENT] = made_messages(state, from);
  for (Py_ssize_t i = 0; i < FIELDS; i++) {
    if (outcome && values[i]) PyTuple_SetItem(outcome, i, values[i]);
    else {
      Py_XDECREF(values[i]);
      Py_CLEAR(outcome);
    }
  }
  return outcome;
}

PyObject *made_outcome(const module_state *state, uint32_t status, gathered *from) {
  PyObject *outcome = status == ROLGUNAI_OK ? made(state, from) : NULL;
  gathered_end(from);
  if (outcome) return outcome;
  if (status != ROLGUNAI_OK) return raised(state, status);
  if (!PyErr_ExceptionMatches(PyExc_MemoryError)) return NULL;
  // The call is made, and there was no memory for what it came to.
  PyErr_Clear();
  return raised(state, ROLGUNAI_NO_TEXT);
}

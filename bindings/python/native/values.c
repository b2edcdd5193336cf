/* Copies of Python's lists, dicts and what is in them, as JSON has them. */
#include "native.h"

static PyObject *copied(PyObject *value, int depth);

static int is_container(PyObject *value) {
  return (PyType_GetFlags(Py_TYPE(value))
          & (Py_TPFLAGS_DICT_SUBCLASS | Py_TPFLAGS_LIST_SUBCLASS | Py_TPFLAGS_TUPLE_SUBCLASS)) != 0;
}

/* Another value of a key that is there leaves a dict's order as it is, so that the walk goes on. */
static int copy_members(PyObject *dict, int depth) {
  Py_ssize_t at = 0;
  PyObject *key, *item;
  while (PyDict_Next(dict, &at, &key, &item)) {
    if (!is_container(item)) continue;
    PyObject *own = copied(item, depth);
    int status = own ? PyDict_SetItem(dict, key, own) : -1;
    Py_XDECREF(own);
    if (status < 0) return -1;
  }
  return 0;
}

static int copy_items(PyObject *list, int depth) {
  for (Py_ssize_t i = 0; i < PyList_Size(list); i++) {
    PyObject *item = PyList_GetItem(list, i);
    if (!is_container(item)) continue;
    PyObject *own = copied(item, depth);
    if (!own || PyList_SetItem(list, i, own) < 0) return -1;
  }
  return 0;
}

static PyObject *copied(PyObject *value, int depth) {
  if (!is_container(value)) return Py_NewRef(value);
  if (depth == MOST_LEVELS) {
    PyErr_SetString(PyExc_RecursionError, "maximum recursion depth exceeded while copying a value");
    return NULL;
  }
  int is_dict = PyDict_Check(value);
  PyObject *made = is_dict ? PyDict_Copy(value) : PySequence_List(value);
  if (made && (is_dict ? copy_members : copy_items)(made, depth + 1) < 0) Py_CLEAR(made);
  return made;
}

PyObject *call_copied(PyObject *module, PyObject *value) {
  (void)module;
  return copied(value, 0);
}

/* ---- Buffers at their places in a state. */

/* Puts a buffer at its path: the list or dict that its last step is of is found by those before. */
static int place(PyObject *state, PyObject *path, PyObject *buffer) {
  Py_ssize_t last = PySequence_Size(path) - 1;
  PyObject *at = Py_NewRef(state);
  for (Py_ssize_t i = 0; at && i < last; i++) {
    PyObject *step = PySequence_GetItem(path, i), *within = step ? PyObject_GetItem(at, step) : NULL;
    Py_XDECREF(step);
    Py_DECREF(at);
    at = within;
  }
  PyObject *step = at ? PySequence_GetItem(path, last < 0 ? 0 : last) : NULL;
  int status = step ? PyObject_SetItem(at, step, buffer) : -1;
  Py_XDECREF(step);
  Py_XDECREF(at);
  return status;
}

PyObject *call_placed(PyObject *module, PyObject *const *given, Py_ssize_t count) {
  enum { STATE_OF, PATHS, BUFFERS, MOST };
  (void)module;
  if (count != MOST) {
    PyErr_Format(PyExc_TypeError, "placed() takes 3 positional arguments (%zd given)", count);
    return NULL;
  }
  PyObject *paths = PySequence_List(given[PATHS]), *buffers = paths ? PySequence_List(given[BUFFERS]) : NULL;
  int status = buffers ? 0 : -1;
  for (Py_ssize_t i = 0; status == 0 && i < PyList_Size(paths) && i < PyList_Size(buffers); i++)
    status = place(given[STATE_OF], PyList_GetItem(paths, i), PyList_GetItem(buffers, i));
  Py_XDECREF(buffers);
  Py_XDECREF(paths);
  return status < 0 ? NULL : Py_NewRef(given[STATE_OF]);
}

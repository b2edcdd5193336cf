/* Updates of widgets' states, which nearly each message is: a frontend's, as it comes off the socket, and the kernel's.
 * These are the plain ones; Python reads what is otherwise. */
#include "native.h"

typedef struct {
  PyObject *comm_id, *state;      /* which the message holds */
  PyObject *paths, *roots;        /* lists of one's own, or NULL where it has no buffers */
  PyObject *buffers;
} update;

static const char *const words[WORDS] = {
    [OF_CONTENT] = "content", [OF_DATA] = "data",         [OF_METHOD] = "method",
    [OF_COMM_ID] = "comm_id", [OF_STATE] = "state",       [OF_SYNC_DATA] = "sync_data",
    [OF_BUFFERS] = "buffers", [OF_PATHS] = "buffer_paths", [OF_KEYS] = "buffer_keys",
};

int make_words(PyObject **into) {
  for (size_t i = 0; i < WORDS; i++)
    if (!(into[i] = PyUnicode_InternFromString(words[i]))) return -1;
  return 0;
}

/* The value of a key of a dict, which is borrowed, or NULL where there is none, or it isn't of this type itself. */
static PyObject *item(PyObject *dict, PyObject *key, PyTypeObject *type) {
  PyObject *found = PyDict_GetItemWithError(dict, key);
  return found && Py_TYPE(found) == type ? found : NULL;
}

static int is_text(PyObject *object, const char *text) {
  return object && PyUnicode_CompareWithASCIIString(object, text) == 0;
}

/* Whether all of a state's keys are known. */
static int has_each(PyObject *known, PyObject *state) {
  Py_ssize_t at = 0;
  PyObject *key, *value;
  while (PyDict_Next(state, &at, &key, &value))
    if (!PyUnicode_CheckExact(key) || PySet_Contains(known, key) != 1) return 0;
  return 1;
}

/* Adds a path of this first step, which is the whole path where that is NULL. */
static int add_path(update *to, PyObject *root, PyObject *path) {
  PyObject *own = path ? Py_NewRef(path) : PyList_New(1);
  if (own && !path) PyList_SetItem(own, 0, Py_NewRef(root));
  int status = own && PyList_Append(to->paths, own) == 0 ? PyList_Append(to->roots, root) : -1;
  Py_XDECREF(own);
  return status;
}

/* Reads the paths of buffers: lists, or in version 1 of the protocol keys. Whether each begins with a known key, where
 * `known` isn't NULL. */
static int read_paths(update *into, PyObject *listed, int is_old, PyObject *known) {
  if (!listed || listed == Py_None) return 1;
  if (!PyList_CheckExact(listed)) return 0;
  Py_ssize_t count = PyList_Size(listed);
  if (count == 0) return 1;
  into->paths = PyList_New(0);
  into->roots = PyList_New(0);
  for (Py_ssize_t i = 0; i < count && into->paths && into->roots; i++) {
    PyObject *path = PyList_GetItem(listed, i);
    int is_path = !is_old && PyList_CheckExact(path) && PyList_Size(path) > 0;
    PyObject *root = is_old ? path : is_path ? PyList_GetItem(path, 0) : NULL;
    if (!root || !PyUnicode_CheckExact(root) || (known && PySet_Contains(known, root) != 1)) return 0;
    if (add_path(into, root, is_old ? NULL : path) < 0) return 0;
  }
  return into->paths && into->roots;
}

/* Whether a message is an update of a widget that is open, of which all keys are known. */
static int read_message(PyObject *const *named, PyObject *const *given, update *into) {
  PyObject *message = given[0], *targets = given[1], *keys = given[2];
  PyObject *content = PyDict_CheckExact(message) ? item(message, named[OF_CONTENT], &PyDict_Type) : NULL;
  PyObject *data = content ? item(content, named[OF_DATA], &PyDict_Type) : NULL;
  PyObject *method = data ? item(data, named[OF_METHOD], &PyUnicode_Type) : NULL;
  int is_old = is_text(method, "backbone");
  if (!is_old && !is_text(method, "update")) return 0;
  into->comm_id = item(content, named[OF_COMM_ID], &PyUnicode_Type);
  into->state = item(data, named[is_old ? OF_SYNC_DATA : OF_STATE], &PyDict_Type);
  if (!into->comm_id || !into->state) return 0;
  PyObject *known = PyDict_GetItemWithError(keys, into->comm_id);
  if (!known || !is_text(item(targets, into->comm_id, &PyUnicode_Type), "jupyter.widget")) return 0;
  into->buffers = PyDict_GetItemWithError(message, named[OF_BUFFERS]);
  PyObject *listed = PyDict_GetItemWithError(data, named[is_old ? OF_KEYS : OF_PATHS]);
  return has_each(known, into->state) && read_paths(into, listed, is_old, known);
}

/* Its parts: the comm's id, the content as JSON in version 2 of the protocol, a copy of the state, and the paths,
 * their first steps and the buffers, where it has any. */
static PyObject *made_parts(const update *of) {
  int has_buffers = of->buffers ? PyObject_IsTrue(of->buffers) : 0;
  if (has_buffers < 0) return NULL;
  if (!of->paths && !has_buffers) return Py_NewRef(Py_None);
  PyObject *none = PyTuple_New(0);
  if (!none) return NULL;
  PyObject *paths = of->paths ? of->paths : none, *roots = of->roots ? of->roots : none;
  PyObject *parts = PyTuple_Pack(3, paths, roots, has_buffers ? of->buffers : none);
  Py_DECREF(none);
  return parts;
}

static PyObject *made(PyObject *module, const update *of) {
  PyObject *told[] = {of->comm_id, of->state, of->paths ? of->paths : Py_None}, *update = NULL;
  PyObject *text = call_write_update(module, told, 3);
  PyObject *state = text ? call_copied(module, of->state) : NULL, *parts = state ? made_parts(of) : NULL;
  if (parts) update = PyTuple_Pack(4, of->comm_id, text, state, parts);
  Py_XDECREF(parts);
  Py_XDECREF(state);
  Py_XDECREF(text);
  return update;
}

static PyObject *ended(update *of, PyObject *made) {
  Py_XDECREF(of->paths);
  Py_XDECREF(of->roots);
  if (made) return made;
  if (PyErr_Occurred() && !PyErr_ExceptionMatches(PyExc_Exception)) return NULL;
  PyErr_Clear();
  return Py_NewRef(Py_None);
}

PyObject *call_read_update(PyObject *module, PyObject *const *given, Py_ssize_t count) {
  if (count != 3) {
    PyErr_Format(PyExc_TypeError, "read_update() takes 3 positional arguments (%zd given)", count);
    return NULL;
  }
  const module_state *state = PyModule_GetState(module);
  update read = {NULL, NULL, NULL, NULL, NULL};
  int is_plain = read_message(state->words, given, &read);
  return ended(&read, is_plain ? made(module, &read) : NULL);
}

/* ---- What the kernel says. */

static int read_said(PyObject *const *named, PyObject *data, int is_old, update *into) {
  if (!PyDict_CheckExact(data)) return 0;
  into->state = item(data, named[OF_STATE], &PyDict_Type);
  PyObject *listed = PyDict_GetItemWithError(data, named[is_old ? OF_BUFFERS : OF_PATHS]);
  return into->state && read_paths(into, listed, is_old, NULL);
}

/* The state and the paths as JSON, the state's keys, the key that each buffer lies under, and the buffers. */
static PyObject *made_said(PyObject *module, const update *of) {
  PyObject *none = PyTuple_New(0), *said = NULL;
  PyObject *text = none ? call_write(module, &of->state, 1) : NULL, *keys = text ? PyDict_Keys(of->state) : NULL;
  int has_buffers = keys && of->buffers != Py_None ? PyObject_IsTrue(of->buffers) : 0;
  PyObject *paths = keys && of->paths ? call_write(module, &of->paths, 1) : PyBytes_FromStringAndSize("[]", 2);
  PyObject *buffers = has_buffers > 0 ? PySequence_List(of->buffers) : Py_XNewRef(none);
  if (keys && paths && buffers && has_buffers >= 0)
    said = PyTuple_Pack(5, text, paths, keys, of->roots ? of->roots : none, buffers);
  Py_XDECREF(buffers);
  Py_XDECREF(paths);
  Py_XDECREF(keys);
  Py_XDECREF(text);
  Py_XDECREF(none);
  return said;
}

PyObject *call_write_said(PyObject *module, PyObject *const *given, Py_ssize_t count) {
  if (count != 3) {
    PyErr_Format(PyExc_TypeError, "write_said() takes 3 positional arguments (%zd given)", count);
    return NULL;
  }
  const module_state *state = PyModule_GetState(module);
  update read = {NULL, NULL, NULL, NULL, given[2]};
  int is_plain = read_said(state->words, given[0], given[1] == Py_True, &read);
  return ended(&read, is_plain ? made_said(module, &read) : NULL);
}

/* What a call is handed: texts, binary buffers and numbers. */
#include "native.h"

static const uint8_t no_bytes[1]; // since the library takes no null pointer

int read_text(PyObject *object, text *into) {
  char *bytes = NULL;
  Py_ssize_t size = 0;
  into->owner = NULL;
  if (PyUnicode_Check(object)) {
    bytes = (char *)PyUnicode_AsUTF8AndSize(object, &size);
    if (!bytes) return -1;
  } else if (PyBytes_Check(object)) {
    if (PyBytes_AsStringAndSize(object, &bytes, &size) < 0) return -1;
  } else if (PyObject_CheckBuffer(object)) {
    // Another thread may write into it while the library reads it.
    into->owner = PyBytes_FromObject(object);
    if (!into->owner || PyBytes_AsStringAndSize(into->owner, &bytes, &size) < 0) return -1;
  } else {
    PyErr_SetString(PyExc_TypeError, "a text is a str or a bytes-like object");
    return -1;
  }
  into->bytes = (const uint8_t *)bytes;
  into->size = (size_t)size;
  return 0;
}

void text_end(text *read) { Py_CLEAR(read->owner); }

int read_number(PyObject *object, uint32_t *into) {
  PyObject *number = PyNumber_Index(object);
  if (!number) return -1;
  unsigned long value = PyLong_AsUnsignedLong(number);
  Py_DECREF(number);
  if (value == (unsigned long)-1 && PyErr_Occurred()) return -1;
  if (value > UINT32_MAX) {
    PyErr_SetString(PyExc_OverflowError, "a number is larger than 4294967295");
    return -1;
  }
  *into = (uint32_t)value;
  return 0;
}

/* What a manager is made with. What is too large or below 0 is a limit that the library refuses. */
int read_limits(PyObject *arguments, PyObject *names, const char *format, size_t *comms, int *decimals) {
  static char *parameters[] = {"comms", "decimals", NULL};
  PyObject *given = NULL;
  *decimals = 0;
  if (!PyArg_ParseTupleAndKeywords(arguments, names, format, parameters, &given, decimals)) return -1;
  Py_ssize_t limit = given ? PyNumber_AsSsize_t(given, NULL) : 4096;
  *comms = (size_t)limit;
  return limit == -1 && PyErr_Occurred() ? -1 : 0;
}

/* Whether the buffer's bytes stand together; the order is theirs, C's or Fortran's, as where a kernel sends them. */
static int stands_together(const Py_buffer *view) { return PyBuffer_IsContiguous(view, 'A'); }

/* A view of the item, or of a copy of it where its bytes don't stand together. */
static int view_item(PyObject *item, Py_buffer *view) {
  if (!item || PyObject_GetBuffer(item, view, PyBUF_FULL_RO) < 0) return -1;
  if (stands_together(view)) return 0;
  PyBuffer_Release(view);
  PyObject *copy = PyBytes_FromObject(item);
  if (!copy) return -1;
  const int status = PyObject_GetBuffer(copy, view, PyBUF_SIMPLE);
  Py_DECREF(copy); // the view holds it
  return status;
}

static int view_each(PyObject *buffers, frames *read) {
  for (; read->views_held < read->count; read->views_held++) {
    Py_buffer *view = &read->views[read->views_held];
    if (view_item(PyTuple_GetItem(buffers, (Py_ssize_t)read->views_held), view) < 0) return -1;
    const size_t size = (size_t)view->len;
    read->list[read->views_held] = (rolgunai_frame){size ? view->buf : no_bytes, size};
    if (size > (size_t)PY_SSIZE_T_MAX - read->size) {
      read->views_held++;
      PyErr_NoMemory();
      return -1;
    }
    read->size += size;
  }
  return 0;
}

static int give_places(frames *read) {
  if (read->count <= FEW_FRAMES) {
    read->views = read->few_views;
    return 0;
  }
  read->list = malloc(read->count * sizeof *read->list);
  read->views = malloc(read->count * sizeof *read->views);
  if (read->list && read->views) return 0;
  PyErr_NoMemory();
  return -1;
}

int read_frames(PyObject *object, frames *into) {
  into->list = into->few;
  into->size = into->count = into->views_held = 0;
  into->views = NULL;
  if (!object || object == Py_None) return 0;
  // A tuple of their own, since a list may change while its items are asked for.
  PyObject *buffers = PySequence_Tuple(object);
  if (!buffers) return -1;
  into->count = (size_t)PyTuple_Size(buffers);
  int status = into->count ? give_places(into) : 0;
  if (status == 0) status = view_each(buffers, into);
  Py_DECREF(buffers);
  return status;
}

void frames_end(frames *read) {
  while (read->views_held) PyBuffer_Release(&read->views[--read->views_held]);
  if (read->count > FEW_FRAMES) {
    free(read->views);
    free(read->list);
  }
}

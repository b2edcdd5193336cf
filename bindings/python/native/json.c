/* JSON of Python's objects: what json.dumps writes of them, without blanks, in UTF-8. */
#include <math.h>

#include "native.h"

/* Of a text up to this length the UTF-8 is asked for that CPython keeps with the str; of a longer one a copy. */
enum { SHORT_TEXT = 4096 };

enum { FEW_BYTES = 1024 };

typedef struct {
  char *bytes;
  size_t size, room;
  PyObject *fallback;             /* what json.dumps calls `default`, or NULL */
  PyObject *not_finite;           /* the exception for nan and the infinities */
  PyObject *above[MOST_LEVELS];   /* the containers that are being written */
  size_t depth;
  char few[FEW_BYTES];
} writer;

static int write_value(writer *to, PyObject *value);

/* ---- Bytes. */

static int grow(writer *to, size_t more) {
  if (more > (size_t)PY_SSIZE_T_MAX - to->size) {
    PyErr_NoMemory();
    return -1;
  }
  size_t room = to->size + more;
  if (room < 2 * to->room) room = 2 * to->room;
  char *old = to->bytes == to->few ? NULL : to->bytes, *bytes = PyMem_Realloc(old, room);
  if (!bytes) {
    PyErr_NoMemory();
    return -1;
  }
  if (!old) memcpy(bytes, to->few, to->size);
  to->bytes = bytes;
  to->room = room;
  return 0;
}

static int reserve(writer *to, size_t more) { return to->room - to->size >= more ? 0 : grow(to, more); }

static int put(writer *to, const char *bytes, size_t size) {
  if (reserve(to, size) < 0) return -1;
  memcpy(to->bytes + to->size, bytes, size);
  to->size += size;
  return 0;
}

static int put_byte(writer *to, char byte) {
  if (reserve(to, 1) < 0) return -1;
  to->bytes[to->size++] = byte;
  return 0;
}

/* ---- Texts: in UTF-8, with escapes for what JSON wants escaped, and for lone surrogates, which UTF-8 hasn't. */

static int is_plain(uint8_t byte) { return byte >= ' ' && byte != '"' && byte != '\\'; }

/* Whether eight bytes are plain: each subtraction borrows, and so sets a top bit, only at a byte that isn't. */
static int are_plain(const uint8_t *bytes) {
  const uint64_t ones = 0x0101010101010101, tops = 0x80 * ones;
  uint64_t eight;
  memcpy(&eight, bytes, sizeof eight);
  uint64_t quotes = eight ^ '"' * ones, backslashes = eight ^ '\\' * ones;
  uint64_t found = (eight - ' ' * ones) & ~eight;
  found |= ((quotes - ones) & ~quotes) | ((backslashes - ones) & ~backslashes);
  return (found & tops) == 0;
}

/* How many bytes from here on stand for themselves in a text of JSON. */
static size_t plain_size(const uint8_t *bytes, size_t size) {
  size_t at = 0;
  while (size - at >= 8 && are_plain(bytes + at)) at += 8;
  while (at < size && is_plain(bytes[at])) at++;
  return at;
}

/* Writes \uXXXX. */
static int put_unit(writer *to, uint32_t unit) {
  static const char digits[] = "0123456789abcdef";
  char out[6] = {'\\', 'u', digits[unit >> 12 & 15], digits[unit >> 8 & 15], digits[unit >> 4 & 15], digits[unit & 15]};
  return put(to, out, sizeof out);
}

static int put_escaped(writer *to, uint8_t byte) {
  switch (byte) {
    case '"': return put(to, "\\\"", 2);
    case '\\': return put(to, "\\\\", 2);
    case '\b': return put(to, "\\b", 2);
    case '\f': return put(to, "\\f", 2);
    case '\n': return put(to, "\\n", 2);
    case '\r': return put(to, "\\r", 2);
    case '\t': return put(to, "\\t", 2);
    default: return put_unit(to, byte);
  }
}

static int put_characters(writer *to, const uint8_t *bytes, size_t size) {
  while (size) {
    size_t used = plain_size(bytes, size);
    if (put(to, (const char *)bytes, used) < 0) return -1;
    if (used < size && put_escaped(to, bytes[used++]) < 0) return -1;
    bytes += used;
    size -= used;
  }
  return 0;
}

/* Where the next lone surrogate stands, or the end: three bytes, as if it were a character. */
static const uint8_t *surrogate_at(const uint8_t *at, const uint8_t *end) {
  while (at < end && !(at[0] == 0xed && at[1] >= 0xa0)) at++;
  return at;
}

static int put_with_surrogates(writer *to, const uint8_t *bytes, size_t size) {
  const uint8_t *end = bytes + size;
  for (;;) {
    const uint8_t *at = surrogate_at(bytes, end);
    if (put_characters(to, bytes, (size_t)(at - bytes)) < 0) return -1;
    if (at == end) return 0;
    if (put_unit(to, 0xd000u | (at[1] & 0x3fu) << 6 | (at[2] & 0x3fu)) < 0) return -1;
    bytes = at + 3;
  }
}

/* Writes a text's copy in UTF-8, which is taken over. */
static int put_copy(writer *to, PyObject *copy, int (*put_bytes)(writer *, const uint8_t *, size_t)) {
  if (!copy) return -1;
  int status = put_bytes(to, (const uint8_t *)PyBytes_AsString(copy), (size_t)PyBytes_Size(copy));
  Py_DECREF(copy);
  return status;
}

static int put_text(writer *to, PyObject *text) {
  if (PyUnicode_GetLength(text) > SHORT_TEXT) {
    PyObject *copy = PyUnicode_AsUTF8String(text);
    if (copy) return put_copy(to, copy, put_characters);
  } else {
    Py_ssize_t size = 0;
    const char *bytes = PyUnicode_AsUTF8AndSize(text, &size);
    if (bytes) return put_characters(to, (const uint8_t *)bytes, (size_t)size);
  }
  if (!PyErr_ExceptionMatches(PyExc_UnicodeEncodeError)) return -1;
  PyErr_Clear();
  return put_copy(to, PyUnicode_AsEncodedString(text, "utf-8", "surrogatepass"), put_with_surrogates);
}

static int write_text(writer *to, PyObject *text) {
  return put_byte(to, '"') < 0 || put_text(to, text) < 0 ? -1 : put_byte(to, '"');
}

/* ---- Numbers. A subclass may say something else of itself: it's written as the int or float that it is. */

/* An int of any length: as int's own repr, which may refuse it (sys.set_int_max_str_digits). */
static int write_long_int(writer *to, PyObject *number) {
  reprfunc repr = (reprfunc)PyType_GetSlot(&PyLong_Type, Py_tp_repr);
  PyObject *text = repr(number);
  Py_ssize_t size = 0;
  const char *digits = text ? PyUnicode_AsUTF8AndSize(text, &size) : NULL;
  int status = digits ? put(to, digits, (size_t)size) : -1;
  Py_XDECREF(text);
  return status;
}

static int write_int(writer *to, PyObject *number) {
  int overflow = 0;
  long long value = PyLong_AsLongLongAndOverflow(number, &overflow);
  if (overflow) return write_long_int(to, number);
  if (value == -1 && PyErr_Occurred()) return -1;
  char digits[20], *end = digits + sizeof digits, *first = end;
  unsigned long long rest = value < 0 ? 0 - (unsigned long long)value : (unsigned long long)value;
  do *--first = (char)('0' + rest % 10);
  while (rest /= 10);
  if (value < 0) *--first = '-';
  return put(to, first, (size_t)(end - first));
}

static int write_float(writer *to, PyObject *number) {
  double value = PyFloat_AsDouble(number);
  if (!isfinite(value)) {
    PyErr_SetString(to->not_finite, "Out of range float values are not JSON compliant");
    return -1;
  }
  char *digits = PyOS_double_to_string(value, 'r', 0, Py_DTSF_ADD_DOT_0, NULL);
  if (!digits) return -1;
  int status = put(to, digits, strlen(digits));
  PyMem_Free(digits);
  return status;
}

/* The flags of a value's type, which say which of Python's own it is or is a subclass of: one call of CPython's. */
static unsigned long flags_of(PyObject *value) { return PyType_GetFlags(Py_TYPE(value)); }

/* Writes null, true, false or a number; gives 1 where the value is none of them. */
static int write_atom(writer *to, PyObject *value, unsigned long flags) {
  if (flags & Py_TPFLAGS_LONG_SUBCLASS) {
    if (value == Py_True) return put(to, "true", 4);
    return value == Py_False ? put(to, "false", 5) : write_int(to, value);
  }
  if (value == Py_None) return put(to, "null", 4);
  return PyFloat_Check(value) ? write_float(to, value) : 1;
}

/* ---- Containers. Each is on a row while it's written, so that one in itself is found. */

static int enter(writer *to, PyObject *container) {
  static const char too_deep[] = "maximum recursion depth exceeded while encoding a JSON object";
  for (size_t i = 0; i < to->depth; i++)
    if (to->above[i] == container) {
      PyErr_SetString(PyExc_ValueError, "Circular reference detected");
      return -1;
    }
  if (to->depth == MOST_LEVELS) {
    PyErr_SetString(PyExc_RecursionError, too_deep);
    return -1;
  }
  if (Py_EnterRecursiveCall(" while encoding a JSON object") != 0) return -1;
  to->above[to->depth++] = container;
  return 0;
}

static void leave(writer *to) {
  to->depth--;
  Py_LeaveRecursiveCall();
}

/* The items of a list or tuple itself, which what `fallback` runs may change meanwhile. */
static int write_items(writer *to, PyObject *sequence) {
  int is_list = PyList_CheckExact(sequence), status = 0;
  for (Py_ssize_t i = 0; status == 0 && i < (is_list ? PyList_Size(sequence) : PyTuple_Size(sequence)); i++) {
    PyObject *item = Py_XNewRef(is_list ? PyList_GetItem(sequence, i) : PyTuple_GetItem(sequence, i));
    status = !item ? -1 : i ? put_byte(to, ',') : 0;
    if (status == 0) status = write_value(to, item);
    Py_XDECREF(item);
  }
  return status;
}

/* Words about an object's type, as a TypeError; gives -1. */
static int refuse(const char *words, PyObject *object) {
  PyObject *name = PyType_GetName(Py_TYPE(object));
  if (name) PyErr_Format(PyExc_TypeError, words, name);
  Py_XDECREF(name);
  return -1;
}

static int write_key(writer *to, PyObject *key) {
  unsigned long flags = flags_of(key);
  if (flags & Py_TPFLAGS_UNICODE_SUBCLASS) return write_text(to, key);
  int status = put_byte(to, '"');
  if (status == 0) status = write_atom(to, key, flags);
  if (status == 1) return refuse("keys must be str, int, float, bool or None, not %U", key);
  return status == 0 ? put_byte(to, '"') : -1;
}

static int write_member(writer *to, Py_ssize_t place, PyObject *key, PyObject *value) {
  if (place && put_byte(to, ',') < 0) return -1;
  if (write_key(to, key) < 0 || put_byte(to, ':') < 0) return -1;
  return write_value(to, value);
}

/* A subclass of list or tuple says by its own __iter__ what it has. */
static int write_iterated(writer *to, PyObject *sequence) {
  PyObject *items = PySequence_List(sequence);
  int status = items ? write_items(to, items) : -1;
  Py_XDECREF(items);
  return status;
}

static int write_sequence(writer *to, PyObject *sequence) {
  int is_exact = PyList_CheckExact(sequence) || PyTuple_CheckExact(sequence);
  if (put_byte(to, '[') < 0 || (is_exact ? write_items : write_iterated)(to, sequence) < 0) return -1;
  return put_byte(to, ']');
}

static int write_members(writer *to, PyObject *dict) {
  Py_ssize_t at = 0, count = PyDict_Size(dict), place = 0;
  PyObject *key, *value;
  int status = 0;
  while (status == 0 && PyDict_Next(dict, &at, &key, &value)) {
    Py_INCREF(key);
    Py_INCREF(value);
    status = write_member(to, place++, key, value);
    Py_DECREF(key);
    Py_DECREF(value);
    if (status == 0 && (PyDict_Size(dict) != count || place > count)) {
      PyErr_SetString(PyExc_RuntimeError, "dictionary changed size during iteration");
      status = -1;
    }
  }
  return status;
}

/* A subclass of dict says by its own items() what it has. */
static int write_items_of(writer *to, PyObject *dict) {
  PyObject *items = PyMapping_Items(dict);
  int status = items ? 0 : -1;
  for (Py_ssize_t i = 0; status == 0 && i < PyList_Size(items); i++) {
    PyObject *item = Py_XNewRef(PyList_GetItem(items, i));
    if (item && PyTuple_Check(item) && PyTuple_Size(item) == 2) {
      status = write_member(to, i, PyTuple_GetItem(item, 0), PyTuple_GetItem(item, 1));
    } else {
      if (item) PyErr_SetString(PyExc_ValueError, "items must return 2-tuples");
      status = -1;
    }
    Py_XDECREF(item);
  }
  Py_XDECREF(items);
  return status;
}

static int write_dict(writer *to, PyObject *dict) {
  if (put_byte(to, '{') < 0) return -1;
  if (PyDict_Size(dict) && (PyDict_CheckExact(dict) ? write_members : write_items_of)(to, dict) < 0) return -1;
  return put_byte(to, '}');
}

static int write_fallback(writer *to, PyObject *value) {
  if (!to->fallback) return refuse("Object of type %U is not JSON serializable", value);
  PyObject *made = PyObject_CallFunctionObjArgs(to->fallback, value, NULL);
  int status = made ? write_value(to, made) : -1;
  Py_XDECREF(made);
  return status;
}

static int write_value(writer *to, PyObject *value) {
  unsigned long flags = flags_of(value);
  if (flags & Py_TPFLAGS_UNICODE_SUBCLASS) return write_text(to, value);
  int status = write_atom(to, value, flags);
  if (status != 1) return status;
  if (enter(to, value) < 0) return -1;
  if (flags & Py_TPFLAGS_DICT_SUBCLASS) status = write_dict(to, value);
  else if (flags & (Py_TPFLAGS_LIST_SUBCLASS | Py_TPFLAGS_TUPLE_SUBCLASS)) status = write_sequence(to, value);
  else status = write_fallback(to, value);
  leave(to);
  return status;
}

/* ---- The calls. */

static void begin(writer *to, PyObject *module, PyObject *fallback) {
  const module_state *state = PyModule_GetState(module);
  to->bytes = to->few;
  to->room = sizeof to->few;
  to->size = to->depth = 0;
  to->fallback = fallback == Py_None ? NULL : fallback;
  to->not_finite = state->not_finite;
}

static PyObject *written(writer *to, int status) {
  PyObject *made = status == 0 ? PyBytes_FromStringAndSize(to->bytes, (Py_ssize_t)to->size) : NULL;
  if (to->bytes != to->few) PyMem_Free(to->bytes);
  return made;
}

PyObject *call_write(PyObject *module, PyObject *const *arguments, Py_ssize_t count) {
  if (count != 1 && count != 2) {
    PyErr_Format(PyExc_TypeError, "write() takes 1 or 2 positional arguments (%zd given)", count);
    return NULL;
  }
  writer to;
  begin(&to, module, count == 2 ? arguments[1] : Py_None);
  return written(&to, write_value(&to, arguments[0]));
}

static int write_field(writer *to, const char *before, PyObject *value) {
  return put(to, before, strlen(before)) < 0 ? -1 : write_value(to, value);
}

PyObject *call_write_update(PyObject *module, PyObject *const *arguments, Py_ssize_t count) {
  enum { ID, STATE_OF, PATHS, MOST };
  if (count != MOST) {
    PyErr_Format(PyExc_TypeError, "write_update() takes 3 positional arguments (%zd given)", count);
    return NULL;
  }
  writer to;
  begin(&to, module, Py_None);
  int status = write_field(&to, "{\"comm_id\":", arguments[ID]);
  if (status == 0) status = write_field(&to, ",\"data\":{\"method\":\"update\",\"state\":", arguments[STATE_OF]);
  if (status == 0 && arguments[PATHS] != Py_None) status = write_field(&to, ",\"buffer_paths\":", arguments[PATHS]);
  if (status == 0) status = put(&to, "}}", 2);
  return written(&to, status);
}

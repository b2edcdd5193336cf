/* The calls of a manager: their parameters, and what each was handed, by place or by name. */
#include "native.h"

enum { MOST_PARAMETERS = 6 };

/* Of the parameters `positional` may be given by place too, those from `required` on needn't be given, and so many are
 * texts. */
typedef struct {
  const char *name;
  Py_ssize_t required, positional;
  size_t texts;
  const char *parameters[MOST_PARAMETERS + 1];
} signature;

static const char client[] = "client";
static const signature signatures[] = {
    [MESSAGE] = {"message", 3, 4, 3, {"header", "metadata", "content", "buffers", client}},
    [REGISTER] = {"register", 2, 2, 1, {"kind", "name", client}},
    [UNREGISTER] = {"unregister", 1, 1, 1, {"name", client}},
    [LAUNCH] = {"launch", 3, 5, 4, {"target", "uuid", "state", "paths", "buffers", client}},
    [PUSH] = {"push", 2, 4, 3, {"comm_id", "state", "paths", "buffers", client}},
    [SEND] = {"send", 2, 3, 2, {"comm_id", "data", "buffers", client}},
    [CLOSE] = {"close", 1, 1, 1, {"comm_id", client}},
    [STATE] = {"state", 1, 1, 1, {"comm_id"}},
};

static int read_named(const signature *of, int is_numbered, PyObject *name, PyObject *value, PyObject **given) {
  Py_ssize_t at = 0;
  while (of->parameters[at] && PyUnicode_CompareWithASCIIString(name, of->parameters[at]) != 0) at++;
  if (!of->parameters[at] || (!is_numbered && of->parameters[at] == client)) {
    PyErr_Format(PyExc_TypeError, "%s() got an unexpected keyword argument '%U'", of->name, name);
    return -1;
  }
  if (given[at]) {
    PyErr_Format(PyExc_TypeError, "%s() got multiple values for argument '%U'", of->name, name);
    return -1;
  }
  given[at] = value;
  return 0;
}

/* Sorts arguments by the names of the parameters; those that aren't given are NULL. */
static int sort(const signature *of, int is_numbered, PyObject *const *arguments, Py_ssize_t count, PyObject *names,
                PyObject **given) {
  if (count > of->positional) {
    PyErr_Format(PyExc_TypeError, "%s() takes at most %zd positional arguments (%zd given)", of->name, of->positional,
                 count);
    return -1;
  }
  for (Py_ssize_t i = 0; i < MOST_PARAMETERS; i++) given[i] = i < count ? arguments[i] : NULL;
  Py_ssize_t named = names ? PyTuple_Size(names) : 0;
  for (Py_ssize_t i = 0; i < named; i++)
    if (read_named(of, is_numbered, PyTuple_GetItem(names, i), arguments[count + i], given) < 0) return -1;
  for (Py_ssize_t i = 0; i < of->required; i++)
    if (!given[i]) {
      PyErr_Format(PyExc_TypeError, "%s() is missing the argument '%s'", of->name, of->parameters[i]);
      return -1;
    }
  return 0;
}

static int read_given(const signature *of, PyObject **given, request *into) {
  static const text no_paths = {(const uint8_t *)"[]", 2, NULL};
  Py_ssize_t at = 0;
  if (into->call == REGISTER && read_number(given[at++], &into->kind) < 0) return -1;
  while (into->text_count < of->texts) {
    text *next = &into->texts[into->text_count++];
    PyObject *argument = given[at++];
    if (!argument) *next = no_paths;
    else if (read_text(argument, next) < 0) return -1;
  }
  if (at < of->positional && read_frames(given[at++], &into->buffers) < 0) return -1;
  return given[at] ? read_number(given[at], &into->client) : 0;
}

int read_request(enum call call, int is_numbered, PyObject *const *arguments, Py_ssize_t count, PyObject *names,
                 request *into) {
  PyObject *given[MOST_PARAMETERS];
  const signature *of = &signatures[call];
  into->call = call;
  into->client = into->kind = 0;
  into->text_count = 0;
  read_frames(NULL, &into->buffers);
  return sort(of, is_numbered, arguments, count, names, given) < 0 ? -1 : read_given(of, given, into);
}

void request_end(request *of) {
  frames_end(&of->buffers);
  for (size_t i = 0; i < of->text_count; i++) text_end(&of->texts[i]);
}

PyThreadState *let_go_for(const request *of) {
  size_t work = of->buffers.size;
  for (size_t i = 0; i < of->text_count; i++) work += of->texts[i].size * WORK_OF_JSON;
  return work >= LONG_WORK ? PyEval_SaveThread() : NULL;
}

void take_back(PyThreadState *let_go) {
  if (let_go) PyEval_RestoreThread(let_go);
}

/* The module rolgunai._native. */
#include "native.h"

static PyModuleDef definition;

PyObject *module_of(PyTypeObject *type) {
  for (PyTypeObject *at = type; at; at = PyType_GetSlot(at, Py_tp_base)) {
    PyObject *module = PyType_GetModule(at);
    if (module && PyModule_GetDef(module) == &definition) return module;
    PyErr_Clear();
  }
  PyErr_SetString(PyExc_TypeError, "no subclass of rolgunai.Manager");
  return NULL;
}

/* The members of an enumeration whose numbers are 0, 1 and so on. */
static PyObject *members(PyObject *types, const char *name) {
  PyObject *enumeration = PyObject_GetAttrString(types, name);
  PyObject *made = enumeration ? PySequence_Tuple(enumeration) : NULL;
  Py_XDECREF(enumeration);
  return made;
}

static PyObject *named_by(const char *module, const char *name) {
  PyObject *imported = PyImport_ImportModule(module);
  PyObject *found = imported ? PyObject_GetAttrString(imported, name) : NULL;
  Py_XDECREF(imported);
  return found;
}

static int fill(module_state *state, PyObject *types) {
  static const char *const names[TYPES] = {"comm_open", "comm_msg", "comm_close", "comm_info_reply"};
  for (size_t i = 0; i < TYPES; i++)
    if (!(state->types[i] = PyUnicode_InternFromString(names[i]))) return -1;
  if (make_words(state->words) < 0) return -1;
  state->outcome = PyObject_GetAttrString(types, "Outcome");
  state->sent = PyObject_GetAttrString(types, "Sent");
  state->error = PyObject_GetAttrString(types, "error_of");
  state->not_finite = PyObject_GetAttrString(types, "NotFiniteError");
  state->replies = members(types, "Reply");
  state->reasons = members(types, "Reason");
  state->empty = PyBytes_FromStringAndSize("{}", 2);
  state->nothing = PyTuple_New(0);
  state->seat = PyUnicode_InternFromString("seat");
  state->thread_local = named_by("threading", "local");
  state->known_traits = PyDict_New();
  state->trait_values = PyUnicode_InternFromString("_trait_values");
  if (!state->known_traits || !state->trait_values) return -1;
  if (!state->seat || !state->thread_local) return -1;
  return state->outcome && state->sent && state->error && state->not_finite && state->replies && state->reasons
                 && state->empty && state->nothing
             ? 0
             : -1;
}

static int add_type(PyObject *module, PyType_Spec *of, const char *name) {
  PyObject *type = PyType_FromModuleAndSpec(module, of, NULL);
  if (!type) return -1;
  int status = PyModule_AddObjectRef(module, name, type);
  Py_DECREF(type);
  return status;
}

static int make_module(PyObject *module) {
  module_state *state = PyModule_GetState(module);
  PyObject *types = PyImport_ImportModule("rolgunai._types");
  int status = types ? fill(state, types) : -1;
  Py_XDECREF(types);
  if (status < 0) return -1;
  state->seat_type = PyType_FromModuleAndSpec(module, &seat_type, NULL);
  state->watch_type = PyType_FromModuleAndSpec(module, &watch_type, NULL);
  if (!state->seat_type || !state->watch_type || add_type(module, &manager_type, "Manager") < 0) return -1;
  if (PyModule_AddObjectRef(module, "Watch", state->watch_type) < 0) return -1;
  if (add_type(module, &watches_type, "Watches") < 0) return -1;
  if (add_type(module, &shared_type, "SharedManager") < 0 || add_type(module, &turns_type, "Turns") < 0) return -1;
  if (add_type(module, &long_buffers_type, "LongBuffers") < 0) return -1;
  return add_type(module, &event_pipe_type, "EventPipe");
}

static int traverse_module(PyObject *module, visitproc visit, void *arg) {
  module_state *state = PyModule_GetState(module);
  Py_VISIT(state->thread_local);
  Py_VISIT(state->seat_type);
  Py_VISIT(state->watch_type);
  Py_VISIT(state->known_traits);
  Py_VISIT(state->outcome);
  Py_VISIT(state->sent);
  Py_VISIT(state->error);
  Py_VISIT(state->not_finite);
  Py_VISIT(state->replies);
  Py_VISIT(state->reasons);
  return 0;
}

static void free_module(void *module) {
  module_state *state = PyModule_GetState(module);
  Py_CLEAR(state->thread_local);
  Py_CLEAR(state->seat_type);
  Py_CLEAR(state->watch_type);
  Py_CLEAR(state->known_traits);
  Py_CLEAR(state->trait_values);
  Py_CLEAR(state->seat);
  Py_CLEAR(state->outcome);
  Py_CLEAR(state->sent);
  Py_CLEAR(state->error);
  Py_CLEAR(state->not_finite);
  Py_CLEAR(state->replies);
  Py_CLEAR(state->reasons);
  Py_CLEAR(state->empty);
  Py_CLEAR(state->nothing);
  for (size_t i = 0; i < TYPES; i++) Py_CLEAR(state->types[i]);
  for (size_t i = 0; i < WORDS; i++) Py_CLEAR(state->words[i]);
}

static PyMethodDef functions[] = {
    {"write", (PyCFunction)(void (*)(void))call_write, METH_FASTCALL,
     "write($module, value, default=None, /)\n--\n\n"
     "Writes JSON, the text of json.dumps(value, separators=(',', ':'), allow_nan=False, default=default) in bytes."},
    {"write_update", (PyCFunction)(void (*)(void))call_write_update, METH_FASTCALL,
     "write_update($module, comm_id, state, paths, /)\n--\n\n"
     "Writes the content of a `comm_msg`: a widget's update, with buffers at these paths where they aren't None."},
    {"read_update", (PyCFunction)(void (*)(void))call_read_update, METH_FASTCALL,
     "read_update($module, message, targets, keys, /)\n--\n\n"
     "Reads a frontend's update of an open widget, whose keys are all known: the comm's id, the content as JSON, a\n"
     "copy of the state, and, where it has buffers, their paths, the key that each lies under, and the buffers. None\n"
     "of any other message. `targets` and `keys` have comms' targets and widgets' keys by the comms' ids."},
    {"write_said", (PyCFunction)(void (*)(void))call_write_said, METH_FASTCALL,
     "write_said($module, data, is_old, buffers, /)\n--\n\n"
     "Writes an update of the kernel's, in version 1 of the protocol where `is_old`: the state and its buffers' paths\n"
     "as JSON, the state's keys, the key that each buffer lies under, and the buffers. None of what isn't plain JSON."},
    {"copied", call_copied, METH_O,
     "copied($module, value, /)\n--\n\n"
     "A value that stays as it is, whatever is done with the lists and dicts of this one. A tuple becomes a list."},
    {"placed", (PyCFunction)(void (*)(void))call_placed, METH_FASTCALL,
     "placed($module, state, paths, buffers, /)\n--\n\nThe state itself, with its buffers at their paths."},
    {"know_traits", (PyCFunction)(void (*)(void))call_know_traits, METH_FASTCALL,
     "know_traits($module, type, defaults, /)\n--\n\n"
     "Has `trait` read what objects of just this type have in `_trait_values`, or else what is in `defaults`, past\n"
     "the type's descriptors."},
    {"trait", (PyCFunction)(void (*)(void))call_trait, METH_FASTCALL,
     "trait($module, object, name, default=.., /)\n--\n\nWhat getattr gives."},
    {NULL, NULL, 0, NULL},
};

static PyModuleDef_Slot slots[] = {{Py_mod_exec, make_module}, {0, NULL}};

static PyModuleDef definition = {
    PyModuleDef_HEAD_INIT,
    .m_name = "rolgunai._native",
    .m_doc = "Rolgunai's library for C, for rolgunai/__init__.py.",
    .m_size = sizeof(module_state),
    .m_methods = functions,
    .m_slots = slots,
    .m_traverse = traverse_module,
    .m_free = free_module,
};

PyMODINIT_FUNC PyInit__native(void) { return PyModuleDef_Init(&definition); }

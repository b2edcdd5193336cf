/* Traits of traitlets', which has Python run two functions for each that is read, and many for one that has no value
 * yet. */
#include "native.h"

PyObject *call_know_traits(PyObject *module, PyObject *const *given, Py_ssize_t count) {
  const module_state *state = PyModule_GetState(module);
  if (count != 2 || !PyDict_Check(given[1])) {
    PyErr_SetString(PyExc_TypeError, "know_traits() takes a type and a dict");
    return NULL;
  }
  return PyDict_SetItem(state->known_traits, given[0], given[1]) < 0 ? NULL : Py_NewRef(Py_None);
}

/* What an object of a known class has of a name, or else what that class has for all; NULL without an exception where
 * there is neither. */
static PyObject *value_of(const module_state *state, PyObject *object, PyObject *name) {
  PyObject *defaults = PyDict_GetItemWithError(state->known_traits, (PyObject *)Py_TYPE(object));
  PyObject *values = defaults ? PyObject_GetAttr(object, state->trait_values) : NULL, *value = NULL;
  if (values && PyDict_CheckExact(values)) {
    value = PyDict_GetItemWithError(values, name);
    if (!value && !PyErr_Occurred()) value = PyDict_GetItemWithError(defaults, name);
  }
  Py_XINCREF(value);
  Py_XDECREF(values);
  if (!value) PyErr_Clear();
  return value;
}

PyObject *call_trait(PyObject *module, PyObject *const *given, Py_ssize_t count) {
  if (count != 2 && count != 3) {
    PyErr_Format(PyExc_TypeError, "trait() takes 2 or 3 positional arguments (%zd given)", count);
    return NULL;
  }
  PyObject *value = value_of(PyModule_GetState(module), given[0], given[1]);
  if (!value) value = PyObject_GetAttr(given[0], given[1]);
  if (value || count == 2 || !PyErr_ExceptionMatches(PyExc_AttributeError)) return value;
  PyErr_Clear();
  return Py_NewRef(given[2]);
}

/* The clients of a manager that threads share: one a thread, as long as it lives, and one that all others use. */
#include "native.h"

/* What a thread has in its threading.local: it goes with the thread, or with the manager. */
typedef struct {
  PyObject_HEAD
  shared *of;
  seat *at;
} held_seat;

static void seat_end(seat *at) {
  rolgunai_client_free(&at->client);
  source_end(&at->from);
  free(at);
}

static seat *new_seat(const module_state *state) {
  seat *made = calloc(1, sizeof *made);
  if (!made) return NULL;
  made->from.state = state;
  made->from.client = &made->client;
  if (give_room(&made->from, FRAME_ROOM) == 0) return made;
  seat_end(made);
  return NULL;
}

/* One more seat, with the gate held; NULL where there is none left, or no memory. */
static seat *joined(shared *of, uint32_t *status) {
  seat *made = new_seat(of->first->from.state);
  *status = made ? rolgunai_client_join(&of->first->client, &made->client) : ROLGUNAI_MEMORY;
  if (*status == ROLGUNAI_OK) return made;
  if (*status == ROLGUNAI_NO_SEAT) of->is_full = 1;
  if (made) seat_end(made);
  return NULL;
}

void keep_spare(shared *of) {
  uint32_t status;
  if (!of->spare && !of->is_full) of->spare = joined(of, &status);
}

/* Takes a spare seat, or makes one; NULL where none is left. -1 with an exception. */
static int take_seat(shared *of, seat **into) {
  uint32_t status = ROLGUNAI_OK;
  if (!of->spare && !of->is_full) {
    take_lock(of->gate);
    if (!of->spare) of->spare = joined(of, &status);
    PyThread_release_lock(of->gate);
  }
  *into = of->spare;
  if (*into) of->spare = (*into)->next;
  if (*into || of->is_full) return 0;
  raised(of->first->from.state, status);
  return -1;
}

/* A thread's first call: its seat is held by its threading.local; NULL without an exception where none is left. */
static held_seat *hold_seat(shared *of, PyObject *local) {
  const module_state *state = of->first->from.state;
  PyTypeObject *type = (PyTypeObject *)state->seat_type;
  seat *at;
  if (take_seat(of, &at) < 0 || !at) return NULL;
  allocfunc allocate = (allocfunc)PyType_GetSlot(type, Py_tp_alloc);
  held_seat *held = (held_seat *)allocate(type, 0);
  if (!held) {
    at->next = of->spare;
    of->spare = at;
    return NULL;
  }
  held->of = of;
  held->at = at;
  of->holders++;
  if (PyObject_SetAttr(local, state->seat, (PyObject *)held) < 0) Py_CLEAR(held);
  return held;
}

int seat_of_thread(shared *of, PyObject *local, seat **into) {
  unsigned long thread = PyThread_get_thread_ident();
  *into = of->thread == thread ? of->seat_of_it : NULL;
  if (*into) return 0;
  held_seat *held = (held_seat *)PyObject_GetAttr(local, of->first->from.state->seat);
  if (!held) {
    if (!PyErr_ExceptionMatches(PyExc_AttributeError)) return -1;
    PyErr_Clear();
    held = hold_seat(of, local);
    if (!held) return PyErr_Occurred() ? -1 : 0;
  }
  of->thread = thread;
  *into = of->seat_of_it = held->at;
  Py_DECREF(held);
  return 0;
}

/* A thread that has ended gives its seat back. One whose call never returns, as a daemon's where Python ends, keeps
 * it. */
static void let_go_of_seat(PyObject *object) {
  held_seat *self = (held_seat *)object;
  PyTypeObject *type = Py_TYPE(object);
  shared *of = self->of;
  seat *at = self->at;
  if (at && of->seat_of_it == at) of->seat_of_it = NULL;
  if (at && !at->is_inside) {
    Py_CLEAR(at->from.comm_id);
    Py_CLEAR(at->from.target);
    at->has_called = 0;
    at->next = of->spare;
    of->spare = at;
    shared_let_go(of);
  }
  freefunc release = (freefunc)PyType_GetSlot(type, Py_tp_free);
  release(object);
  Py_DECREF(type);
}

/* ---- What they share. */

shared *new_shared(const module_state *state) {
  shared *made = calloc(1, sizeof *made);
  if (!made) return NULL;
  made->holders = 1;
  made->first = new_seat(state);
  made->gate = PyThread_allocate_lock();
  if (made->first && made->gate) return made;
  shared_let_go(made);
  return NULL;
}

void shared_let_go(shared *of) {
  if (--of->holders > 0) return;
  while (of->spare) {
    seat *at = of->spare;
    of->spare = at->next;
    seat_end(at);
  }
  if (of->first) seat_end(of->first);
  if (of->gate) PyThread_free_lock(of->gate);
  free(of);
}

static PyType_Slot slots[] = {{Py_tp_dealloc, let_go_of_seat}, {0, NULL}};

PyType_Spec seat_type = {
    .name = "rolgunai._native._Seat",
    .basicsize = sizeof(held_seat),
    .flags = Py_TPFLAGS_DEFAULT | Py_TPFLAGS_DISALLOW_INSTANTIATION,
    .slots = slots,
};

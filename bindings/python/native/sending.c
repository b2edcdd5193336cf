/* What the calls of Turns send, in their order: one thread sends at a time, and no lock is held meanwhile. A thread
 * whose turn hasn't come waits until what it has to send is out, and lets the GIL go. */
#include "turns.h"

int put_outgoing(turns *self, PyObject *f, PyObject *arguments) {
  outgoing *made = malloc(sizeof *made);
  if (!made) {
    PyErr_NoMemory();
    return -1;
  }
  *made = (outgoing){Py_NewRef(f), Py_NewRef(arguments), self->sends, NULL};
  if (made->of) made->of->left++;
  if (self->last) self->last->next = made;
  else self->first = made;
  self->last = made;
  return 0;
}

static void end(outgoing *of) {
  Py_DECREF(of->f);
  Py_DECREF(of->arguments);
  free(of);
}

/* Whether what comes next is for this thread to send: its own, which a signal's handler may have put there while an
 * earlier call waits; what nobody waits for; or what another one waits for and comes before its own. So a thread that
 * says much needn't stop each time for one that has to be given the processor first. */
static int is_next(const turns *self, const batch *mine) {
  const outgoing *next = self->first;
  if (!next) return 0;
  if (!next->of || next->of->thread == mine->thread) return 1;
  return mine->left && mine->thread != self->main_thread;
}

static void wake(batch *waiting) {
  if (!waiting->is_waiting) return;
  waiting->is_waiting = 0;
  PyThread_release_lock(waiting->woken);
}

static void send_next(turns *self, batch *mine) {
  outgoing *next = self->sending = self->first;
  self->first = next->next;
  if (!self->first) self->last = NULL;
  PyObject *result = PyObject_Call(next->f, next->arguments, NULL);
  if (!result && next->of) catch(&next->of->error);
  else if (!result) failed(self, &self->after_sending, &mine->error);
  // Its thread may have left meanwhile, and then it is of nobody.
  if (next->of && --next->of->left == 0) wake(next->of);
  self->sending = NULL;
  Py_XDECREF(result);
  end(next);
}

/* Has the thread go on whose turn it is. */
static void wake_next(turns *self) {
  const batch *next = self->first ? self->first->of : NULL;
  for (batch *at = self->waiters; next && at; at = at->next)
    if (at->thread == next->thread) wake(at);
}

static void send_line(turns *self, batch *mine) {
  self->sender = mine->thread;
  while (is_next(self, mine)) {
    send_next(self, mine);
    make_waiting(self, &mine->error);
  }
  PyObject *afterwards = self->after_sending;
  self->after_sending = NULL;
  self->sender = 0;
  wake_next(self);
  make_each(afterwards, &mine->error);
}

/* This thread waits no longer: whichever sends next sends for it. */
static void leave(turns *self, batch *mine) {
  catch(&mine->error);
  if (self->sending && self->sending->of == mine) self->sending->of = NULL;
  for (outgoing *at = self->first; at; at = at->next)
    if (at->of == mine) at->of = NULL;
  mine->left = 0;
}

static void wait_for_lock(batch *mine) {
  mine->is_waiting = 1;
  PyThreadState *let_go = PyEval_SaveThread();
  PyThread_acquire_lock_timed(mine->woken, -1, 1);
  PyEval_RestoreThread(let_go);
  // After a signal another thread may have given it back nevertheless.
  if (!mine->is_waiting) PyThread_acquire_lock(mine->woken, NOWAIT_LOCK);
  mine->is_waiting = 0;
}

static void wait_for_turn(turns *self, batch *mine) {
  if (!mine->woken) {
    mine->woken = PyThread_allocate_lock();
    if (mine->woken) PyThread_acquire_lock(mine->woken, NOWAIT_LOCK);
    else PyErr_NoMemory();
  }
  if (mine->woken) {
    mine->next = self->waiters;
    self->waiters = mine;
    wait_for_lock(mine);
    batch **at = &self->waiters;
    while (*at != mine) at = &(*at)->next;
    *at = mine->next;
  }
  if (!mine->woken || PyErr_CheckSignals() < 0) leave(self, mine);
}

void send_each(turns *self, batch *mine) {
  while (mine->left || (self->first && !self->first->of)) {
    if (!self->sender && is_next(self, mine)) send_line(self, mine);
    else if (mine->left) wait_for_turn(self, mine);
    else break; /* the thread that sends looks again before it stops */
  }
  if (mine->woken) PyThread_free_lock(mine->woken);
}

int traverse_outgoing(turns *self, visitproc visit, void *arg) {
  for (outgoing *at = self->first; at; at = at->next) {
    Py_VISIT(at->f);
    Py_VISIT(at->arguments);
  }
  return 0;
}

void end_outgoing(turns *self) {
  while (self->first) {
    outgoing *next = self->first;
    self->first = next->next;
    end(next);
  }
  self->last = NULL;
}

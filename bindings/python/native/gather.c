/* What a call came to: from the library's parts to Python's objects, in a row. */
#include "native.h"

/* What a part is made into: bytes, a str, or a sent message's type. */
enum form { BYTES, FRAME, COMM_ID, TARGET, TYPE };

typedef struct {
  int is_reply;
  size_t message, part;
  enum form form;
} place;

static const char *const type_names[TYPES] = {"comm_open", "comm_msg", "comm_close", "comm_info_reply"};

static uint32_t copied(source *from, const place *of, uint8_t *out, size_t out_size, size_t *size) {
  if (from->client)
    return of->is_reply ? rolgunai_client_copy_reply_part(from->client, of->part, out, out_size, size)
                        : rolgunai_client_copy_sent_part(from->client, of->message, of->part, out, out_size, size);
  return of->is_reply ? rolgunai_copy_reply_part(from->handle, of->part, out, out_size, size)
                      : rolgunai_copy_sent_part(from->handle, of->message, of->part, out, out_size, size);
}

int give_room(source *from, size_t size) {
  if (size <= from->room_size) return 0;
  if (size < 2 * from->room_size) size = 2 * from->room_size;
  uint8_t *room = realloc(from->room, size);
  if (!room) return -1;
  from->room = room;
  from->room_size = size;
  return 0;
}

/* A str: the last one, if it is the same. */
static PyObject *made_str(const char *bytes, size_t size, PyObject **last) {
  Py_ssize_t last_size = 0;
  const char *known = *last ? PyUnicode_AsUTF8AndSize(*last, &last_size) : NULL;
  if (known && (size_t)last_size == size && memcmp(known, bytes, size) == 0) return Py_NewRef(*last);
  PyObject *made = PyUnicode_DecodeUTF8(bytes, (Py_ssize_t)size, "strict");
  if (made && size <= FRAME_ROOM) {
    Py_XDECREF(*last);
    *last = Py_NewRef(made);
  }
  return made;
}

static PyObject *made_part(source *from, enum form form, size_t size) {
  const char *bytes = (const char *)from->room;
  if (form == COMM_ID) return made_str(bytes, size, &from->comm_id);
  if (form == TARGET) return made_str(bytes, size, &from->target);
  if (form == TYPE)
    for (size_t i = 0; i < TYPES; i++)
      if (strlen(type_names[i]) == size && memcmp(bytes, type_names[i], size) == 0)
        return Py_NewRef(from->state->types[i]);
  if (size == 2 && memcmp(bytes, "{}", 2) == 0) return Py_NewRef(from->state->empty);
  return PyBytes_FromStringAndSize(bytes, (Py_ssize_t)size);
}

/* A part that is longer than the room: copied into what it stays in. */
static uint32_t gather_long(source *from, const place *of, size_t size, PyObject **into) {
  PyObject *made = PyBytes_FromStringAndSize(NULL, (Py_ssize_t)size);
  if (!made) {
    PyErr_Clear();
    return ROLGUNAI_NO_TEXT;
  }
  uint8_t *out = (uint8_t *)PyBytes_AsString(made);
  size_t work = of->form == FRAME ? size : size * WORK_OF_JSON, again;
  PyThreadState *let_go = work >= LONG_WORK ? PyEval_SaveThread() : NULL;
  uint32_t status = copied(from, of, out, size, &again);
  if (let_go) PyEval_RestoreThread(let_go);
  if (status == ROLGUNAI_OK) *into = made;
  else Py_DECREF(made);
  return status;
}

/* A part as an object, or NULL and ROLGUNAI_NO_PART where there is none. */
static uint32_t gather_part(source *from, const place *of, PyObject **into) {
  size_t size = 0, room = of->form == FRAME ? FRAME_ROOM : from->room_size;
  *into = NULL;
  uint32_t status = copied(from, of, from->room, room, &size);
  if (status == ROLGUNAI_BUFFER_TOO_SMALL) {
    if (of->form == FRAME || (of->form == BYTES && size > TEXT_ROOM)) return gather_long(from, of, size, into);
    if (give_room(from, size) < 0) return ROLGUNAI_NO_TEXT;
    status = copied(from, of, from->room, from->room_size, &size);
  }
  if (status != ROLGUNAI_OK) return status;
  *into = made_part(from, of->form, size);
  if (*into) return ROLGUNAI_OK;
  PyErr_Clear();
  return ROLGUNAI_NO_TEXT;
}

/* Takes the object over, also where there is no memory. */
static uint32_t put(gathered *into, PyObject *object) {
  if (into->count == into->room) {
    size_t size = 2 * into->room * sizeof *into->items;
    PyObject **old = into->items == into->few ? NULL : into->items, **items = realloc(old, size);
    if (!items) {
      Py_XDECREF(object);
      return ROLGUNAI_NO_TEXT;
    }
    if (!old) memcpy(items, into->few, sizeof into->few);
    into->items = items;
    into->room *= 2;
  }
  into->items[into->count++] = object;
  return ROLGUNAI_OK;
}

static uint32_t put_part(source *from, const place *of, gathered *into) {
  PyObject *part;
  uint32_t status = gather_part(from, of, &part);
  if (status == ROLGUNAI_NO_PART) return put(into, Py_NewRef(Py_None));
  return status == ROLGUNAI_OK ? put(into, part) : status;
}

static uint32_t put_frames(source *from, place at, gathered *into) {
  PyObject *part;
  uint32_t status;
  at.form = FRAME;
  for (at.part = ROLGUNAI_PART_BUFFERS; (status = gather_part(from, &at, &part)) == ROLGUNAI_OK; at.part++)
    if ((status = put(into, part)) != ROLGUNAI_OK) return status;
  return status == ROLGUNAI_NO_PART ? put(into, NULL) : status;
}

uint32_t gather_target(source *from, PyObject **into) {
  const place target = {1, 0, ROLGUNAI_PART_TARGET, TARGET};
  return gather_part(from, &target, into);
}

static uint32_t gather_reply(source *from, uint32_t reply, gathered *into) {
  const place id = {1, 0, ROLGUNAI_PART_ID, COMM_ID}, target = {1, 0, ROLGUNAI_PART_TARGET, TARGET};
  const place content = {1, 0, ROLGUNAI_PART_CONTENT, BYTES};
  int has_frames = reply == ROLGUNAI_REPLY_FOR_KERNEL || reply == ROLGUNAI_REPLY_STATE;
  int has_content = has_frames || reply == ROLGUNAI_REPLY_REPLACED || reply == ROLGUNAI_REPLY_UNREGISTERED;
  uint32_t status = put_part(from, &id, into);
  if (status == ROLGUNAI_OK) status = put_part(from, &target, into);
  if (status == ROLGUNAI_OK) status = has_content ? put_part(from, &content, into) : put(into, Py_NewRef(Py_None));
  if (status != ROLGUNAI_OK) return status;
  return has_frames ? put_frames(from, content, into) : put(into, NULL);
}

static uint32_t gather_sent(source *from, size_t message, gathered *into) {
  static const enum form forms[] = {TYPE, COMM_ID, BYTES, BYTES};
  place at = {0, message, 0, TYPE};
  for (size_t part = ROLGUNAI_PART_TYPE; part <= ROLGUNAI_PART_METADATA; part++) {
    at.part = part;
    at.form = forms[part];
    uint32_t status = put_part(from, &at, into);
    if (status != ROLGUNAI_OK) return status;
  }
  return put_frames(from, at, into);
}

static void begin(uint32_t reply, gathered *into) {
  into->items = into->few;
  into->count = into->next = 0;
  into->room = FEW_PARTS;
  into->reply = reply;
  into->reason = ROLGUNAI_REASON_NONE;
  into->index = 0;
}

uint32_t gather(source *from, uint32_t status, uint32_t reply, size_t sent, gathered *into) {
  begin(reply, into);
  if (status != ROLGUNAI_OK) return status;
  if (from->client) rolgunai_client_last_reason(from->client, &into->reason, &into->index);
  else rolgunai_last_reason(from->handle, &into->reason, &into->index);
  status = gather_reply(from, reply, into);
  for (size_t message = 0; message < sent && status == ROLGUNAI_OK; message++)
    status = gather_sent(from, message, into);
  // The call is made: what lacks memory now may be asked for again.
  return status == ROLGUNAI_OK ? status : ROLGUNAI_NO_TEXT;
}

void gather_nothing(gathered *into) {
  begin(ROLGUNAI_REPLY_NONE, into);
  for (size_t part = 0; part < 3; part++) put(into, Py_NewRef(Py_None));
  put(into, NULL);
}

void gathered_end(gathered *of) {
  while (of->next < of->count) Py_XDECREF(of->items[of->next++]);
  if (of->items != of->few) free(of->items);
}

void source_end(source *of) {
  free(of->room);
  Py_CLEAR(of->comm_id);
  Py_CLEAR(of->target);
}

/* The last call's text: that which stands in the room where the status is ROLGUNAI_OK, else one that is asked for. */
uint32_t gather_text(source *from, uint32_t status, size_t size, PyObject **into) {
  int is_made = status == ROLGUNAI_OK || status == ROLGUNAI_BUFFER_TOO_SMALL;
  if (!is_made) return status;
  *into = PyBytes_FromStringAndSize(status == ROLGUNAI_OK ? (const char *)from->room : NULL, (Py_ssize_t)size);
  if (!*into) {
    PyErr_Clear();
    return ROLGUNAI_NO_TEXT;
  }
  if (status == ROLGUNAI_OK) return status;
  uint8_t *out = (uint8_t *)PyBytes_AsString(*into);
  PyThreadState *let_go = size >= LONG_WORK / WORK_OF_JSON ? PyEval_SaveThread() : NULL;
  status = rolgunai_copy_last_text(from->handle, out, size, &size);
  if (let_go) PyEval_RestoreThread(let_go);
  if (status != ROLGUNAI_OK) Py_CLEAR(*into);
  return status;
}


/* Rolgunai, the proved comm manager, in your own process.
 *
 * A kernel hands each message of a frontend to rolgunai_handle_message, as it came from the wire: three JSON texts and
 * binary buffers. What its own widgets do it tells by rolgunai_launch, rolgunai_push, rolgunai_send and the like. Each
 * call gives the number of its reply and how many messages are to be sent; their parts are asked for one by one.
 * docs/FORMATS.md says what each message and reply means; examples/c_kernel is a small kernel.
 *
 *   rolgunai_handle manager = {0};
 *   rolgunai_new_with_decimals(&manager, 4096);
 *   rolgunai_register(&manager, 0, ROLGUNAI_WIDGET_ECHO, name, name_size, &reply, &sent);
 *   while (receive(&message)) {
 *     status = rolgunai_handle_message(&manager, 0, ..the parts of the message.., &reply, &sent);
 *     for (size_t i = 0; i < sent; i++) send_parts(&manager, i);
 *   }
 *
 * What a kernel has to know:
 * - A kernel for ipywidgets takes decimals (rolgunai_new_with_decimals), since a FloatSlider's numbers aren't whole,
 *   and ROLGUNAI_WIDGET_ECHO, so that what one page changes reaches the others. rolgunai_new is for comms with whole
 *   numbers alone, ROLGUNAI_WIDGET for a single page, or a kernel that pushes what it was told.
 * - Clients are numbered 0 to 3. A client is a caller's number and no frontend: hand in 0, unless the kernel tells its
 *   frontends apart. It stands in the texts and in no message.
 * - A `comm_info_reply` goes to who asked, on the channel on which the request came; every other message goes on iopub.
 *   The parent header of what a frontend's message brings about is that message's; of the kernel's own calls, that of
 *   the request that the kernel runs.
 * - What goes out has the metadata {"version":"2.1.0"} in a `comm_open`, else {}: a kernel may send other metadata. Of
 *   what comes in, an open's `version` counts, and nothing of it is kept.
 * - What a widget's `update` changed isn't in its reply, ROLGUNAI_REPLY_DELIVERED. The message in hand has it: each key
 *   of its `state`, and the first step of each path in its `buffer_paths`, has the value that came, in the old one's
 *   place. With ROLGUNAI_WIDGET_ECHO the `echo_update` that is sent has just these keys, with their buffers.
 *   rolgunai_state reads all keys.
 * - The content of ROLGUNAI_REPLY_FOR_KERNEL is a plain comm's whole `data`, {} where the message has none; of a
 *   widget, the `content` of a `custom`, any JSON (a `custom` without one is just DELIVERED); of an opaque comm {}.
 * - An open of a frontend that is ROLGUNAI_REPLY_BAD opens nothing. Where its content has a comm_id that no comm has,
 *   the frontend is told by a `comm_close`: it is the message 0 that the call sends then.
 * - An open that gives ROLGUNAI_NOT_JSON (`1e400`, more than 127 deep) sends nothing, and its frontend waits. A kernel
 *   that can read its comm_id sends a `comm_close`, unless rolgunai_state says that such a comm is open.
 * - A comm of the kernel's own that is no widget: hand its `comm_open` to rolgunai_handle_message, with a new UUID as
 *   its id, towards a target that is registered. At ROLGUNAI_REPLY_OPENED send that same message to the frontends. At
 *   any other reply send nothing, also not the `comm_close` that the call sends: no frontend knows of the comm.
 * - `jupyter.widget.control`, at which a page asks for the states of all widgets, is no target of the library's. Where
 *   it isn't registered its open is refused (ROLGUNAI_REASON_NO_TARGET) and closed, and the page is to ask each widget
 *   by `request_state`, which the manager answers. A kernel that registers it as ROLGUNAI_PLAIN is handed
 *   {"method":"request_states"}, and answers by rolgunai_send with an `update_states`.
 * - An answer is several calls (the message, then its parts), so a lock has to be held over all of them. In a language
 *   with finalizers it has to be one that the same thread may take again: a `__del__` may send in the middle of a call.
 * - A target stays registered under its name until another is, or it is unregistered; either closes its comms.
 *
 * A handle is a struct of yours that holds one pointer. Set it to zero before the first call, and then neither read nor
 * write nor copy it: only the library does. Calls may come in any order: a handle that has no manager, since it never
 * had one or was freed, gives ROLGUNAI_CLOSED. No call blocks or calls back, and nothing is kept outside of the handle.
 * What a call is given is copied.
 *
 * Owed by the caller, since nothing can check it:
 * - No pointer is null, but an `out` whose `out_size` is 0; what is read is readable and what is written writable for
 *   its length; and what one call is given doesn't overlap, but for what is only read.
 * - One handle has one call at a time. Between calls it may go to another thread, if that is ordered by a lock, a join
 *   or the like. Threads that share a manager have clients of it: rolgunai_client.h.
 * - No call from a signal handler, or from the forked child of a process with threads.
 */
#ifndef ROLGUNAI_H
#define ROLGUNAI_H
#include <stddef.h>
#include <stdint.h>
#ifdef __cplusplus
extern "C" {
#endif

/* The version of this header. CHANGELOG.md says what a change of each of its three numbers means. */
#define ROLGUNAI_VERSION "0.1.0"
#define ROLGUNAI_VERSION_NUMBER 1000 /* 1,000,000 times the first number, 1,000 times the second, and the third */

/* The version of the library that is linked, as ROLGUNAI_VERSION_NUMBER has the header's. It takes no handle and may be
 * called at any time, from any thread. */
uint32_t rolgunai_version(void);

typedef struct rolgunai_handle {
  void *manager;
} rolgunai_handle;

/* A binary buffer where it lies, as a frame of a ZeroMQ message. */
typedef struct rolgunai_frame {
  const uint8_t *bytes; /* not null, also where there is none */
  size_t size;
} rolgunai_frame;

/* The status that each call gives. Where more than one test fails, the first of CLOSED or ALREADY_OPEN, BAD_LIMIT,
 * BAD_KIND, BAD_SIZES, BAD_NAME, NOT_JSON, EXHAUSTED gives it; ROLGUNAI_MEMORY may come in place of the last four. The
 * last four statuses come from the calls of rolgunai_client.h alone, which says in which order these test.
 * After any but ROLGUNAI_OK, ROLGUNAI_BUFFER_TOO_SMALL and ROLGUNAI_NO_TEXT the manager is as it was before the call,
 * with its last result; `out` is as it was after any but ROLGUNAI_OK; and `*size`, `*reply`, `*sent` and `*index` are 0
 * where the call doesn't say otherwise. */
enum {
  ROLGUNAI_OK = 0,               /* done */
  ROLGUNAI_CLOSED = 1,           /* the handle has no manager */
  ROLGUNAI_MEMORY = 2,           /* out of memory, and nothing has changed: the same call may be made again */
  ROLGUNAI_BAD_LIMIT = 3,        /* rolgunai_new: `comms` isn't from 1 to 1,048,576 */
  ROLGUNAI_ALREADY_OPEN = 4,     /* rolgunai_new: the handle has a manager, which stays; tested before the limit */
  ROLGUNAI_BUFFER_TOO_SMALL = 5, /* done, but `out` is too small: `*size` is the length. Ask again */
  ROLGUNAI_EXHAUSTED = 6,        /* 2^62 calls were made; tested last */
  ROLGUNAI_BAD_NAME = 7,         /* an id, a name or a UUID isn't UTF-8 */
  ROLGUNAI_BAD_KIND = 8,         /* rolgunai_register: no kind has this number */
  ROLGUNAI_BAD_SIZES = 9,        /* the sizes don't add up to the size of the buffers */
  ROLGUNAI_NOT_JSON = 10,        /* a part isn't one JSON text in UTF-8 that nests at most 127 deep */
  ROLGUNAI_NO_PART = 11,         /* no such message, or it has no such part */
  ROLGUNAI_NO_TEXT = 12,         /* rolgunai_handle_line: done, but out of memory for the text: rolgunai_last_text */
  ROLGUNAI_BUSY = 13,            /* another client's call is inside, and nothing has changed: call again */
  ROLGUNAI_AGAIN = 14,           /* what is shown isn't as late as was asked for, and nothing has changed */
  ROLGUNAI_NO_SEAT = 15,         /* the manager has 256 clients */
  ROLGUNAI_STRANGER = 16         /* the client isn't of its manager, which can't be: report it */
};

/* The kinds of targets that rolgunai_register takes. Two more, `echo` and `counter`, are for scripts and tests:
 * only the command `register` of a line has them. */
enum {
  ROLGUNAI_WIDGET = 2,      /* keeps the state of Jupyter widgets; ipywidgets' target name is "jupyter.widget" */
  ROLGUNAI_PLAIN = 3,       /* takes every open and message, and answers none. A message comes to the kernel in its
                               reply, ROLGUNAI_REPLY_FOR_KERNEL, an open's data doesn't. The kernel answers by
                               rolgunai_send */
  ROLGUNAI_WIDGET_ECHO = 4, /* as ROLGUNAI_WIDGET, and repeats to the frontends what a frontend's update brought
                               (`echo_update`) */
  ROLGUNAI_OPAQUE = 5       /* as ROLGUNAI_PLAIN, for what nobody here reads: of an open or a message by its parts the
                               type, the id and the target's name count, and neither `data`, metadata nor buffers,
                               which may be anything that is JSON and needn't be handed in. They may be read in vain:
                               small ones, an open's, and where the content doesn't begin with {"comm_id":, as
                               frontends write it. A line for one is read whole, as any line */
};

/* Makes a manager. At most `comms` comms, 1 to 1,048,576, are open at a time, and none takes memory before it is open;
 * any number of targets may be registered.
 * Numbers are whole, from -2^63 to 2^64 - 1: any other, as 1.5 or 1e3, makes a call bad (`not_whole`). */
uint32_t rolgunai_new(rolgunai_handle *handle, size_t comms);

/* Makes a manager as rolgunai_new does, but one that takes every JSON number as a value. A number that isn't whole is
 * kept and sent as the text that came, byte for byte: `1.0`, `1.00` and `1e0` are three values. A number beyond a
 * double's range is no JSON here (`not_json`). A client and the steps of a path are whole numbers still. */
uint32_t rolgunai_new_with_decimals(rolgunai_handle *handle, size_t comms);

/* Ends the comms and then the targets, and frees all memory. It sends nothing: a kernel whose frontends go on takes the
 * closes of rolgunai_unregister before. Afterwards the handle has no manager, and rolgunai_new may give it another. */
uint32_t rolgunai_free(rolgunai_handle *handle);

/* ---- What a call came to. The last call is here and below the last to rolgunai_register, rolgunai_handle_message,
 * rolgunai_handle_line or a call of the kernel that gave ROLGUNAI_OK, ROLGUNAI_BUFFER_TOO_SMALL or ROLGUNAI_NO_TEXT. */

/* The reply. */
enum {
  ROLGUNAI_REPLY_NONE = 0,       /* a blank line, or no call yet */
  ROLGUNAI_REPLY_BAD = 1,        /* it couldn't be read, and is no change; rolgunai_last_reason says why */
  ROLGUNAI_REPLY_COMM_INFO = 2,  /* a comm_info_request, answered by one message */
  ROLGUNAI_REPLY_REGISTERED = 3,
  ROLGUNAI_REPLY_REPLACED = 4,   /* a register of a name that a target had: the content of rolgunai_reply_part is a JSON
                                    list of the ids of the comms that were closed */
  ROLGUNAI_REPLY_OPENED = 5,
  ROLGUNAI_REPLY_ID_IN_USE = 6,
  ROLGUNAI_REPLY_REFUSED = 7,    /* an open; rolgunai_last_reason says why, and a `comm_close` is sent */
  ROLGUNAI_REPLY_DELIVERED = 8,
  ROLGUNAI_REPLY_FOR_KERNEL = 9, /* delivered, with a message for the kernel: rolgunai_reply_part has its content and
                                    buffers */
  ROLGUNAI_REPLY_FAULT = 10,     /* the target rejects the message; rolgunai_last_reason says why */
  ROLGUNAI_REPLY_NO_COMM = 11,
  ROLGUNAI_REPLY_CLOSED = 12,
  ROLGUNAI_REPLY_UNREGISTERED = 13, /* the content of rolgunai_reply_part is a JSON list of the ids of the comms that
                                       were closed */
  ROLGUNAI_REPLY_NO_TARGET = 14,
  ROLGUNAI_REPLY_LAUNCHED = 15,
  ROLGUNAI_REPLY_NOT_WIDGET = 16,
  ROLGUNAI_REPLY_STATE = 17,     /* the content of rolgunai_reply_part is {"buffer_paths":[..],"state":{..}}, and its
                                    buffers are those of the paths */
  ROLGUNAI_REPLY_NO_STATE = 18,  /* the comm has no state: its target is no widget */
  ROLGUNAI_REPLY_TARGET = 19     /* rolgunai_client_target: the comm is open, and ROLGUNAI_PART_TARGET is its target's
                                    name */
};

/* Why a reply is ROLGUNAI_REPLY_BAD, ROLGUNAI_REPLY_REFUSED or ROLGUNAI_REPLY_FAULT. Where the comment has an n it is
 * `*index`, else `*index` is 0. rolgunai_last_text has it in words. */
enum {
  ROLGUNAI_REASON_NONE = 0,           /* the reply is another */
  ROLGUNAI_REASON_NOT_JSON = 1,       /* a line isn't a JSON object, or nests too deep */
  ROLGUNAI_REASON_NO_TYPE = 2,        /* the header has no `msg_type` */
  ROLGUNAI_REASON_UNKNOWN_TYPE = 3,   /* it is none that comms have */
  ROLGUNAI_REASON_BAD_CONTENT = 4,    /* n tells the field: ROLGUNAI_FIELD_.. */
  ROLGUNAI_REASON_NOT_WHOLE = 5,      /* a number that isn't whole or in range, where only such are taken */
  ROLGUNAI_REASON_BAD_BUFFER = 6,     /* the buffer n of a line isn't base64 */
  ROLGUNAI_REASON_BAD_CLIENT = 7,     /* the client isn't 0, 1, 2 or 3 */
  ROLGUNAI_REASON_UNKNOWN_CALL = 8,   /* a line's `call` is no command */
  ROLGUNAI_REASON_BAD_FIELD = 9,      /* of a command; n tells the field: ROLGUNAI_FIELD_.. */
  ROLGUNAI_REASON_BAD_UUID = 10,
  ROLGUNAI_REASON_NO_STOCK = 11,      /* of scripts alone; not from this library */
  ROLGUNAI_REASON_BAD_PATH = 12,      /* the buffer path n can't be read, or has no place in the state */
  ROLGUNAI_REASON_BUFFER_MISSING = 13, /* there is no buffer for the path n */
  ROLGUNAI_REASON_NO_TARGET = 14,     /* no target has the name */
  ROLGUNAI_REASON_TOO_MANY_COMMS = 15, /* as many comms are open as rolgunai_new was told */
  ROLGUNAI_REASON_WRONG_VERSION = 16, /* a widget's protocol isn't of version 2 */
  ROLGUNAI_REASON_NO_STATE = 17,      /* a widget is opened without a state */
  ROLGUNAI_REASON_BAD_STATE = 18,     /* a state isn't an object */
  ROLGUNAI_REASON_NO_METHOD = 19,
  ROLGUNAI_REASON_UNKNOWN_METHOD = 20,
  ROLGUNAI_REASON_OTHER = 21          /* a refusal of a target of one's own, with its number n; not from this library */
};

/* The fields that ROLGUNAI_REASON_BAD_CONTENT and ROLGUNAI_REASON_BAD_FIELD speak of. */
enum {
  ROLGUNAI_FIELD_CONTENT = 0,
  ROLGUNAI_FIELD_COMM_ID = 1,
  ROLGUNAI_FIELD_TARGET_NAME = 2,
  ROLGUNAI_FIELD_DATA = 3,
  ROLGUNAI_FIELD_METADATA = 4,
  ROLGUNAI_FIELD_BUFFERS = 5,
  ROLGUNAI_FIELD_KIND = 6,
  ROLGUNAI_FIELD_NAME = 7,
  ROLGUNAI_FIELD_UUID = 8,
  ROLGUNAI_FIELD_STATE = 9,
  ROLGUNAI_FIELD_ID = 10
};

/* The parts of a message that is sent, and of a reply. */
enum {
  ROLGUNAI_PART_TYPE = 0,     /* "comm_open", "comm_msg", "comm_close" or "comm_info_reply" */
  ROLGUNAI_PART_ID = 1,       /* the comm's id; empty for a comm_info_reply */
  ROLGUNAI_PART_CONTENT = 2,  /* JSON */
  ROLGUNAI_PART_METADATA = 3, /* JSON */
  ROLGUNAI_PART_TARGET = 4,   /* of a reply: the name of the target that the call is about */
  ROLGUNAI_PART_BUFFERS = 5   /* this and the numbers that follow: its binary buffers, one by one */
};

/* What rolgunai_sent_part, rolgunai_reply_part, rolgunai_last_text and rolgunai_handle_line call, which do the same:
 * here no pointer is null. A binding that doesn't read this header calls these. */
uint32_t rolgunai_copy_sent_part(rolgunai_handle *handle, size_t message, size_t part, uint8_t *out, size_t out_size,
                                 size_t *size);
uint32_t rolgunai_copy_reply_part(rolgunai_handle *handle, size_t part, uint8_t *out, size_t out_size, size_t *size);
uint32_t rolgunai_copy_last_text(rolgunai_handle *handle, uint8_t *out, size_t out_size, size_t *size);
uint32_t rolgunai_play_line(rolgunai_handle *handle, const uint8_t *line, size_t line_size, uint8_t *out,
                            size_t out_size, size_t *size);

/* Writes the number of the last call's result to `*reply`, and to `*sent` how many messages that call sends. */
uint32_t rolgunai_last_result(rolgunai_handle *handle, uint32_t *reply, size_t *sent);

/* Writes why the last call's reply is BAD, REFUSED or FAULT to `*reason`, and the number in it to `*index`. */
uint32_t rolgunai_last_reason(rolgunai_handle *handle, uint32_t *reason, uint64_t *index);

/* Writes a part of a message that the last call sends. The messages are numbered from 0, in the order in which they
 * are to be sent. To ask for a part's size, give an `out_size` of 0: ROLGUNAI_BUFFER_TOO_SMALL with the size, but
 * ROLGUNAI_OK and 0 for a part that is empty, as a buffer may be. ROLGUNAI_NO_PART comes after the last message, and
 * after a message's last buffer. */
static inline uint32_t rolgunai_sent_part(rolgunai_handle *handle, size_t message, size_t part, uint8_t *out,
                                          size_t out_size, size_t *size) {
  uint8_t none;
  return rolgunai_copy_sent_part(handle, message, part, out_size ? out : &none, out_size, size);
}

/* Writes a part of the last call's reply. Each reply of a change has ROLGUNAI_PART_ID where the call is about a comm,
 * and ROLGUNAI_PART_TARGET where it names a target or its comm was open: a kernel needs no table of its own to know
 * whose message it was handed. ROLGUNAI_REPLY_FOR_KERNEL and ROLGUNAI_REPLY_STATE have ROLGUNAI_PART_CONTENT and
 * buffers, ROLGUNAI_REPLY_UNREGISTERED and ROLGUNAI_REPLY_REPLACED have ROLGUNAI_PART_CONTENT. */
static inline uint32_t rolgunai_reply_part(rolgunai_handle *handle, size_t part, uint8_t *out, size_t out_size,
                                           size_t *size) {
  uint8_t none;
  return rolgunai_copy_reply_part(handle, part, out_size ? out : &none, out_size, size);
}

/* Writes the text of the last call: empty, or lines 'reply ..', 'out ..', 'state ..' or 'bad ..', each with its line
 * feed (docs/FORMATS.md). The close that follows an open by its parts that is bad isn't in it. It is made when it is
 * asked for: after ROLGUNAI_MEMORY nothing is lost, and it may be asked for again. */
static inline uint32_t rolgunai_last_text(rolgunai_handle *handle, uint8_t *out, size_t out_size, size_t *size) {
  uint8_t none;
  return rolgunai_copy_last_text(handle, out_size ? out : &none, out_size, size);
}

/* ---- What frontends send. */

/* Plays a message of a frontend by its parts: the JSON texts of its header, metadata and content, each `{}` where the
 * message has nothing to say in it; and `count` binary buffers, which stand one after another in `buffers` and have the
 * sizes in `sizes`. Tested are the handle, the sizes, the three JSON texts, and how many calls were made.
 *
 * Replies, and what is sent, by the header's `msg_type`; any may be BAD (NO_TYPE, UNKNOWN_TYPE, BAD_CONTENT, NOT_WHOLE,
 * BAD_CLIENT), and then only an open sends, as said at the top:
 * - comm_open: OPENED; ID_IN_USE; REFUSED (NO_TARGET, TOO_MANY_COMMS, and of a widget WRONG_VERSION, NO_STATE,
 *   BAD_STATE, BAD_PATH, BUFFER_MISSING), with a `comm_close`.
 * - comm_msg: NO_COMM; of a plain or an opaque comm FOR_KERNEL; of a widget DELIVERED, with an `update` for a
 *   `request_state` and ROLGUNAI_WIDGET_ECHO's `echo_update`; FOR_KERNEL; FAULT (NO_METHOD, UNKNOWN_METHOD, BAD_STATE,
 *   BAD_PATH, BUFFER_MISSING), and the state is as it was.
 * - comm_close: CLOSED; NO_COMM.
 * - comm_info_request: COMM_INFO, with a `comm_info_reply`. */
uint32_t rolgunai_handle_message(rolgunai_handle *handle, uint32_t client, const uint8_t *header, size_t header_size,
                                 const uint8_t *metadata, size_t metadata_size, const uint8_t *content,
                                 size_t content_size, const uint8_t *buffers, size_t buffers_size,
                                 const size_t *sizes, size_t count, uint32_t *reply, size_t *sent);

/* Plays a line, a message of a frontend or a command of the kernel, and writes its text as rolgunai_last_text does.
 * `line` has no line feed at its end; one within it is white space of JSON. The command `register` makes a new target
 * each time: no line is answered by 'bad .. no_stock'. */
static inline uint32_t rolgunai_handle_line(rolgunai_handle *handle, const uint8_t *line, size_t line_size,
                                            uint8_t *out, size_t out_size, size_t *size) {
  uint8_t none;
  return rolgunai_play_line(handle, line, line_size, out_size ? out : &none, out_size, size);
}

/* ---- What the kernel does. Ids and names are UTF-8 and not ended by a zero; JSON texts and buffers are handed in as
 * to rolgunai_handle_message. Tested are the handle, the kind, the sizes, the names in their order, the JSON texts in
 * theirs, and how many calls were made. Any call but rolgunai_state may be BAD (BAD_CLIENT, and what is named there),
 * and then sends nothing. */

/* Registers a new target of a kind under a name. A target that has the name is replaced, and its comms are closed.
 * Replies: REGISTERED; REPLACED, with a `comm_close` for each of these comms. */
uint32_t rolgunai_register(rolgunai_handle *handle, uint32_t client, uint32_t kind, const uint8_t *name,
                           size_t name_size, uint32_t *reply, size_t *sent);

/* Takes the target of a name out: its comms are closed, then it ends. Replies: UNREGISTERED, with a `comm_close` for
 * each of these comms; NO_TARGET. */
uint32_t rolgunai_unregister(rolgunai_handle *handle, uint32_t client, const uint8_t *name, size_t name_size,
                             uint32_t *reply, size_t *sent);

/* Opens a comm towards a widget target: a widget of the kernel, with its state, a JSON object, and the buffers at the
 * paths, a JSON list of lists of strings and indices. The comm's id is the UUID, in its form with hyphens. Replies:
 * LAUNCHED, with a `comm_open`; ID_IN_USE, NO_TARGET, NOT_WIDGET, REFUSED (TOO_MANY_COMMS), which send nothing; BAD
 * (BAD_UUID, BAD_FIELD, NOT_WHOLE, BAD_PATH, BUFFER_MISSING). */
uint32_t rolgunai_launch(rolgunai_handle *handle, uint32_t client, const uint8_t *target, size_t target_size,
                         const uint8_t *uuid, size_t uuid_size, const uint8_t *state, size_t state_size,
                         const uint8_t *paths, size_t paths_size, const uint8_t *buffers, size_t buffers_size,
                         const size_t *sizes, size_t count, uint32_t *reply, size_t *sent);

/* Changes these keys of a widget's state, and sends an `update` with just them. Replies: DELIVERED; NO_COMM,
 * NOT_WIDGET; BAD (BAD_FIELD, NOT_WHOLE, BAD_PATH, BUFFER_MISSING). */
uint32_t rolgunai_push(rolgunai_handle *handle, uint32_t client, const uint8_t *id, size_t id_size,
                       const uint8_t *state, size_t state_size, const uint8_t *paths, size_t paths_size,
                       const uint8_t *buffers, size_t buffers_size, const size_t *sizes, size_t count,
                       uint32_t *reply, size_t *sent);

/* Sends a `comm_msg` with this `data`, a JSON object, on a comm, past its target: no state changes. Replies: DELIVERED;
 * NO_COMM; BAD (BAD_FIELD, NOT_WHOLE). */
uint32_t rolgunai_send(rolgunai_handle *handle, uint32_t client, const uint8_t *id, size_t id_size,
                       const uint8_t *data, size_t data_size, const uint8_t *buffers, size_t buffers_size,
                       const size_t *sizes, size_t count, uint32_t *reply, size_t *sent);

/* Closes a comm, and sends a `comm_close`. Replies: CLOSED; NO_COMM. */
uint32_t rolgunai_close(rolgunai_handle *handle, uint32_t client, const uint8_t *id, size_t id_size, uint32_t *reply,
                        size_t *sent);

/* Reads a comm's state. Replies: STATE, NO_STATE, NO_COMM. */
uint32_t rolgunai_state(rolgunai_handle *handle, const uint8_t *id, size_t id_size, uint32_t *reply, size_t *sent);

/* ---- The calls that take buffers, each where it lies: they needn't stand one after another, and each is copied once.
 * Otherwise these are as those above; no test of theirs is of sizes. */
uint32_t rolgunai_handle_frames(rolgunai_handle *handle, uint32_t client, const uint8_t *header, size_t header_size,
                                const uint8_t *metadata, size_t metadata_size, const uint8_t *content,
                                size_t content_size, const rolgunai_frame *frames, size_t count, uint32_t *reply,
                                size_t *sent);
uint32_t rolgunai_launch_frames(rolgunai_handle *handle, uint32_t client, const uint8_t *target, size_t target_size,
                                const uint8_t *uuid, size_t uuid_size, const uint8_t *state, size_t state_size,
                                const uint8_t *paths, size_t paths_size, const rolgunai_frame *frames, size_t count,
                                uint32_t *reply, size_t *sent);
uint32_t rolgunai_push_frames(rolgunai_handle *handle, uint32_t client, const uint8_t *id, size_t id_size,
                              const uint8_t *state, size_t state_size, const uint8_t *paths, size_t paths_size,
                              const rolgunai_frame *frames, size_t count, uint32_t *reply, size_t *sent);
uint32_t rolgunai_send_frames(rolgunai_handle *handle, uint32_t client, const uint8_t *id, size_t id_size,
                              const uint8_t *data, size_t data_size, const rolgunai_frame *frames, size_t count,
                              uint32_t *reply, size_t *sent);

#ifdef __cplusplus
}
#endif
#endif

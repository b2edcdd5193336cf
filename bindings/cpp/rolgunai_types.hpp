// What the calls of rolgunai.hpp take and give: kinds, replies, reasons, errors, bytes, messages, and the lines of a
// text. The numbers and what they mean are those of bindings/c/rolgunai.h.
#ifndef ROLGUNAI_TYPES_HPP
#define ROLGUNAI_TYPES_HPP

#include "rolgunai.h"

#include <concepts>
#include <cstddef>
#include <cstdint>
#include <exception>
#include <initializer_list>
#include <optional>
#include <span>
#include <string>
#include <string_view>
#include <utility>
#include <vector>

namespace rolgunai {

/// The kinds of targets; rolgunai.h says what each does.
enum class kind : std::uint32_t {
  widget = ROLGUNAI_WIDGET,
  plain = ROLGUNAI_PLAIN,
  widget_echo = ROLGUNAI_WIDGET_ECHO,
  opaque = ROLGUNAI_OPAQUE
};

/// Which JSON numbers are values.
enum class numbers { whole, any };

/// The status of a call. At `no_text` it is done, and memory ran out for what it came to: `manager::last` and
/// `manager::text`, or `client::last`, give that. After any other but `ok` the manager is as it was before the call.
enum class status : std::uint32_t {
  ok = ROLGUNAI_OK,
  closed = ROLGUNAI_CLOSED,
  memory = ROLGUNAI_MEMORY,
  bad_limit = ROLGUNAI_BAD_LIMIT,
  already_open = ROLGUNAI_ALREADY_OPEN,
  buffer_too_small = ROLGUNAI_BUFFER_TOO_SMALL,
  exhausted = ROLGUNAI_EXHAUSTED,
  bad_name = ROLGUNAI_BAD_NAME,
  bad_kind = ROLGUNAI_BAD_KIND,
  bad_sizes = ROLGUNAI_BAD_SIZES,
  not_json = ROLGUNAI_NOT_JSON,
  no_part = ROLGUNAI_NO_PART,
  no_text = ROLGUNAI_NO_TEXT,
  busy = ROLGUNAI_BUSY,
  again = ROLGUNAI_AGAIN,
  no_seat = ROLGUNAI_NO_SEAT,
  stranger = ROLGUNAI_STRANGER
};

/// What a call came to. A reply that is `bad`, `refused` or `fault` has a reason.
enum class reply : std::uint32_t {
  none = ROLGUNAI_REPLY_NONE,
  bad = ROLGUNAI_REPLY_BAD,
  comm_info = ROLGUNAI_REPLY_COMM_INFO,
  registered = ROLGUNAI_REPLY_REGISTERED,
  replaced = ROLGUNAI_REPLY_REPLACED,
  opened = ROLGUNAI_REPLY_OPENED,
  id_in_use = ROLGUNAI_REPLY_ID_IN_USE,
  refused = ROLGUNAI_REPLY_REFUSED,
  delivered = ROLGUNAI_REPLY_DELIVERED,
  for_kernel = ROLGUNAI_REPLY_FOR_KERNEL,
  fault = ROLGUNAI_REPLY_FAULT,
  no_comm = ROLGUNAI_REPLY_NO_COMM,
  closed = ROLGUNAI_REPLY_CLOSED,
  unregistered = ROLGUNAI_REPLY_UNREGISTERED,
  no_target = ROLGUNAI_REPLY_NO_TARGET,
  launched = ROLGUNAI_REPLY_LAUNCHED,
  not_widget = ROLGUNAI_REPLY_NOT_WIDGET,
  state = ROLGUNAI_REPLY_STATE,
  no_state = ROLGUNAI_REPLY_NO_STATE,
  target = ROLGUNAI_REPLY_TARGET
};

/// Why a reply is `bad`, `refused` or `fault`.
enum class reason : std::uint32_t {
  none = ROLGUNAI_REASON_NONE,
  not_json = ROLGUNAI_REASON_NOT_JSON,
  no_type = ROLGUNAI_REASON_NO_TYPE,
  unknown_type = ROLGUNAI_REASON_UNKNOWN_TYPE,
  bad_content = ROLGUNAI_REASON_BAD_CONTENT,
  not_whole = ROLGUNAI_REASON_NOT_WHOLE,
  bad_buffer = ROLGUNAI_REASON_BAD_BUFFER,
  bad_client = ROLGUNAI_REASON_BAD_CLIENT,
  unknown_call = ROLGUNAI_REASON_UNKNOWN_CALL,
  bad_field = ROLGUNAI_REASON_BAD_FIELD,
  bad_uuid = ROLGUNAI_REASON_BAD_UUID,
  no_stock = ROLGUNAI_REASON_NO_STOCK,
  bad_path = ROLGUNAI_REASON_BAD_PATH,
  buffer_missing = ROLGUNAI_REASON_BUFFER_MISSING,
  no_target = ROLGUNAI_REASON_NO_TARGET,
  too_many_comms = ROLGUNAI_REASON_TOO_MANY_COMMS,
  wrong_version = ROLGUNAI_REASON_WRONG_VERSION,
  no_state = ROLGUNAI_REASON_NO_STATE,
  bad_state = ROLGUNAI_REASON_BAD_STATE,
  no_method = ROLGUNAI_REASON_NO_METHOD,
  unknown_method = ROLGUNAI_REASON_UNKNOWN_METHOD,
  other = ROLGUNAI_REASON_OTHER
};

/// The field that `reason::bad_content` and `reason::bad_field` speak of.
enum class field : std::uint64_t {
  content = ROLGUNAI_FIELD_CONTENT,
  comm_id = ROLGUNAI_FIELD_COMM_ID,
  target_name = ROLGUNAI_FIELD_TARGET_NAME,
  data = ROLGUNAI_FIELD_DATA,
  metadata = ROLGUNAI_FIELD_METADATA,
  buffers = ROLGUNAI_FIELD_BUFFERS,
  kind = ROLGUNAI_FIELD_KIND,
  name = ROLGUNAI_FIELD_NAME,
  uuid = ROLGUNAI_FIELD_UUID,
  state = ROLGUNAI_FIELD_STATE,
  id = ROLGUNAI_FIELD_ID
};

namespace names {
inline constexpr std::string_view replies[] = {
    "none", "bad", "comm_info", "registered", "replaced", "opened", "id_in_use", "refused", "delivered", "for_kernel",
    "fault", "no_comm", "closed", "unregistered", "no_target", "launched", "not_widget", "state", "no_state",
    "target"};
inline constexpr std::string_view reasons[] = {
    "none", "not_json", "no_type", "unknown_type", "bad_content", "not_whole", "bad_buffer", "bad_client",
    "unknown_call", "bad_field", "bad_uuid", "no_stock", "bad_path", "buffer_missing", "no_target", "too_many_comms",
    "wrong_version", "no_state", "bad_state", "no_method", "unknown_method", "other"};
inline constexpr std::string_view fields[] = {
    "content", "comm_id", "target_name", "data", "metadata", "buffers", "kind", "name", "uuid", "state", "id"};

constexpr std::string_view numbered(std::span<const std::string_view> from, std::uint64_t number) noexcept {
  return number < from.size() ? from[static_cast<std::size_t>(number)] : std::string_view("unknown");
}
} // namespace names

/// The word of a reply, a reason or a field; of a reason and a field as docs/FORMATS.md has it.
constexpr std::string_view name_of(reply found) noexcept {
  return names::numbered(names::replies, static_cast<std::uint32_t>(found));
}
constexpr std::string_view name_of(reason found) noexcept {
  return names::numbered(names::reasons, static_cast<std::uint32_t>(found));
}
constexpr std::string_view name_of(field found) noexcept {
  return names::numbered(names::fields, static_cast<std::uint64_t>(found));
}

constexpr const char *name_of(status found) noexcept {
  switch (found) {
  case status::ok: return "rolgunai: ok";
  case status::closed: return "rolgunai: there is no manager";
  case status::memory: return "rolgunai: out of memory, and nothing has changed";
  case status::bad_limit: return "rolgunai: the limit of comms isn't from 1 to 1,048,576";
  case status::already_open: return "rolgunai: the handle has a manager";
  case status::buffer_too_small: return "rolgunai: the buffer is too small";
  case status::exhausted: return "rolgunai: no more calls can be counted";
  case status::bad_name: return "rolgunai: an id, a name or a UUID isn't UTF-8";
  case status::bad_kind: return "rolgunai: no kind has this number";
  case status::bad_sizes: return "rolgunai: the sizes don't add up to the size of the buffers";
  case status::not_json: return "rolgunai: a part isn't one JSON text that nests at most 127 deep";
  case status::no_part: return "rolgunai: there is no such part";
  case status::no_text: return "rolgunai: done, but out of memory for what came of it";
  case status::busy: return "rolgunai: another client's call is inside";
  case status::again: return "rolgunai: there aren't as many changes as were asked for";
  case status::no_seat: return "rolgunai: the manager has 256 clients";
  case status::stranger: return "rolgunai: the client isn't of its manager";
  }
  return "rolgunai: a status that this header doesn't know";
}

/// A call that wasn't made, or at `no_text` one that was. It takes no memory.
class error : public std::exception {
public:
  explicit error(status found) noexcept : found_(found) {}
  const char *what() const noexcept override { return name_of(found_); }
  status code() const noexcept { return found_; }

private:
  status found_;
};

/// What has a pointer and a size, of elements of one byte: vectors, arrays, spans, strings and views of them.
template <class T>
concept byte_range = requires(const T &from) {
  *from.data();
  { from.size() } -> std::convertible_to<std::size_t>;
} && sizeof(*std::declval<const T &>().data()) == 1;

/// Bytes that somebody else owns.
class bytes : public std::span<const std::uint8_t> {
public:
  constexpr bytes() noexcept = default;
  constexpr bytes(const std::uint8_t *data, std::size_t size) noexcept : span(data, size) {}
  template <byte_range From>
  bytes(const From &from) noexcept : span(reinterpret_cast<const std::uint8_t *>(from.data()), from.size()) {}
};

/// The buffers of a message, in their order: in braces, or any range of `bytes` that stands in one piece.
class buffer_list : public std::span<const bytes> {
public:
  constexpr buffer_list() noexcept = default;
  constexpr buffer_list(std::initializer_list<bytes> from) noexcept : span(from.begin(), from.size()) {}
  template <class From>
    requires std::constructible_from<std::span<const bytes>, const From &>
  constexpr buffer_list(const From &from) noexcept : span(from) {}
};

/// Bytes that came out of a manager.
using buffer = std::vector<std::uint8_t>;

/// A message that is sent, by its parts. A comm_info_reply has no id; content and metadata are JSON.
struct sent {
  std::string type;
  std::string id;
  std::string content;
  std::string metadata;
  std::vector<buffer> buffers;
};

/// What a reply carries: `for_kernel` and `state` JSON and buffers, `unregistered` and `replaced` the JSON list of the
/// ids of the comms that were closed.
struct payload {
  std::string content;
  std::vector<buffer> buffers;
};

/// Why a reply is `bad`, `refused` or `fault`: the number in the reason is a field's, a buffer's or a path's, or 0.
struct cause {
  rolgunai::reason reason = rolgunai::reason::none;
  std::uint64_t index = 0;

  /// The reason in words, as docs/FORMATS.md has them.
  std::string words() const {
    std::string said(name_of(reason));
    switch (reason) {
    case reason::bad_content:
    case reason::bad_field: return said.append(" ").append(name_of(static_cast<field>(index)));
    case reason::bad_buffer:
    case reason::bad_path:
    case reason::buffer_missing:
    case reason::other: return said.append(" ").append(std::to_string(index));
    default: return said;
    }
  }
};

/// What a call came to: its reply, which comm and target it is about, what the reply carries, and the messages that are
/// to be sent, in their order.
struct outcome {
  rolgunai::reply reply = rolgunai::reply::none;
  cause why;
  std::optional<std::string> comm;
  std::optional<std::string> target;
  std::optional<rolgunai::payload> payload;
  std::vector<rolgunai::sent> sent;
};

/// One line of a text: `word` is "reply", "out", "state" or "bad". An `out` has its JSON in `words`, and no number.
struct answer {
  std::string_view word;
  std::uint64_t number = 0;
  std::string_view words;
};

/// The lines of a text, which point into it.
inline std::vector<answer> answers(std::string_view text) {
  const auto cut = [](std::string_view &from, char at) {
    const std::size_t end = from.find(at);
    const std::string_view before = from.substr(0, end);
    from.remove_prefix(end == std::string_view::npos ? from.size() : end + 1);
    return before;
  };
  std::vector<answer> found;
  while (!text.empty()) {
    answer next;
    next.words = cut(text, '\n');
    next.word = cut(next.words, ' ');
    if (next.word != "out")
      for (const char digit : cut(next.words, ' '))
        next.number = 10 * next.number + static_cast<std::uint64_t>(digit - '0');
    found.push_back(next);
  }
  return found;
}

} // namespace rolgunai

#endif

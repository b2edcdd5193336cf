// Rolgunai, the proved comm manager, in C++20: this header, rolgunai_parts.hpp and rolgunai_types.hpp over
// bindings/c/rolgunai.h, to be copied beside it. For threads that share a manager: rolgunai_client.hpp.
//
//     rolgunai::manager manager(4096, rolgunai::numbers::any);
//     manager.register_target(rolgunai::kind::widget_echo, "jupyter.widget");
//     rolgunai::outcome came = manager.message(header, metadata, content, buffers);
//     for (const rolgunai::sent &sent : came.sent) ..
//     manager.push(id, R"({"value":7})");
//
// A call that isn't made throws rolgunai::error, and leaves the manager as it was; only `no_text` says that the call is
// made, and that memory ran out for what it came to. Ids and names are UTF-8. The texts that `line` and `text` give
// stand in memory of the manager's, until its next call. A manager has one call at a time, and may go to another thread
// between two calls. What else a kernel has to know stands in rolgunai.h.
#ifndef ROLGUNAI_HPP
#define ROLGUNAI_HPP

#include "rolgunai_parts.hpp"

#include <memory>

namespace rolgunai {

/// A manager. It is freed where it goes out of scope; the calls of one that was moved from throw `closed`.
class manager : detail::caller {
public:
  /// At most so many comms, 1 to 1,048,576, are open at a time; any number of targets may be registered. With decimals
  /// a number that isn't whole is a value too, kept and sent as the text that came.
  explicit manager(std::size_t comms = 4096, numbers taken = numbers::whole) : handle_(new rolgunai_handle{}) {
    checked(taken == numbers::any ? rolgunai_new_with_decimals(handle_.get(), comms)
                                  : rolgunai_new(handle_.get(), comms));
  }
  manager(manager &&) noexcept = default;
  manager &operator=(manager &&) noexcept = default;

  /// Plays a message of a frontend by its parts: JSON texts as the wire has them, and binary buffers. Clients are
  /// numbered 0 to 3.
  outcome message(std::string_view header, std::string_view metadata, std::string_view content,
                  buffer_list buffers = {}, std::uint32_t client = 0) {
    const bytes head(header), meta(metadata), body(content);
    const rolgunai_frame *frames = framed(buffers);
    return made([&](std::uint32_t &reply, std::size_t &count) {
      return rolgunai_handle_frames(handle(), client, some(head), head.size(), some(meta), meta.size(), some(body),
                                    body.size(), frames, buffers.size(), &reply, &count);
    });
  }

  /// Registers a new target under a name. One that has the name is replaced, and its comms are closed.
  outcome register_target(kind kind, std::string_view name, std::uint32_t client = 0) {
    const bytes text(name);
    return made([&](std::uint32_t &reply, std::size_t &count) {
      return rolgunai_register(handle(), client, static_cast<std::uint32_t>(kind), some(text), text.size(), &reply,
                               &count);
    });
  }

  /// Takes the target of a name out, and closes its comms.
  outcome unregister_target(std::string_view name, std::uint32_t client = 0) {
    return named(rolgunai_unregister, name, client);
  }

  /// Opens a widget of the kernel towards the frontends, with its state, a JSON object, and the buffers at the paths, a
  /// JSON list of lists of strings and indices. The comm's id is the UUID, with hyphens.
  outcome launch(std::string_view target, std::string_view uuid, std::string_view state, std::string_view paths = "[]",
                 buffer_list buffers = {}, std::uint32_t client = 0) {
    const bytes name(target), id(uuid), values(state), places(paths);
    const rolgunai_frame *frames = framed(buffers);
    return made([&](std::uint32_t &reply, std::size_t &count) {
      return rolgunai_launch_frames(handle(), client, some(name), name.size(), some(id), id.size(), some(values),
                                    values.size(), some(places), places.size(), frames, buffers.size(), &reply, &count);
    });
  }

  /// Changes these keys of a widget's state, and sends an `update` with just them.
  outcome push(std::string_view id, std::string_view state, std::string_view paths = "[]", buffer_list buffers = {},
               std::uint32_t client = 0) {
    const bytes name(id), values(state), places(paths);
    const rolgunai_frame *frames = framed(buffers);
    return made([&](std::uint32_t &reply, std::size_t &count) {
      return rolgunai_push_frames(handle(), client, some(name), name.size(), some(values), values.size(), some(places),
                                  places.size(), frames, buffers.size(), &reply, &count);
    });
  }

  /// Sends a `comm_msg` with this data, a JSON object, on a comm, past its target.
  outcome send(std::string_view id, std::string_view data, buffer_list buffers = {}, std::uint32_t client = 0) {
    const bytes name(id), values(data);
    const rolgunai_frame *frames = framed(buffers);
    return made([&](std::uint32_t &reply, std::size_t &count) {
      return rolgunai_send_frames(handle(), client, some(name), name.size(), some(values), values.size(), frames,
                                  buffers.size(), &reply, &count);
    });
  }

  /// Closes a comm, and sends a `comm_close`.
  outcome close(std::string_view id, std::uint32_t client = 0) { return named(rolgunai_close, id, client); }

  /// Reads a comm's state, which the outcome carries.
  outcome state(std::string_view id) {
    const bytes name(id);
    return made([&](std::uint32_t &reply, std::size_t &count) {
      return rolgunai_state(handle(), some(name), name.size(), &reply, &count);
    });
  }

  /// Plays a message or a command, and gives the lines of its text, which may be none.
  std::string_view line(std::string_view line) {
    const bytes text(line);
    return told([&](std::size_t &size) {
      return rolgunai_handle_line(handle(), some(text), text.size(), out_.data(), out_.size(), &size);
    });
  }

  /// What the last call that was made came to, again. At `memory` it may be asked for once more.
  outcome last() {
    std::uint32_t reply = 0;
    std::size_t count = 0;
    checked(rolgunai_last_result(handle(), &reply, &count));
    return gathered(static_cast<rolgunai::reply>(reply), count, result{handle()});
  }

  /// The text of the last call that was made, as `line` gives it.
  std::string_view text() {
    return told([&](std::size_t &size) { return rolgunai_last_text(handle(), out_.data(), out_.size(), &size); });
  }

  /// Closes the comms, ends the targets, frees everything. Afterwards every call throws `closed`.
  void end() { checked(rolgunai_free(handle())); }

private:
  struct ends {
    void operator()(rolgunai_handle *handle) const noexcept {
      rolgunai_free(handle);
      delete handle;
    }
  };

  /// The last result, as `gathered` asks for it.
  struct result {
    rolgunai_handle *of;

    std::uint32_t reason(std::uint32_t &reason, std::uint64_t &index) const {
      return rolgunai_last_reason(of, &reason, &index);
    }
    std::uint32_t part(std::size_t number, std::uint8_t *out, std::size_t room, std::size_t &size) const {
      return rolgunai_reply_part(of, number, out, room, &size);
    }
    std::uint32_t sent_part(std::size_t message, std::size_t number, std::uint8_t *out, std::size_t room,
                            std::size_t &size) const {
      return rolgunai_sent_part(of, message, number, out, room, &size);
    }
  };

  rolgunai_handle *handle() const {
    if (!handle_) throw error(status::closed);
    return handle_.get();
  }

  template <class Call> outcome made(Call call) {
    std::uint32_t reply = 0;
    std::size_t count = 0;
    checked(call(reply, count));
    return gathered_once(static_cast<rolgunai::reply>(reply), count, result{handle()});
  }

  template <class Call> outcome named(Call call, std::string_view name, std::uint32_t client) {
    const bytes text(name);
    return made([&](std::uint32_t &reply, std::size_t &count) {
      return call(handle(), client, some(text), text.size(), &reply, &count);
    });
  }

  template <class Call> std::string_view told(Call call) {
    std::size_t size = 0;
    std::uint32_t found = call(size);
    // The call is made, and its text, which may be asked for again, doesn't fit.
    if (found == ROLGUNAI_BUFFER_TOO_SMALL) {
      try {
        out_.resize(2 * size);
      } catch (const std::bad_alloc &) {
        throw error(status::no_text);
      }
      found = rolgunai_last_text(handle(), out_.data(), out_.size(), &size);
    }
    checked(found);
    return {reinterpret_cast<const char *>(out_.data()), size};
  }

  // On the heap, since a handle is not to be copied, and a manager may be moved.
  std::unique_ptr<rolgunai_handle, ends> handle_;
};

} // namespace rolgunai

#endif

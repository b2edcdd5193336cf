// The manager that threads share, in C++20, over bindings/c/rolgunai_client.h: to be copied with the headers that it
// includes. Each thread has a client of its own, made from another.
//
//     rolgunai::client client(1048576, rolgunai::numbers::any);
//     std::thread other([mine = client.another(), id]() mutable { mine.push(id, R"({"value":7})").send(to_iopub); });
//     rolgunai::shared_outcome came = client.message(header, metadata, content, buffers);
//     came.send([parent](rolgunai::sent &message) { .. });   // in the order of the changes, whichever thread made them
//
// A client has one call at a time, and may go to another thread between two calls. Changes are made under one mutex, so
// that none is ever `busy`; reads take no lock. A call that isn't made throws rolgunai::error, and leaves all as it
// was; only `no_text` says that the call is made, and that memory ran out for what it came to: `last` gives that. What
// else a kernel has to know stands in rolgunai.h and rolgunai_client.h.
#ifndef ROLGUNAI_CLIENT_HPP
#define ROLGUNAI_CLIENT_HPP

#include "rolgunai_client.h"
#include "rolgunai_outbox.hpp"
#include "rolgunai_parts.hpp"

#include <thread>

namespace rolgunai {

/// What a client's call came to, and where it stands in the history.
struct shared_outcome : outcome {
  shared_outcome(outcome of, std::uint64_t seen, bool is_shown, turn turn)
      : outcome(std::move(of)), seen(seen), is_shown(is_shown), turn_(std::move(turn)) {}

  /// A change's number, from 1; of any other call, how many changes it comes after.
  std::uint64_t seen;
  /// Whether readers saw the client's last change right after it was made.
  bool is_shown;

  /// Hands each message that is sent to `to`, once all that goes before is sent: here, or by the thread that sends
  /// that. `to` is copied, and must not throw. An outcome that isn't sent holds up those behind it until it goes out of
  /// scope; one that was sends nothing more.
  template <class To> void send(To to) {
    if (sent.empty()) {
      turn_ = turn();
      return;
    }
    turn_.use([messages = std::move(sent), to = std::move(to)]() mutable {
      for (rolgunai::sent &message : messages) to(message);
    });
  }

private:
  turn turn_;
};

/// A client of a manager, which it leaves where it goes out of scope; with the last one the manager ends. The calls of
/// one that was moved from throw `closed`.
class client : detail::caller {
public:
  /// A manager and its first client. At most so many comms, 1 to 1,048,576, are open at a time. With decimals a number
  /// that isn't whole is a value too, kept and sent as the text that came.
  explicit client(std::size_t comms = 4096, numbers taken = numbers::whole) : client(std::make_shared<common>()) {
    checked(taken == numbers::any ? rolgunai_open_shared_with_decimals(handle(), comms)
                                  : rolgunai_open_shared(handle(), comms));
  }
  client(client &&) noexcept = default;
  client &operator=(client &&) noexcept = default;

  /// Another client of the manager, for another thread.
  client another() {
    rolgunai_client *mine = handle();
    client made(common_);
    const std::lock_guard<std::mutex> inside(common_->gate);
    checked(rolgunai_client_join(mine, made.handle()));
    return made;
  }

  /// Plays a message of a frontend by its parts: JSON texts as the wire has them, and binary buffers.
  shared_outcome message(std::string_view header, std::string_view metadata, std::string_view content,
                         buffer_list buffers = {}) {
    const bytes head(header), meta(metadata), body(content);
    const rolgunai_frame *frames = framed(buffers);
    return changed([&](rolgunai_client *of, std::uint32_t &reply, std::size_t &count) {
      return rolgunai_client_handle_frames(of, some(head), head.size(), some(meta), meta.size(), some(body),
                                           body.size(), frames, buffers.size(), &reply, &count);
    });
  }

  /// Registers a new target under a name. One that has the name is replaced, and its comms are closed.
  shared_outcome register_target(kind kind, std::string_view name) {
    const bytes text(name);
    return changed([&](rolgunai_client *of, std::uint32_t &reply, std::size_t &count) {
      return rolgunai_client_register(of, static_cast<std::uint32_t>(kind), some(text), text.size(), &reply, &count);
    });
  }

  /// Takes the target of a name out, and closes its comms.
  shared_outcome unregister_target(std::string_view name) {
    const bytes text(name);
    return changed([&](rolgunai_client *of, std::uint32_t &reply, std::size_t &count) {
      return rolgunai_client_unregister(of, some(text), text.size(), &reply, &count);
    });
  }

  /// Opens a widget of the kernel towards the frontends: see `manager::launch`.
  shared_outcome launch(std::string_view target, std::string_view uuid, std::string_view state,
                        std::string_view paths = "[]", buffer_list buffers = {}) {
    const bytes name(target), id(uuid), values(state), places(paths);
    const rolgunai_frame *frames = framed(buffers);
    return changed([&](rolgunai_client *of, std::uint32_t &reply, std::size_t &count) {
      return rolgunai_client_launch_frames(of, some(name), name.size(), some(id), id.size(), some(values),
                                           values.size(), some(places), places.size(), frames, buffers.size(), &reply,
                                           &count);
    });
  }

  /// Changes these keys of a widget's state, and sends an `update` with just them.
  shared_outcome push(std::string_view id, std::string_view state, std::string_view paths = "[]",
                      buffer_list buffers = {}) {
    const bytes name(id), values(state), places(paths);
    const rolgunai_frame *frames = framed(buffers);
    return changed([&](rolgunai_client *of, std::uint32_t &reply, std::size_t &count) {
      return rolgunai_client_push_frames(of, some(name), name.size(), some(values), values.size(), some(places),
                                         places.size(), frames, buffers.size(), &reply, &count);
    });
  }

  /// Sends a `comm_msg` with this data, a JSON object, on a comm, past its target.
  shared_outcome send(std::string_view id, std::string_view data, buffer_list buffers = {}) {
    const bytes name(id), values(data);
    const rolgunai_frame *frames = framed(buffers);
    return changed([&](rolgunai_client *of, std::uint32_t &reply, std::size_t &count) {
      return rolgunai_client_send_frames(of, some(name), name.size(), some(values), values.size(), frames,
                                         buffers.size(), &reply, &count);
    });
  }

  /// Closes a comm, and sends a `comm_close`.
  shared_outcome close(std::string_view id) {
    const bytes name(id);
    return changed([&](rolgunai_client *of, std::uint32_t &reply, std::size_t &count) {
      return rolgunai_client_close(of, some(name), name.size(), &reply, &count);
    });
  }

  /// Reads a comm's state, which the outcome carries, after `since` changes or more, and never before what this client
  /// has seen; and so below. `again` is thrown where there are fewer changes.
  shared_outcome state(std::string_view id, std::uint64_t since = 0) {
    const bytes name(id);
    return read(turn(), [&](rolgunai_client *of, std::uint32_t &reply, std::size_t &count) {
      return rolgunai_client_state(of, since, some(name), name.size(), &reply, &count);
    });
  }

  /// Reads the name of an open comm's target: the outcome's, with the reply `target`, or else `no_comm`.
  shared_outcome target(std::string_view id, std::uint64_t since = 0) {
    const bytes name(id);
    return read(turn(), [&](rolgunai_client *of, std::uint32_t &reply, std::size_t &count) {
      return rolgunai_client_target(of, since, some(name), name.size(), &reply, &count);
    });
  }

  bool is_open(std::string_view id, std::uint64_t since = 0) { return target(id, since).reply == reply::target; }

  /// Lists the open comms, in a `comm_info_reply`.
  shared_outcome infos(std::uint64_t since = 0) {
    return read(next_turn(), [&](rolgunai_client *of, std::uint32_t &reply, std::size_t &count) {
      return rolgunai_client_infos(of, since, &reply, &count);
    });
  }

  /// Lists those of one target.
  shared_outcome infos_of(std::string_view target, std::uint64_t since = 0) {
    const bytes name(target);
    return read(next_turn(), [&](rolgunai_client *of, std::uint32_t &reply, std::size_t &count) {
      return rolgunai_client_infos_of(of, since, some(name), name.size(), &reply, &count);
    });
  }

  /// What this client's last call came to, again. At `memory` it may be asked for once more. After `no_text` it has the
  /// call's turn to send, which the next other call gives up.
  shared_outcome last() {
    std::uint32_t reply = 0;
    std::size_t count = 0;
    checked(rolgunai_client_last_result(handle(), &reply, &count));
    outcome found = gathered(static_cast<rolgunai::reply>(reply), count, result{handle()});
    const position now = seen_now();
    return {std::move(found), now.seen, now.is_shown, std::move(owed_)};
  }

  /// How many changes this client has seen.
  std::uint64_t seen() { return seen_now().seen; }

  /// Leaves the manager. Afterwards every call throws `closed`.
  void end() {
    owed_ = turn();
    checked(rolgunai_client_free(handle()));
  }

private:
  /// What the clients of a manager share.
  struct common {
    std::mutex gate;
    std::shared_ptr<outbox> sending = std::make_shared<outbox>();
  };

  struct ends {
    void operator()(rolgunai_client *handle) const noexcept {
      rolgunai_client_free(handle);
      delete handle;
    }
  };

  /// The last result, as `gathered` asks for it.
  struct result {
    rolgunai_client *of;

    std::uint32_t reason(std::uint32_t &reason, std::uint64_t &index) const {
      return rolgunai_client_last_reason(of, &reason, &index);
    }
    std::uint32_t part(std::size_t number, std::uint8_t *out, std::size_t room, std::size_t &size) const {
      return rolgunai_client_reply_part(of, number, out, room, &size);
    }
    std::uint32_t sent_part(std::size_t message, std::size_t number, std::uint8_t *out, std::size_t room,
                            std::size_t &size) const {
      return rolgunai_client_sent_part(of, message, number, out, room, &size);
    }
  };

  struct position {
    std::uint64_t seen = 0;
    bool is_shown = true;
  };

  // Readers may be in each place that a change could be shown in, but none stays.
  static constexpr int most_tries = 1000;

  explicit client(std::shared_ptr<common> of) : common_(std::move(of)), handle_(new rolgunai_client{}) {}

  rolgunai_client *handle() const {
    if (!handle_) throw error(status::closed);
    return handle_.get();
  }

  turn next_turn() const {
    if (!handle_) throw error(status::closed);
    try {
      return turn(common_->sending);
    } catch (const std::bad_alloc &) {
      throw error(status::memory);
    }
  }

  position seen_now() const {
    position now;
    std::uint32_t shown = 0;
    checked(rolgunai_client_seen(handle(), &now.seen, &shown));
    now.is_shown = shown != 0;
    return now;
  }

  template <class Call> shared_outcome changed(Call call) {
    turn next = next_turn();
    std::uint32_t reply = 0;
    std::size_t count = 0;
    {
      const std::lock_guard<std::mutex> inside(common_->gate);
      checked(call(handle(), reply, count));
    }
    return came(std::move(next), reply, count, rolgunai_is_change(reply));
  }

  template <class Call> shared_outcome read(turn next, Call call) {
    std::uint32_t reply = 0;
    std::size_t count = 0;
    for (int tries = 1;; tries++) {
      const std::uint32_t found = call(handle(), reply, count);
      if (found != ROLGUNAI_AGAIN || tries == most_tries) {
        checked(found);
        return came(std::move(next), reply, count, false);
      }
      show();
    }
  }

  /// Shows the last change, or lets the readers go on that are in its way.
  void show() {
    std::uint32_t shown = 0;
    {
      const std::lock_guard<std::mutex> inside(common_->gate);
      checked(rolgunai_client_show(handle(), &shown));
    }
    if (!shown) std::this_thread::yield();
  }

  /// The call is made: what it came to, with its turn, which is kept for `last` where memory runs out.
  shared_outcome came(turn next, std::uint32_t reply, std::size_t count, bool is_change) {
    const position now = seen_now();
    if (is_change || count > 0) next.made(now.seen, is_change);
    owed_ = std::move(next);
    outcome found = gathered_once(static_cast<rolgunai::reply>(reply), count, result{handle()});
    return {std::move(found), now.seen, now.is_shown, std::move(owed_)};
  }

  std::shared_ptr<common> common_;
  // On the heap, since a handle is not to be copied, and a client may be moved.
  std::unique_ptr<rolgunai_client, ends> handle_;
  turn owed_;
};

} // namespace rolgunai

#endif

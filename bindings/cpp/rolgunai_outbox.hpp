// Lets what threads send go out in the order of the changes that they made: what a change sends is held back until all
// changes of lower numbers have had their turn, and what a call that is no change sends until all that it comes after
// have. One thread sends at a time, and holds no lock while it does: it may send for others too, and what it calls may
// make calls of its own.
#ifndef ROLGUNAI_OUTBOX_HPP
#define ROLGUNAI_OUTBOX_HPP

#include <cstdint>
#include <functional>
#include <memory>
#include <mutex>
#include <utility>

namespace rolgunai {

/// Those that wait for their turn.
class outbox {
public:
  /// One that waits, or will. It is made before its call, so that a call that is made needs no more memory.
  struct place {
    std::uint64_t number = 0; ///< the change's; of a call that is none, how many changes it comes after
    bool is_change = false;
    std::function<void()> send = nullptr; ///< may be none, and must not throw
    std::unique_ptr<place> next = nullptr;
  };

  outbox() = default;
  outbox(const outbox &) = delete;
  outbox &operator=(const outbox &) = delete;
  ~outbox() {
    while (first_) first_ = std::move(first_->next);
  }

  /// Puts one, and sends all whose time has come, unless another thread does.
  void put(std::unique_ptr<place> coming) noexcept {
    std::unique_lock<std::mutex> lock(mutex_);
    keep(std::move(coming));
    if (is_sending_) return;
    is_sending_ = true;
    while (std::unique_ptr<place> next = taken()) {
      lock.unlock();
      if (next->send) next->send();
      next.reset();
      lock.lock();
    }
    is_sending_ = false;
  }

private:
  static bool is_before(const place &one, const place &other) noexcept {
    return one.number < other.number || (one.number == other.number && one.is_change && !other.is_change);
  }

  void keep(std::unique_ptr<place> coming) noexcept {
    std::unique_ptr<place> *at = last_ && !is_before(*coming, *last_) ? &last_->next : &first_;
    while (*at && !is_before(*coming, **at)) at = &(*at)->next;
    if (!*at) last_ = coming.get();
    coming->next = std::move(*at);
    *at = std::move(coming);
  }

  /// The next one whose time has come, or none.
  std::unique_ptr<place> taken() noexcept {
    if (!first_ || first_->number > gone_ + (first_->is_change ? 1 : 0)) return nullptr;
    std::unique_ptr<place> found = std::move(first_);
    first_ = std::move(found->next);
    if (!first_) last_ = nullptr;
    if (found->is_change) gone_ = found->number;
    return found;
  }

  std::mutex mutex_;
  std::uint64_t gone_ = 0; // the changes up to this number have had their turn
  bool is_sending_ = false;
  std::unique_ptr<place> first_;
  place *last_ = nullptr;
};

/// A call's turn to send. Where it ends unused, nothing is sent and those behind it go on.
class turn {
public:
  turn() = default;
  explicit turn(std::shared_ptr<outbox> of) : of_(std::move(of)), place_(std::make_unique<outbox::place>()) {}
  turn(turn &&) noexcept = default;
  turn &operator=(turn &&other) noexcept {
    if (this != &other) {
      pass();
      of_ = std::move(other.of_);
      place_ = std::move(other.place_);
      is_made_ = other.is_made_;
    }
    return *this;
  }
  ~turn() { pass(); }

  /// Its call is made, and is this change, or comes after so many.
  void made(std::uint64_t number, bool is_change) noexcept {
    if (!place_) return;
    place_->number = number;
    place_->is_change = is_change;
    is_made_ = true;
  }

  /// Calls this when the time has come, here or by another thread. It is copied, and must not throw. A turn that was
  /// used calls nothing.
  template <class Send> void use(Send send) {
    if (place_) place_->send = std::move(send);
    pass();
  }

private:
  void pass() noexcept {
    if (place_ && is_made_) of_->put(std::move(place_));
    place_.reset();
  }

  std::shared_ptr<outbox> of_;
  std::unique_ptr<outbox::place> place_;
  bool is_made_ = false;
};

} // namespace rolgunai

#endif

// What the classes over the library's calls have in common: how buffers are handed in, and how the parts of a result
// come out.
#ifndef ROLGUNAI_PARTS_HPP
#define ROLGUNAI_PARTS_HPP

#include "rolgunai_types.hpp"

#include <new>
#include <utility>

namespace rolgunai::detail {

/// What makes calls, with the memory that it takes for them.
class caller {
protected:
  static constexpr std::size_t short_size = 4096;

  caller() : out_(short_size) {}

  static void checked(std::uint32_t found) {
    if (found != ROLGUNAI_OK) throw error(static_cast<status>(found));
  }

  // The library takes no null pointer, also where there is nothing to read.
  static const std::uint8_t *some(bytes text) noexcept {
    static constexpr std::uint8_t nothing = 0;
    return text.data() ? text.data() : &nothing;
  }

  /// The buffers where they lie, until the next call.
  const rolgunai_frame *framed(buffer_list buffers) {
    frames_.clear();
    frames_.reserve(buffers.size() + 1); // since the library takes no null pointer, which an empty vector may have
    for (const bytes &buffer : buffers) frames_.push_back({some(buffer), buffer.size()});
    return frames_.data();
  }

  /// All of a result. `Result` has its reason, the parts of its reply, and those of what is sent.
  template <class Result> outcome gathered(rolgunai::reply reply, std::size_t count, const Result &from) {
    outcome found;
    found.reply = reply;
    std::uint32_t reason = 0;
    checked(from.reason(reason, found.why.index));
    found.why.reason = static_cast<rolgunai::reason>(reason);
    const auto part = [&](std::size_t number, std::uint8_t *out, std::size_t room, std::size_t &size) {
      return from.part(number, out, room, size);
    };
    found.comm = text_of(part, ROLGUNAI_PART_ID);
    found.target = text_of(part, ROLGUNAI_PART_TARGET);
    if (std::optional<std::string> content = text_of(part, ROLGUNAI_PART_CONTENT))
      found.payload = payload{std::move(*content), buffers_of(part)};
    for (std::size_t number = 0; number < count; number++) found.sent.push_back(message_of(number, from));
    return found;
  }

  /// The same right after the call: where memory runs out, the call is made.
  template <class Result> outcome gathered_once(rolgunai::reply reply, std::size_t count, const Result &from) {
    try {
      return gathered(reply, count, from);
    } catch (const error &found) {
      throw error(found.code() == status::memory ? status::no_text : found.code());
    } catch (const std::bad_alloc &) {
      throw error(status::no_text);
    }
  }

  std::vector<std::uint8_t> out_;
  std::vector<rolgunai_frame> frames_;

private:
  template <class Result> sent message_of(std::size_t message, const Result &from) {
    const auto part = [&](std::size_t number, std::uint8_t *out, std::size_t room, std::size_t &size) {
      return from.sent_part(message, number, out, room, size);
    };
    const auto text = [&](std::size_t number) {
      std::optional<std::string> found = text_of(part, number);
      if (!found) throw error(status::no_part);
      return std::move(*found);
    };
    return {text(ROLGUNAI_PART_TYPE), text(ROLGUNAI_PART_ID), text(ROLGUNAI_PART_CONTENT),
            text(ROLGUNAI_PART_METADATA), buffers_of(part)};
  }

  /// A part that is a text, where there is one. JSON is written each time that it is asked for, so that the buffer
  /// grows to the longest.
  template <class Part> std::optional<std::string> text_of(Part part, std::size_t number) {
    std::size_t size = 0;
    std::uint32_t found = part(number, out_.data(), out_.size(), size);
    if (found == ROLGUNAI_BUFFER_TOO_SMALL) {
      out_.resize(2 * size);
      found = part(number, out_.data(), out_.size(), size);
    }
    if (found == ROLGUNAI_NO_PART) return std::nullopt;
    checked(found);
    return std::string(out_.begin(), out_.begin() + static_cast<std::ptrdiff_t>(size));
  }

  /// The binary buffers. A long one is copied once, to where it stays.
  template <class Part> std::vector<buffer> buffers_of(Part part) {
    std::vector<buffer> found;
    for (std::size_t number = ROLGUNAI_PART_BUFFERS;; number++) {
      std::size_t size = 0;
      const std::uint32_t status = part(number, out_.data(), short_size, size);
      if (status == ROLGUNAI_NO_PART) return found;
      if (status == ROLGUNAI_BUFFER_TOO_SMALL) {
        found.emplace_back(size);
        checked(part(number, found.back().data(), size, size));
      } else {
        checked(status);
        found.emplace_back(out_.begin(), out_.begin() + static_cast<std::ptrdiff_t>(size));
      }
    }
  }
};

} // namespace rolgunai::detail

#endif

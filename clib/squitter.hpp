// squitter.hpp - libsquitter for C++17: the calls of squitter.h that decode, by types that free what they take.
//
// A call that can fail returns a Result: its value, or the fault. Only Result::value throws, and what takes memory.
// A Tracker, a Log and a Feed live in memory of their own, or in a block that the caller lends. They can be neither
// copied nor moved: hold them by std::unique_ptr where they have to move. squitter.h says what each call does.
#ifndef SQUITTER_HPP
#define SQUITTER_HPP

#include "squitter.h"
#include <algorithm>
#include <array>
#include <cstddef>
#include <memory>
#include <new>
#include <optional>
#include <stdexcept>
#include <string>
#include <string_view>
#include <utility>
#include <vector>

namespace squitter {

using Angle = squitter_angle;
using Position = squitter_position;
using Fields = squitter_fields;
using Heard = squitter_heard;
using Answer = squitter_answer;
using Entry = squitter_entry;
constexpr std::size_t MANY = 64; // results of one call

// Returns where a text starts, which is never null.
inline const char *start(std::string_view text) { return text.data() != nullptr ? text.data() : ""; }

// Returns the degrees, rounded to a double.
inline double degrees(const Angle &angle) { return static_cast<double>(angle.num) / static_cast<double>(angle.den); }

// An error, or none.
struct Fault : squitter_fault {
  Fault(squitter_fault fault = {}) : squitter_fault(fault) {}
  explicit operator bool() const { return code != SQUITTER_OK; }
  // Returns the words of the fault, those of the program `squitter` if it has any.
  std::string text() const {
    char words[SQUITTER_FAULT_TEXT_BYTES + 1]{};
    squitter_text_of_fault(this, words);
    return words;
  }
};

// What Result::value throws.
class Error : public std::runtime_error {
public:
  explicit Error(const Fault &why) : std::runtime_error(why.text()), fault(why) {}
  Fault fault;
};

// A value, or the fault for which there is none.
template <typename T> class Result {
public:
  Result(T value) : value_(std::move(value)) {}
  Result(const Fault &fault) : fault_(fault) {}
  explicit operator bool() const { return value_.has_value(); }
  const T &operator*() const { return *value_; }
  const T *operator->() const { return &*value_; }
  const Fault &fault() const { return fault_; }
  // Returns the value, or throws an Error.
  const T &value() const { return value_ ? *value_ : throw Error(fault_); }
  T value_or(T other) const { return value_.value_or(std::move(other)); }

private:
  std::optional<T> value_;
  Fault fault_;
};

// Returns the value that a call of squitter.h wrote by its last argument, or its fault.
template <typename T> T *where(T &out) { return &out; }
template <typename T, typename Call, typename... Arguments> Result<T> result_of(Call call, Arguments... arguments) {
  T out{};
  if (const Fault fault = call(arguments..., where(out))) return fault;
  return out;
}

// Parses degrees, as "-33.9".
inline Result<Angle> angle(std::string_view text) {
  return result_of<Angle>(squitter_angle_of_text, start(text), text.size());
}

// Returns degrees with seven decimals.
inline std::string text(const Angle &of) {
  char digits[SQUITTER_ANGLE_TEXT_BYTES + 1]{};
  return squitter_text_of_angle(&of, digits).code == SQUITTER_OK ? digits : "";
}

// A frame of 112 bits.
class Frame {
public:
  std::array<std::uint8_t, SQUITTER_FRAME_BYTES> bytes{};

  // Parses 28 hexadecimal digits, bare or between `*` and `;`.
  static Result<Frame> parse(std::string_view of) {
    return result_of<Frame>(squitter_frame_of_text, start(of), of.size());
  }
  std::string text() const {
    std::string digits(SQUITTER_FRAME_DIGITS, '0');
    squitter_text_of_frame(bytes.data(), digits.data());
    return digits;
  }
  Result<Fields> read() const { return result_of<Fields>(squitter_read_frame, bytes.data()); }
  // Decodes the position near a reference, within half a zone of it.
  Result<Position> local(const Position &reference) const {
    return result_of<Position>(squitter_local, bytes.data(), &reference);
  }
  // Encodes this frame again with a parity (0 even, 1 odd) and another position.
  Result<Frame> again(std::uint8_t odd, const Position &at) const {
    return result_of<Frame>(squitter_send_again, bytes.data(), odd, &at);
  }
};
inline std::uint8_t *where(Frame &out) { return out.bytes.data(); }

// Decodes the position of the newer of an even and an odd frame. On the ground a site (receiver position) is needed.
inline Result<Position> pair(const Frame &older, const Frame &newer,
                             const std::optional<Position> &site = std::nullopt) {
  return site ? result_of<Position>(squitter_pair_at, older.bytes.data(), newer.bytes.data(), &*site)
              : result_of<Position>(squitter_pair, older.bytes.data(), newer.bytes.data());
}

// Encodes the frame for a position in the air, or on the ground.
inline Result<Frame> encode(const squitter_air_head &head, const Position &at) {
  return result_of<Frame>(squitter_encode_air, &head, &at);
}
inline Result<Frame> encode(const squitter_ground_head &head, const Position &at) {
  return result_of<Frame>(squitter_encode_ground, &head, &at);
}

// A block that the caller lends, aligned as by malloc, or the wish for one of its own.
struct Memory {
  void *at;
  std::size_t size;
};

// Settings of a Tracker and of a Log.
struct Settings {
  std::uint32_t limit = 1000;     // addresses
  std::uint64_t window = 10'000;  // milliseconds
  std::optional<Position> site{}; // the receiver's position, which pairs on the ground need
};

// A handle of the library with its block. Without one, `fault` says why, and all calls have the fault NO_TRACKER.
template <typename Handle> class Held {
public:
  Held(const Held &) = delete;
  Held &operator=(const Held &) = delete;
  explicit operator bool() const { return !fault_; }
  const Fault &fault() const { return fault_; }

protected:
  Held() = default;
  // Lends a block of `size` bytes, or takes one.
  squitter_block block(Memory lent, std::size_t size) {
    if (lent.at != nullptr) return {lent.size, lent.at};
    if (size != SIZE_MAX) own_.reset(new (std::nothrow) std::max_align_t[size / sizeof(std::max_align_t) + 1]);
    return {own_ ? size : 0, own_ ? static_cast<void *>(own_.get()) : static_cast<void *>(&handle_)};
  }
  mutable Handle handle_{};
  Fault fault_;

private:
  std::unique_ptr<std::max_align_t[]> own_;
};

// Returns all entries since a time (ms) that a call writes from an index on; the call returns how many it wrote.
template <typename Call, typename Of> std::vector<Entry> entries_of(Call call, Of *handle, std::uint64_t since) {
  std::vector<Entry> found;
  for (std::size_t count = MANY; count == MANY;) {
    const std::size_t from = found.size();
    found.resize(from + MANY);
    count = call(handle, since, from, found.data() + from, MANY);
    found.resize(from + count);
  }
  return found;
}

// Returns why a place at a time (ms) cannot be true: the sum of SQUITTER_BEYOND_RANGE and SQUITTER_TOO_FAST, or 0.
// `before` is the last place of the aircraft.
inline std::uint32_t doubts(const squitter_watch &watch, const std::optional<Position> &site,
                            const std::optional<squitter_last_fix> &before, std::uint64_t time, const Position &place) {
  const Position here = site.value_or(Position{});
  const squitter_last_fix last = before.value_or(squitter_last_fix{});
  return squitter_doubts(&watch, &here, &last, time, &place);
}

// Decodes the frames of many aircraft.
class Tracker : public Held<squitter_tracker> {
public:
  struct State {
    squitter_last last{};
    std::vector<Entry> entries;
  };
  explicit Tracker(const Settings &of = {}, Memory lent = {}) {
    const squitter_block at = block(lent, squitter_tracker_size(of.limit));
    fault_ = of.site ? squitter_tracker_new_at(&handle_, at, of.limit, of.window, &*of.site)
                     : squitter_tracker_new(&handle_, at, of.limit, of.window);
  }
  ~Tracker() { squitter_tracker_free(&handle_); }
  Result<Heard> hear(std::uint64_t time, const Frame &one) {
    return result_of<Heard>(squitter_tracker_hear, &handle_, time, one.bytes.data());
  }
  std::size_t size() const { return squitter_tracker_len(&handle_); }
  // Returns the state of each aircraft that was heard at `since` (ms) or later, the last heard first.
  std::vector<Entry> present(std::uint64_t since = 0) const {
    return entries_of(squitter_tracker_present, &handle_, since);
  }
  State save() const {
    State state;
    state.entries.resize(size() + 1); // (an array has to be there)
    state.entries.resize(squitter_tracker_save(&handle_, &state.last, state.entries.data(), state.entries.size()));
    return state;
  }
  Fault restore(const State &state) {
    const Entry none{}, *entries = state.entries.empty() ? &none : state.entries.data();
    return squitter_tracker_restore(&handle_, &state.last, entries, state.entries.size());
  }
};

// Decodes a log, in pieces of any length, as `squitter track`.
class Log : public Held<squitter_log> {
public:
  explicit Log(const Settings &of = {}, Memory lent = {}) {
    const squitter_block at = block(lent, squitter_log_size(of.limit));
    fault_ = of.site ? squitter_log_new_at(&handle_, at, of.limit, of.window, &*of.site)
                     : squitter_log_new(&handle_, at, of.limit, of.window);
  }
  ~Log() { squitter_log_free(&handle_); }
  // Calls `use` with the Answer for each line that ends in this piece.
  template <typename Use> Fault take(std::string_view piece, Use use) { return answers(use, &piece); }
  // Calls `use` with the Answers that wait, and with that for a last line without a line feed.
  template <typename Use> Fault finish(Use use) { return answers(use, nullptr); }
  // Returns the state of each aircraft that was heard at `since` (ms) or later, the last heard first.
  std::vector<Entry> present(std::uint64_t since = 0) const {
    return entries_of(squitter_log_present, &handle_, since);
  }
  Result<squitter_tally> tally() const { return result_of<squitter_tally>(squitter_log_tally, &handle_); }

private:
  template <typename Use> Fault answers(Use &use, std::string_view *piece) {
    squitter_done done{};
    do {
      const Fault fault = piece ? squitter_log_take(&handle_, start(*piece), piece->size(), out_.data(), MANY, &done)
                                : squitter_log_finish(&handle_, out_.data(), MANY, &done);
      if (fault) return fault;
      if (piece) piece->remove_prefix(done.taken);
      for (std::size_t at = 0; at < done.written; ++at) use(std::as_const(out_[at]));
    } while (done.written == MANY);
    return {};
  }
  std::array<Answer, MANY> out_{};
};

// Finds the squitters in a receiver's bytes, in pieces of any length.
class Feed : public Held<squitter_feed> {
public:
  explicit Feed(std::uint32_t format = SQUITTER_FEED_AUTO, std::uint64_t leap = 600'000, std::uint64_t late = 0,
                std::uint32_t flags = 0, Memory lent = {}) {
    fault_ = squitter_feed_new(&handle_, block(lent, squitter_feed_size()), format, leap, late, flags);
  }
  ~Feed() { squitter_feed_free(&handle_); }
  // Calls `use` with the timestamp (ms) and the Frame of each squitter. `arrival` counts where the source is live.
  template <typename Use> Fault take(std::string_view piece, Use use, std::uint64_t arrival = 0) {
    return frames(use, &piece, arrival);
  }
  // Ends the source. The next bytes belong to another one.
  template <typename Use> Fault finish(Use use, std::uint64_t arrival = 0) { return frames(use, nullptr, arrival); }
  Fault disconnected() { return squitter_feed_disconnected(&handle_); }
  Result<std::uint32_t> format() const { return result_of<std::uint32_t>(squitter_feed_format, &handle_); }
  Result<squitter_counts> counts() const { return result_of<squitter_counts>(squitter_feed_counts, &handle_); }

private:
  template <typename Use> Fault frames(Use &use, std::string_view *piece, std::uint64_t arrival) {
    squitter_done done{};
    do {
      const Fault fault = piece ? squitter_feed_take(&handle_, start(*piece), piece->size(), arrival, moments_, MANY,
                                                     frames_, MANY, &done)
                                : squitter_feed_finish(&handle_, arrival, moments_, MANY, frames_, MANY, &done);
      if (fault) return fault;
      if (piece) piece->remove_prefix(done.taken);
      for (std::size_t at = 0; at < done.written; ++at) {
        Frame one;
        std::copy_n(frames_[at], one.bytes.size(), one.bytes.begin());
        use(moments_[at], std::as_const(one));
      }
    } while (done.written == MANY);
    return {};
  }
  std::uint64_t moments_[MANY]{};
  std::uint8_t frames_[MANY][SQUITTER_FRAME_BYTES]{};
};

} // namespace squitter
#endif

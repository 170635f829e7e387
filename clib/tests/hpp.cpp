// Tests of squitter.hpp, by its one argument, examples/flights.log. Expected values are those of README.md and of
// tests/worked, whose frames come from the standard's literature.
#include "squitter.hpp"
#include <algorithm>
#include <cstdio>
#include <cstring>
#include <fstream>
#include <sstream>

namespace {

int failed;

void expect(bool good, const char *what, int line) {
  if (!good) ++failed, std::printf("line %d: %s\n", line, what);
}
#define EXPECT(good) expect(good, #good, __LINE__)

using squitter::Frame;
const char *const EVEN = "8D40621D58C382D690C8AC2863A7", *const ODD = "8D40621D58C386435CC412692AD6";
const char *const GROUND[] = {"8C4841753AAB238733C8CD4020B1", "8C4841753A8A35323FAEBDAC702D"};

bool is(const squitter::Position &at, const char *lat, const char *lon) {
  return squitter::text(at.lat) == lat && squitter::text(at.lon) == lon;
}
squitter::Position site(const char *lat, const char *lon) {
  return {squitter::angle(lat).value(), squitter::angle(lon).value()};
}

void frames() {
  const auto even = Frame::parse(EVEN), odd = Frame::parse("*8d40621d58c386435cc412692ad6;");
  EXPECT(even && odd && odd->text() == ODD);
  EXPECT(even->read()->feet == 38000 && even->read()->address == 0x40621D);
  const auto place = squitter::pair(*even, *odd);
  EXPECT(place && is(*place, "52.2657802", "3.9389125") && place->lat.num == 25261515 && place->lat.den == 483328);
  EXPECT(squitter::degrees(place->lon) > 3.938912 && squitter::degrees(place->lon) < 3.938913);
  EXPECT(is(*squitter::pair(*odd, *even), "52.2572021", "3.9193726"));
  EXPECT(is(*even->local(site("52.258", "3.918")), "52.2572021", "3.9193726"));
  EXPECT(even->again(0, *squitter::pair(*odd, *even))->text() == EVEN);
  const auto first = Frame::parse(GROUND[0]), second = Frame::parse(GROUND[1]);
  EXPECT(squitter::pair(*first, *second).fault().code == SQUITTER_NO_SITE);
  EXPECT(is(*squitter::pair(*first, *second, site("51.990", "4.375")), "52.3206071", "4.7347347"));
  squitter_air_head air{};
  air.address = 0x40621D, air.ca = 5, air.type_code = 11, air.altitude = 0xC38;
  EXPECT(squitter::encode(air, *squitter::pair(*odd, *even))->text() == EVEN);
  squitter_ground_head ground{};
  ground.type_code = 7;
  EXPECT(squitter::encode(ground, site("52", "4"))->read()->kind == SQUITTER_GROUND);
}

void faults() {
  EXPECT(Frame::parse({}).fault().text() == "bad length 0" && Frame::parse("*").fault().code == SQUITTER_WRAP);
  const auto bad = Frame::parse("8D40621D58C382D690C8AC2863A6").value().read();
  EXPECT(!bad && bad.fault().text() == "parity 000001" && bad.value_or({}).address == 0);
  try {
    bad.value();
    EXPECT(false);
  } catch (const squitter::Error &why) {
    EXPECT(why.fault.code == SQUITTER_PARITY && !std::strcmp(why.what(), "parity 000001"));
  }
  EXPECT(squitter::angle("").fault().code == SQUITTER_NOT_A_NUMBER && squitter::angle("-33.9")->num == -339);
  EXPECT(squitter::text(squitter::Angle{1, 0}).empty());
  EXPECT(Frame::parse(EVEN)->local({{91, 1}, {0, 1}}).fault().code == SQUITTER_BAD_POSITION);
}

void trackers() {
  const Frame even = *Frame::parse(EVEN), odd = *Frame::parse(ODD);
  squitter::Tracker tracker;
  EXPECT(tracker && tracker.hear(0, even)->what == SQUITTER_WAITING && tracker.size() == 1);
  const squitter::Tracker::State state = tracker.save();
  EXPECT(state.entries.size() == 1 && state.last.heard == 1 && tracker.present()[0].address == 0x40621D);
  EXPECT(tracker.present().size() == 1 && tracker.present(1).empty());
  alignas(std::max_align_t) static unsigned char block[1 << 16];
  std::memset(block, 0xA5, sizeof block);
  const std::size_t size = squitter_tracker_size(2);
  {
    squitter::Tracker lent({2, 9999, {}}, {block, size});
    EXPECT(lent && !lent.restore(state) && lent.size() == 1);
    EXPECT(lent.hear(10'000, odd)->what == SQUITTER_WAITING); // the window is shorter
    EXPECT(!lent.restore(state) && is(lent.hear(9999, odd)->position, "52.2657802", "3.9389125"));
    EXPECT(lent.hear(0, odd).fault().text() == "moment back 9999");
    EXPECT(!lent.restore({}) && lent.size() == 0 && lent.save().entries.empty());
  }
  for (std::size_t at = size; at < sizeof block; ++at) EXPECT(block[at] == 0xA5);
  squitter::Tracker small({2, 10, {}}, {block, size - 1}), none({0, 10, {}}), wrong({1, 1, squitter::Position{}});
  EXPECT(!small && small.fault().code == SQUITTER_NO_MEMORY && small.hear(0, even).fault().code == SQUITTER_NO_TRACKER);
  EXPECT(none.fault().code == SQUITTER_NO_LIMIT && wrong.fault().code == SQUITTER_BAD_POSITION && wrong.size() == 0);
  squitter::Tracker two;
  (void)two.hear(0, *Frame::parse(GROUND[0])), (void)two.hear(1, even);
  EXPECT(two.save().entries.size() == 2 && two.save().entries[1].address == 0x40621D);
  squitter::Tracker ground({1, 10, site("51.990", "4.375")});
  (void)ground.hear(0, *Frame::parse(GROUND[0]));
  EXPECT(is(ground.hear(1, *Frame::parse(GROUND[1]))->position, "52.3206071", "4.7347347"));
  EXPECT(ground.hear(2, even).fault().code == SQUITTER_TABLE_FULL);
}

void present() {
  for (const std::uint32_t count : {0u, 63u, 64u, 65u, 200u}) {
    squitter::Tracker tracker;
    squitter::Log log;
    for (std::uint32_t address = 0; address < count; ++address) {
      squitter_air_head head{};
      head.address = address, head.type_code = 11;
      const Frame sent = *squitter::encode(head, site("1", "2"));
      (void)tracker.hear(address, sent);
      EXPECT(!log.take(std::to_string(address) + " " + sent.text() + "\n", [](const squitter::Answer &) {}));
    }
    const auto found = tracker.present();
    EXPECT(found.size() == count && log.present().size() == count);
    EXPECT(log.present(64).size() == (count > 64 ? count - 64 : 0));
    for (std::size_t at = 0; at < found.size(); ++at) EXPECT(found[at].address == count - 1 - at);
  }
}

void watched() {
  const squitter_watch watch{60, 3600};
  const squitter::Position here = site("0", "0");
  EXPECT(squitter::doubts(watch, here, {}, 1000, site("1", "0")) == 0);
  EXPECT(squitter::doubts(watch, here, {}, 1000, site("1.0000001", "0")) == SQUITTER_BEYOND_RANGE);
  const squitter_last_fix before{0, here}; // 3,600 knots are a mile in a second, and a mile more is allowed
  EXPECT(squitter::doubts(watch, {}, before, 1000, site("0.0333333", "0")) == 0);
  EXPECT(squitter::doubts(watch, {}, before, 1000, site("0.0333334", "0")) == SQUITTER_TOO_FAST);
}

// The results of a log in pieces of this size.
std::string told(const std::string &data, std::size_t size) {
  squitter::Log log({1000, 10'000, site("52.31", "4.76")});
  std::ostringstream out;
  const auto line = [&](const squitter::Answer &one) {
    out << one.number << ' ' << (one.fault.code ? squitter::Fault(one.fault).text() : "good") << ' ' << one.address
        << ' ' << one.degrees.lat << '\n';
  };
  for (std::size_t at = 0; at < data.size(); at += size)
    EXPECT(!log.take(std::string_view(data).substr(at, size), line));
  EXPECT(!log.take({}, line) && !log.finish(line));
  out << log.tally()->good << ' ' << log.tally()->refused;
  return out.str();
}

void logs(const std::string &data) {
  const std::string lines = std::string("0 ") + EVEN + "\n\n10000 " + ODD + "\r\nx";
  const std::string wanted = "1 good 4219421 0\n3 good 4219421 522657802\n4 bad moment 0 0\n2 1";
  for (std::size_t size : {1u, 2u, 7u, 1000u}) EXPECT(told(lines, size) == wanted);
  const std::string whole = told(data, data.size()); // more than fit at once
  EXPECT(told(data, 1000) == whole && told(data, 1) == whole && std::count(whole.begin(), whole.end(), '\n') > 1000);
  squitter::Log none({0, 0, {}});
  EXPECT(none.take("x", [](const squitter::Answer &) {}).code == SQUITTER_NO_TRACKER && !none.tally());
}

void feeds(const std::string &data) {
  std::ostringstream out;
  const auto frame = [&](std::uint64_t moment, const Frame &one) { out << moment << ' ' << one.text() << '\n'; };
  squitter::Feed feed;
  EXPECT(*feed.format() == SQUITTER_FEED_AUTO && !feed.take({}, frame));
  for (char one : data) EXPECT(!feed.take({&one, 1}, frame));
  EXPECT(*feed.format() == SQUITTER_FEED_LOG && !feed.finish(frame));
  const std::string by_byte = out.str();
  EXPECT(by_byte.substr(0, 31) == "0 8D4B100158C382EEEE9F4AAB18EC\n");
  const std::uint64_t written = feed.counts()->written;
  EXPECT(written > 1000 && written == static_cast<std::uint64_t>(std::count(by_byte.begin(), by_byte.end(), '\n')));
  out.str("");
  squitter::Feed whole(SQUITTER_FEED_LOG, 600'000, 0, 0, {});
  EXPECT(!whole.take(data, frame) && !whole.finish(frame) && out.str() == by_byte);
  out.str("");
  squitter::Feed live(SQUITTER_FEED_AVR, 600'000, 0, SQUITTER_FEED_LIVE);
  EXPECT(!live.take(std::string("*") + EVEN + ";*8D", frame, 77) && !live.disconnected() && !live.finish(frame, 78));
  EXPECT(out.str() == std::string("77 ") + EVEN + "\n" && live.counts()->damaged == 1);
  EXPECT(squitter::Feed(99).fault().code == SQUITTER_BAD_FORMAT && !squitter::Feed(99).counts());
}

} // namespace

int main(int count, char **words) {
  std::ifstream file(count == 2 ? words[1] : "", std::ios::binary);
  std::ostringstream data;
  data << file.rdbuf();
  static_assert(!std::is_copy_constructible_v<squitter::Log> && !std::is_move_constructible_v<squitter::Log>);
  frames(), faults(), trackers(), present(), watched(), logs(data.str()), feeds(data.str());
  std::printf("%d failed\n", failed);
  return failed != 0;
}

// A storm, as bindings/c/storm.c is, by the header for C++: storm SCRIPT. tools/storm checks what it writes.
#include "rolgunai_client.hpp"

#include <array>
#include <atomic>
#include <cstdio>
#include <cstdlib>
#include <fstream>
#include <iterator>
#include <string>
#include <thread>
#include <vector>

namespace {

struct line {
  std::size_t number = 0;
  int client = 0, hear = -1;
  std::vector<std::string> fields;
  std::uint32_t status = 0, reply = 0, reason = 0, shown = 1, crc = 0;
  std::uint64_t index = 0, since = 0, seen = 0;
  std::size_t sent = 0;

  const std::string &field(std::size_t at) const {
    static const std::string none;
    return at < fields.size() ? fields[at] : none;
  }
};

struct storm {
  std::vector<line> lines;
  std::vector<rolgunai::client> clients;
  std::vector<std::atomic<std::uint64_t>> told; // the last number that each client was told
  std::vector<std::size_t> order;               // the lines of what was sent, written by whoever sends
};

[[noreturn]] void stop(const char *what) {
  std::fprintf(stderr, "storm: %s\n", what);
  std::exit(2);
}

// ---- What a call came to, as one number: a CRC-32 of all parts, each with its size.

class sum {
public:
  void add(rolgunai::bytes part) {
    step(1);
    for (std::size_t size = part.size(), i = 0; i < 8; i++, size >>= 8) step(static_cast<std::uint8_t>(size));
    for (const std::uint8_t byte : part) step(byte);
  }
  void add_none() { step(0); }
  void add(const std::optional<std::string> &part) { part ? add(rolgunai::bytes(*part)) : add_none(); }
  void add(const std::vector<rolgunai::buffer> &buffers) {
    for (const rolgunai::buffer &buffer : buffers) add(rolgunai::bytes(buffer));
    add_none();
  }
  std::uint32_t found() const { return ~crc_; }

private:
  void step(std::uint8_t byte) {
    crc_ ^= byte;
    for (int bit = 0; bit < 8; bit++) crc_ = crc_ >> 1 ^ (0xEDB88320u & (0u - (crc_ & 1)));
  }

  std::uint32_t crc_ = 0xFFFFFFFFu;
};

std::uint32_t sum_of(const rolgunai::outcome &came) {
  sum all;
  all.add(came.comm);
  all.add(came.target);
  all.add(came.payload ? std::optional(came.payload->content) : std::nullopt);
  all.add(came.payload ? came.payload->buffers : std::vector<rolgunai::buffer>());
  for (const rolgunai::sent &sent : came.sent) {
    for (const std::string *part : {&sent.type, &sent.id, &sent.content, &sent.metadata})
      all.add(rolgunai::bytes(*part));
    all.add(sent.buffers);
  }
  return all.found();
}

// ---- The calls.

/// Buffers of these sizes, as 3,0,50; the bytes tell the line.
class buffers {
public:
  buffers(const line &at, const std::string &sizes) {
    std::size_t byte = at.number * 7, from = 0;
    while (from < sizes.size()) {
      const std::size_t end = std::min(sizes.find(',', from), sizes.size());
      rolgunai::buffer &made = all_.emplace_back(std::stoul(sizes.substr(from, end - from)));
      for (std::uint8_t &to : made) to = static_cast<std::uint8_t>(byte++ % 251);
      from = end + 1;
    }
    for (const rolgunai::buffer &made : all_) views_.emplace_back(made);
  }
  rolgunai::buffer_list list() const { return views_; }

private:
  std::vector<rolgunai::buffer> all_;
  std::vector<rolgunai::bytes> views_;
};

rolgunai::shared_outcome called(rolgunai::client &by, const line &at) {
  const std::string &call = at.field(0);
  if (call == "message") return by.message(at.field(1), at.field(2), at.field(3), buffers(at, at.field(4)).list());
  if (call == "register")
    return by.register_target(static_cast<rolgunai::kind>(std::stoul(at.field(1))), at.field(2));
  if (call == "unregister") return by.unregister_target(at.field(1));
  if (call == "launch")
    return by.launch(at.field(1), at.field(2), at.field(3), at.field(4), buffers(at, at.field(5)).list());
  if (call == "push") return by.push(at.field(1), at.field(2), at.field(3), buffers(at, at.field(4)).list());
  if (call == "send") return by.send(at.field(1), at.field(2), buffers(at, at.field(3)).list());
  if (call == "close") return by.close(at.field(1));
  if (call == "state") return by.state(at.field(1), at.since);
  if (call == "target") return by.target(at.field(1), at.since);
  if (call == "infos") return by.infos(at.since);
  if (call == "infos_of") return by.infos_of(at.field(1), at.since);
  stop("no such call");
}

void play_line(storm &all, rolgunai::client &by, line &at) {
  if (at.hear >= 0) at.since = all.told[static_cast<std::size_t>(at.hear)].load();
  try {
    if (at.field(0) == "join") {
      by = by.another();
    } else {
      rolgunai::shared_outcome came = called(by, at);
      at.reply = static_cast<std::uint32_t>(came.reply);
      at.reason = static_cast<std::uint32_t>(came.why.reason);
      at.index = came.why.index;
      at.shown = came.is_shown;
      at.sent = came.sent.size();
      at.crc = sum_of(came);
      at.seen = came.seen;
      came.send([&all, number = at.number](rolgunai::sent &) { all.order.push_back(number); });
    }
  } catch (const rolgunai::error &found) {
    at.status = static_cast<std::uint32_t>(found.code());
  }
  at.seen = by.seen();
  all.told[static_cast<std::size_t>(at.client)].store(at.seen);
}

void play(storm &all, std::size_t number) {
  rolgunai::client by = std::move(all.clients[number]);
  for (line &at : all.lines)
    if (at.client == static_cast<int>(number)) play_line(all, by, at);
  by.end();
}

// ---- The script and what came of it.

std::vector<std::string> cut(const std::string &text) {
  std::vector<std::string> fields;
  std::size_t from = 0;
  for (std::size_t end; (end = text.find('\t', from)) != std::string::npos; from = end + 1)
    fields.push_back(text.substr(from, end - from));
  fields.push_back(text.substr(from));
  return fields;
}

void begin(storm &all, std::ifstream &script) {
  std::string text;
  std::getline(script, text);
  const std::vector<std::string> head = cut(text);
  if (head.size() != 3) stop("the first line is wrong");
  while (std::getline(script, text)) {
    std::vector<std::string> fields = cut(text);
    if (fields.size() < 3) stop("a line is too short");
    line &made = all.lines.emplace_back();
    made.number = all.lines.size();
    made.client = std::stoi(fields[0]);
    made.hear = fields[1] == "-" ? -1 : std::stoi(fields[1]);
    made.fields.assign(std::next(fields.begin(), 2), fields.end());
  }
  all.clients.emplace_back(std::stoul(head[1]), head[2] == "1" ? rolgunai::numbers::any : rolgunai::numbers::whole);
  const std::size_t count = std::stoul(head[0]);
  while (all.clients.size() < count) all.clients.push_back(all.clients.front().another());
  all.told = std::vector<std::atomic<std::uint64_t>>(count);
}

void tell(const storm &all) {
  for (const line &at : all.lines)
    std::printf("line %zu status %u reply %u reason %u index %llu since %llu seen %llu shown %u sent %zu crc %08x\n",
                at.number, at.status, at.reply, at.reason, static_cast<unsigned long long>(at.index),
                static_cast<unsigned long long>(at.since), static_cast<unsigned long long>(at.seen), at.shown,
                at.sent, at.crc);
  for (const std::size_t number : all.order) std::printf("sent %zu\n", number);
  for (std::size_t i = 0; i < all.clients.size(); i++) std::printf("freed 0\n");
}

} // namespace

int main(int count, char **words) {
  if (count != 2) stop("storm SCRIPT");
  std::ifstream script(words[1]);
  if (!script) stop("the script can't be read");
  storm all;
  begin(all, script);
  std::vector<std::thread> threads;
  for (std::size_t number = 0; number < all.clients.size(); number++)
    threads.emplace_back([&all, number] { play(all, number); });
  for (std::thread &thread : threads) thread.join();
  tell(all);
  return 0;
}

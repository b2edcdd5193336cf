// Each call of rolgunai_client.hpp, as rows: by which client, what it comes to, and after how many changes, also where
// any one allocation fails. And what the header adds: one mutex, so that nothing is busy; messages in the order of the
// changes; moves. Linked with bindings/c/heap_fail.c. The last line is 'N passed, M failed', and so is the status.
#include "rolgunai_client.hpp"

#include <array>
#include <cstdio>
#include <type_traits>

using rolgunai::client;
using rolgunai::kind;
using rolgunai::shared_outcome;
using rolgunai::status;

static int passed, failed;

static void check(bool holds, std::string_view what) {
  (holds ? passed : failed)++;
  if (!holds) std::printf("FAILED: %.*s\n", static_cast<int>(what.size()), what.data());
}

static void check_same(std::string_view found, std::string_view wanted, std::string_view what) {
  check(found == wanted, what);
  if (found != wanted)
    std::printf("  it is    %.*s\n  and not  %.*s\n", static_cast<int>(found.size()), found.data(),
                static_cast<int>(wanted.size()), wanted.data());
}

template <class Call> static std::optional<status> status_of(Call call) {
  try {
    call();
  } catch (const rolgunai::error &error) {
    return error.code();
  }
  return std::nullopt;
}

/// 'SEEN reply (reason) id@target carries CONTENT sends TYPE ID, ..'.
static std::string shown(const shared_outcome &came) {
  std::string text = std::to_string(came.seen) + " " + std::string(name_of(came.reply));
  if (came.why.reason != rolgunai::reason::none) text += " (" + came.why.words() + ")";
  if (came.comm || came.target) text += " " + came.comm.value_or("") + "@" + came.target.value_or("");
  if (came.payload) text += " carries " + came.payload->content;
  for (const rolgunai::sent &sent : came.sent) text += " sends " + sent.type + " " + sent.id;
  return text;
}

#define ONE "00000000-0000-0000-0000-000000000001"

struct clients {
  client a, b;
};

struct row {
  const char *what;
  client clients::*by;
  shared_outcome (*call)(client &);
  const char *wanted;
};

static const row rows[] = {
    {"no call yet", &clients::a, [](client &of) { return of.last(); }, "0 none"},
    {"widgets", &clients::a, [](client &of) { return of.register_target(kind::widget, "w"); }, "1 registered @w"},
    {"plain", &clients::b, [](client &of) { return of.register_target(kind::plain, "p"); }, "2 registered @p"},
    {"a's own result", &clients::a, [](client &of) { return of.last(); }, "1 registered @w"},
    {"a launch", &clients::a, [](client &of) { return of.launch("w", ONE, R"({"v":1})"); },
     "3 launched " ONE "@w sends comm_open " ONE},
    {"a push", &clients::b,
     [](client &of) { return of.push(ONE, R"({"v":2})", R"([["b"]])", {std::string_view("x")}); },
     "4 delivered " ONE "@w sends comm_msg " ONE},
    {"an open", &clients::a,
     [](client &of) {
       return of.message(R"({"msg_type":"comm_open"})", "{}", R"({"comm_id":"m","target_name":"p"})");
     },
     "5 opened m@p"},
    {"a message", &clients::b,
     [](client &of) { return of.message(R"({"msg_type":"comm_msg"})", "{}", R"({"comm_id":"m","data":{"x":1}})"); },
     R"(6 for_kernel m@p carries {"x":1})"},
    {"a send", &clients::a, [](client &of) { return of.send("m", "{}"); }, "7 delivered m@p sends comm_msg m"},
    {"a bad launch", &clients::b, [](client &of) { return of.launch("w", "one", "{}"); }, "7 bad (bad_uuid)"},
    {"a state", &clients::b, [](client &of) { return of.state(ONE, 7); },
     R"(7 state carries {"buffer_paths":[["b"]],"state":{"v":2}})"},
    {"a target", &clients::a, [](client &of) { return of.target("m", 7); }, "7 target @p"},
    {"no comm", &clients::a, [](client &of) { return of.target("n"); }, "7 no_comm"},
    {"all comms", &clients::a, [](client &of) { return of.infos(7); }, "7 comm_info sends comm_info_reply "},
    {"those of one target", &clients::b, [](client &of) { return of.infos_of("p"); },
     "7 comm_info sends comm_info_reply "},
    {"a close", &clients::b, [](client &of) { return of.close("m"); }, "8 closed m@p sends comm_close m"},
    {"an unregister", &clients::a, [](client &of) { return of.unregister_target("w"); },
     "9 unregistered @w carries [\"" ONE "\"] sends comm_close " ONE},
};

static clients two() {
  client first(9);
  client second = first.another();
  return {std::move(first), std::move(second)};
}

static void calls() {
  clients c = two();
  for (const row &row : rows) check_same(shown(row.call(c.*row.by)), row.wanted, row.what);
  check(c.b.is_open(ONE) == false && c.b.seen() == 9, "a comm whose target ended");
}

extern "C" long heap_fail_at, heap_count, heap_live;
static long refusals;

// What a row comes to: it is called again where it wasn't made, and its outcome asked for again where it was.
static std::string come_to(clients &c, const row &row) {
  client &of = c.*row.by;
  for (bool is_made = false;;) {
    try {
      return shown(is_made ? of.last() : row.call(of));
    } catch (const rolgunai::error &error) {
      refusals++;
      is_made |= error.code() == status::no_text;
      if (error.code() != status::memory && error.code() != status::no_text) throw;
    }
  }
}

// The rows, with the allocation of this number failing: the first that comes to something else, or none.
static std::string differs(long at) {
  heap_fail_at = at;
  heap_count = 0;
  std::optional<clients> c;
  while (!c) {
    const std::optional<status> found = status_of([&] { c.emplace(two()); });
    refusals += found == status::memory;
    if (found && found != status::memory) return "two clients";
  }
  for (const row &row : rows)
    if (come_to(*c, row) != row.wanted) return row.what;
  c.reset();
  return heap_live == 0 ? "" : "blocks are left";
}

static void memory() {
  check_same(differs(-1), "", "no allocation fails");
  const long all = heap_count;
  for (long at = 1; at <= all; at++) check_same(differs(at), "", "allocation " + std::to_string(at) + " fails");
  heap_fail_at = -1;
  check(refusals > 0, "some calls answer so");
}

static void errors() {
  clients c = two();
  check(status_of([] { client none(0); }) == status::bad_limit, "no comm");
  check(status_of([] { client many(1'048'577); }) == status::bad_limit, "too many comms");
  check(status_of([&] { c.a.register_target(static_cast<kind>(6), "x"); }) == status::bad_kind, "no kind");
  check(status_of([&] { c.a.close("\xff"); }) == status::bad_name, "an id that isn't UTF-8");
  check(status_of([&] { c.a.push("a", "{"); }) == status::not_json, "no JSON");
  check(status_of([&] { c.a.state("a", 1); }) == status::again, "a change that isn't there");
  check(status_of([&] { c.b.infos(7); }) == status::again, "seven of them");
  check(c.a.seen() == 0, "nothing was changed");
  std::vector<client> all;
  for (int i = 2; i < 256; i++) all.push_back(c.a.another());
  check(status_of([&] { c.a.another(); }) == status::no_seat, "256 clients");
  all.pop_back();
  check(!status_of([&] { all.push_back(c.a.another()); }), "one that ended gives its seat up");
  static_assert(!std::is_copy_constructible_v<client>, "a client isn't copied");
}

static void moves() {
  client first(4);
  first.register_target(kind::plain, "p");
  client other(9);
  other = std::move(first);
  check(status_of([&] { first.close("a"); }) == status::closed, "one that was moved from");
  check(status_of([&] { first.another(); }) == status::closed, "no other client of it");
  std::thread([&] { check_same(shown(other.last()), "1 registered @p", "another thread"); }).join();
  client third = other.another();
  other.end();
  check_same(shown(third.close("a")), "2 no_comm a@", "one is left");
  check(status_of([&] { other.close("a"); }) == status::closed, "after the end");
  check(status_of([&] { other.end(); }) == status::closed, "a second end");
}

/// Messages go out in the order of the changes, whichever outcome is sent first.
static void order() {
  clients c = two();
  std::string said;
  const auto note = [&said](rolgunai::sent &message) { said += message.type.substr(5) + " "; };
  c.a.register_target(kind::plain, "p");
  c.b.message(R"({"msg_type":"comm_open"})", "{}", R"({"comm_id":"m","target_name":"p"})");
  {
    shared_outcome first = c.a.send("m", "{}"), unsent = c.a.send("m", "{}"), second = c.b.close("m");
    shared_outcome info = c.b.infos();
    info.send(note);
    second.send(note);
    check_same(said, "", "what comes after waits");
    first.send(note);
    first.send(note);
    check_same(said, "msg ", "until that before is sent, once");
  }
  check_same(said, "msg close info_reply ", "or won't be");
  client third = c.a.another();
  third.message(R"({"msg_type":"comm_open"})", "{}", R"({"comm_id":"m","target_name":"p"})");
  c.a.send("m", "{}").send([&](rolgunai::sent &message) {
    note(message);
    third.close("m").send(note);
    said += "| ";
  });
  check_same(said, "msg close info_reply msg | close ", "what is sent may make calls and send");
}

/// Threads that make calls at once: none is busy, and each number goes out in its turn.
static void threads() {
  constexpr int many = 2000;
  client first(9);
  std::vector<std::uint64_t> gone;
  first.register_target(kind::plain, "p");
  first.message(R"({"msg_type":"comm_open"})", "{}", R"({"comm_id":"m","target_name":"p"})");
  const auto play = [&gone](client mine) {
    for (int i = 0; i < many; i++) {
      shared_outcome came = mine.send("m", "{}");
      came.send([&gone, seen = came.seen](rolgunai::sent &) { gone.push_back(seen); });
      if (mine.target("m", came.seen).seen < came.seen) gone.push_back(0);
    }
  };
  std::array<std::thread, 4> all;
  for (std::thread &thread : all) thread = std::thread(play, first.another());
  for (std::thread &thread : all) thread.join();
  bool are_in_order = gone.size() == 4 * many;
  for (std::size_t i = 0; i < gone.size(); i++) are_in_order &= gone[i] == i + 3;
  check(are_in_order, "threads that make calls at once");
}

int main() {
  calls();
  memory();
  errors();
  moves();
  order();
  threads();
  std::printf("%d passed, %d failed\n", passed, failed);
  return failed != 0;
}

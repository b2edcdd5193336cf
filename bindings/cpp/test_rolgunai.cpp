// Each call of the header, as rows of tables: what it comes to, with all that it sends and carries, also where any one
// allocation fails. And what the header adds to the calls: errors as exceptions, long parts, texts cut into lines,
// moves. Linked with bindings/c/heap_fail.c. The last line is 'N passed, M failed', and so is the status.
#include "rolgunai.hpp"

#include <array>
#include <cstdio>
#include <optional>
#include <thread>
#include <type_traits>

using rolgunai::kind;
using rolgunai::manager;
using rolgunai::numbers;
using rolgunai::outcome;
using rolgunai::status;

static int passed, failed;

static void check(bool holds, std::string_view what) {
  if (holds) {
    passed++;
  } else {
    failed++;
    std::printf("FAILED: %.*s\n", static_cast<int>(what.size()), what.data());
  }
}

static void check_same(std::string_view found, std::string_view wanted, std::string_view what) {
  check(found == wanted, what);
  if (found != wanted)
    std::printf("  it is    %.*s\n  and not  %.*s\n", static_cast<int>(found.size()), found.data(),
                static_cast<int>(wanted.size()), wanted.data());
}

template <class Call> static std::optional<status> status_of(Call call) {
  try {
    call();
  } catch (const rolgunai::error &error) {
    return error.code();
  }
  return std::nullopt;
}

static void append(std::string &to, const std::vector<rolgunai::buffer> &buffers) {
  for (const rolgunai::buffer &buffer : buffers) to.append(" [").append(buffer.begin(), buffer.end()).append("]");
}

/// All of an outcome: 'reply (reason) id@target carries CONTENT [buffer].. sends TYPE ID CONTENT METADATA [buffer]..'.
static std::string shown(const outcome &came) {
  std::string text(name_of(came.reply));
  if (came.why.reason != rolgunai::reason::none) text += " (" + came.why.words() + ")";
  if (came.comm || came.target) text += " " + came.comm.value_or("") + "@" + came.target.value_or("");
  if (came.payload) {
    text += " carries " + came.payload->content;
    append(text, came.payload->buffers);
  }
  for (const rolgunai::sent &sent : came.sent) {
    text += " sends " + sent.type + " " + sent.id + " " + sent.content + " " + sent.metadata;
    append(text, sent.buffers);
  }
  return text;
}

#define ONE "00000000-0000-0000-0000-000000000001"
#define TWO "00000000-0000-0000-0000-000000000002"

static const std::string_view x = "x", yz = "yz", abc = "abc";

// Messages of a frontend.
static outcome opens(manager &m, std::string_view content, std::string_view metadata = "{}", unsigned client = 0) {
  return m.message(R"({"msg_type":"comm_open"})", metadata, content, {}, client);
}
static outcome tells(manager &m, std::string_view content, rolgunai::buffer_list buffers = {}) {
  return m.message(R"({"msg_type":"comm_msg"})", "{}", content, buffers, 1);
}

struct row {
  const char *what;
  outcome (*call)(manager &);
  const char *wanted;
};

// One manager of four comms that takes whole numbers plays them in this order.
static const row rows[] = {
    {"no call yet", [](manager &m) { return m.last(); }, "none"},
    {"widgets", [](manager &m) { return m.register_target(kind::widget, "w"); }, "registered @w"},
    {"plain", [](manager &m) { return m.register_target(kind::plain, "mine é", 3); }, "registered @mine é"},
    {"widgets that echo", [](manager &m) { return m.register_target(kind::widget_echo, "echo"); }, "registered @echo"},
    {"opaque", [](manager &m) { return m.register_target(kind::opaque, ""); }, "registered @"},
    {"a fifth client", [](manager &m) { return m.register_target(kind::plain, "p", 4); }, "bad (bad_client)"},
    {"an unregister of no target", [](manager &m) { return m.unregister_target("p"); }, "no_target @p"},

    {"a launch",
     [](manager &m) { return m.launch("w", ONE, R"({"v":1})", R"([["b"],["a"]])", {x, yz}); },
     "launched " ONE "@w sends comm_open " ONE " {\"comm_id\":\"" ONE "\",\"data\":{\"buffer_paths\":[[\"a\"],[\"b\"]],"
     R"("state":{"v":1}},"target_name":"w"} {"version":"2.1.0"} [yz] [x])"},
    {"its id again", [](manager &m) { return m.launch("w", ONE, "{}"); }, "id_in_use " ONE "@w"},
    {"no UUID", [](manager &m) { return m.launch("w", "one", "{}"); }, "bad (bad_uuid)"},
    {"a launch towards a plain target", [](manager &m) { return m.launch("mine é", TWO, "{}"); },
     "not_widget " TWO "@mine é"},
    {"a state that is a list", [](manager &m) { return m.launch("w", TWO, "[]"); }, "bad (bad_field state)"},
    {"a fraction in a state", [](manager &m) { return m.launch("w", TWO, R"({"v":0.5})"); }, "bad (not_whole)"},
    {"a push", [](manager &m) { return m.push(ONE, R"({"v":[2]})", R"([["b"]])", {abc}); },
     "delivered " ONE "@w sends comm_msg " ONE " {\"comm_id\":\"" ONE "\",\"data\":{\"buffer_paths\":[[\"b\"]],"
     R"("method":"update","state":{"v":[2]}}} {} [abc])"},
    {"a path into a number", [](manager &m) { return m.push(ONE, R"({"v":1})", R"([["a"],["v","x"]])", {x, yz}); },
     "bad (bad_path 1)"},
    {"a path without a buffer", [](manager &m) { return m.push(ONE, "{}", R"([["a"],["b"]])", {x}); },
     "bad (buffer_missing 1)"},
    {"what was pushed is kept", [](manager &m) { return m.state(ONE); },
     R"(state carries {"buffer_paths":[["a"],["b"]],"state":{"v":[2]}} [yz] [abc])"},
    {"the state of no comm", [](manager &m) { return m.state("nobody"); }, "no_comm"},

    {"an open of a plain comm", [](manager &m) { return opens(m, R"({"comm_id":"m","target_name":"mine é"})"); },
     "opened m@mine é"},
    {"the state of a plain comm", [](manager &m) { return m.state("m"); }, "no_state"},
    {"a message for the kernel",
     [](manager &m) { return tells(m, R"({"comm_id":"m","data":{"y":[2]}})", {x, {}, yz}); },
     R"(for_kernel m@mine é carries {"y":[2]} [x] [] [yz])"},
    {"the same again", [](manager &m) { return m.last(); }, R"(for_kernel m@mine é carries {"y":[2]} [x] [] [yz])"},
    {"a send", [](manager &m) { return m.send("m", R"({"y":"\n "})", {abc}, 2); },
     R"(delivered m@mine é sends comm_msg m {"comm_id":"m","data":{"y":"\n "}} {} [abc])"},
    {"a send of a text", [](manager &m) { return m.send("m", R"("y")"); }, "bad (bad_field data)"},
    {"a push to a plain comm", [](manager &m) { return m.push("m", "{}"); }, "not_widget m@mine é"},

    {"an open of a widget that echoes",
     [](manager &m) {
       return opens(m, R"({"comm_id":"e","target_name":"echo","data":{"state":{"v":1}}})", R"({"version":"2.0.0"})");
     },
     "opened e@echo"},
    {"its update is echoed",
     [](manager &m) {
       return tells(m, R"({"comm_id":"e","data":{"method":"update","state":{"v":2},"buffer_paths":[["b"]]}})", {yz});
     },
     R"(delivered e@echo sends comm_msg e {"comm_id":"e","data":{"buffer_paths":[["b"]],"method":"echo_update",)"
     R"("state":{"v":2}}} {} [yz])"},
    {"no method", [](manager &m) { return tells(m, R"({"comm_id":"e","data":{}})"); }, "fault (no_method) e@echo"},

    {"an open of an opaque comm, whose data is a text",
     [](manager &m) { return opens(m, R"({"comm_id":"o","target_name":"","data":"a text"})", "7"); }, "opened o@"},
    {"a message whose data is a fraction", [](manager &m) { return tells(m, R"({"comm_id":"o","data":0.5})", {abc}); },
     "for_kernel o@ carries {}"},
    {"an answer to it", [](manager &m) { return m.send("o", "{}"); },
     R"(delivered o@ sends comm_msg o {"comm_id":"o","data":{}} {})"},

    {"one comm more than may be open", [](manager &m) { return opens(m, R"({"comm_id":"z","target_name":"mine é"})"); },
     R"(refused (too_many_comms) z@mine é sends comm_close z {"comm_id":"z","data":{}} {})"},
    {"a close", [](manager &m) { return m.close("o"); },
     R"(closed o@ sends comm_close o {"comm_id":"o","data":{}} {})"},
    {"a close of no comm", [](manager &m) { return m.close("o"); }, "no_comm o@"},
    {"a widget of another version",
     [](manager &m) {
       return opens(m, R"({"comm_id":"z","target_name":"w","data":{"state":{}}})", R"({"version":"1.0"})");
     },
     R"(refused (wrong_version) z@w sends comm_close z {"comm_id":"z","data":{}} {})"},
    {"a bad open is closed", [](manager &m) { return opens(m, R"({"comm_id":"q\"","target_name":"w","data":3})"); },
     R"(bad (bad_content data) sends comm_close q" {"comm_id":"q\"","data":{}} {})"},
    {"and so is one by a fifth client", [](manager &m) { return opens(m, R"({"comm_id":"q"})", "{}", 4); },
     R"(bad (bad_client) sends comm_close q {"comm_id":"q","data":{}} {})"},
    {"one of a comm that is open isn't", [](manager &m) { return opens(m, R"({"comm_id":"m","target_name":3})"); },
     "bad (bad_content target_name)"},

    {"which are open", [](manager &m) { return m.message(R"({"msg_type":"comm_info_request"})", "{}", "{}"); },
     "comm_info sends comm_info_reply  {\"comms\":{\"" ONE "\":{\"target_name\":\"w\"},"
     R"("e":{"target_name":"echo"},"m":{"target_name":"mine é"}},"status":"ok"} {})"},
    {"a register of a taken name", [](manager &m) { return m.register_target(kind::opaque, "mine é"); },
     R"(replaced @mine é carries ["m"] sends comm_close m {"comm_id":"m","data":{}} {})"},
    {"an unregister", [](manager &m) { return m.unregister_target("echo", 3); },
     R"(unregistered @echo carries ["e"] sends comm_close e {"comm_id":"e","data":{}} {})"},
    {"an unregister by a fifth client", [](manager &m) { return m.unregister_target("w", 4); }, "bad (bad_client)"},
};

static void calls() {
  manager m(4);
  for (const row &row : rows) check_same(shown(row.call(m)), row.wanted, row.what);
}

extern "C" long heap_fail_at, heap_count, heap_live;
static long refusals;

// A call, made again where it wasn't made, and its outcome asked for again where it was.
static outcome made(manager &m, outcome (*call)(manager &)) {
  for (;;) {
    try {
      return call(m);
    } catch (const rolgunai::error &error) {
      refusals++;
      if (error.code() == status::no_text) return m.last();
      if (error.code() != status::memory) throw;
    }
  }
}

// The rows, with the allocation of this number failing: the first that comes to something else, or none.
static std::string differs(long at) {
  heap_fail_at = at;
  heap_count = 0;
  std::optional<manager> m;
  while (!m) {
    const std::optional<status> found = status_of([&] { m.emplace(4); });
    refusals += found == status::memory;
    if (found && found != status::memory) return "a new manager";
  }
  for (const row &row : rows)
    if (shown(made(*m, row.call)) != row.wanted) return row.what;
  m.reset();
  return heap_live == 0 ? "" : "blocks are left";
}

static void memory() {
  check_same(differs(-1), "", "no allocation fails");
  const long all = heap_count;
  for (long at = 1; at <= all; at++) check_same(differs(at), "", "allocation " + std::to_string(at) + " fails");
  heap_fail_at = -1;
  check(refusals > 0, "some calls answer so");
}

// Calls that aren't made, and their status; the last outcome stays.
static const struct {
  const char *what;
  void (*call)(manager &);
  status wanted;
} refused[] = {
    {"a kind that isn't", [](manager &m) { m.register_target(static_cast<kind>(6), "x"); }, status::bad_kind},
    {"an echo is for scripts", [](manager &m) { m.register_target(static_cast<kind>(0), "x"); }, status::bad_kind},
    {"a name that isn't UTF-8", [](manager &m) { m.register_target(kind::widget, "\xff"); }, status::bad_name},
    {"a UUID that isn't UTF-8", [](manager &m) { m.launch("w", "\xff", "{"); }, status::bad_name},
    {"an id that isn't UTF-8", [](manager &m) { m.close("\xff"); }, status::bad_name},
    {"no JSON in a message", [](manager &m) { m.message("{", "{}", "{}"); }, status::not_json},
    {"no JSON in a launch", [](manager &m) { m.launch("w", ONE, "{}", ""); }, status::not_json},
    {"no JSON in a push", [](manager &m) { m.push("a", {}); }, status::not_json},
    {"no JSON in a send", [](manager &m) { m.send("a", "}"); }, status::not_json},
};

static void errors() {
  manager m;
  m.register_target(kind::plain, "mine");
  for (const auto &row : refused) {
    check(status_of([&] { row.call(m); }) == row.wanted, row.what);
    check_same(shown(m.last()), "registered @mine", row.what);
  }
  check(status_of([] { manager none(0); }) == status::bad_limit, "no comm");
  check(status_of([] { manager many(1'048'577); }) == status::bad_limit, "too many comms");
  static_assert(!std::is_copy_constructible_v<manager>, "a handle isn't copied");
}

static void decimals() {
  manager m(4096, numbers::any);
  m.register_target(kind::widget, "w");
  m.launch("w", ONE, R"({"v":1.50})");
  check_same(shown(m.state(ONE)), R"(state carries {"buffer_paths":[],"state":{"v":1.50}})", "decimals");
  check(status_of([&] { m.push(ONE, R"({"v":1e400})"); }) == status::not_json, "a number beyond a double's range");
}

static void buffers() {
  manager m;
  check_same(m.line(R"({"call":"register","kind":"echo","name":"e"})"), "reply 1 registered\n", "an echo");
  opens(m, R"({"comm_id":"a","target_name":"e"})");
  const std::array<std::uint8_t, 2> two{0, 255};
  const std::string long_one(6000, 'p');
  const std::vector<std::byte> four(4, std::byte{255});
  const outcome came = tells(m, R"({"comm_id":"a"})", {two, {}, long_one, four});
  const std::vector<rolgunai::buffer> wanted{{0, 255}, {}, rolgunai::buffer(6000, 'p'), {255, 255, 255, 255}};
  check(came.sent.size() == 1 && came.sent[0].buffers == wanted, "buffers of many types");
  const std::vector<rolgunai::bytes> again(wanted.begin(), wanted.end());
  const outcome echoed = tells(m, R"({"comm_id":"a"})", again);
  check(echoed.sent.size() == 1 && echoed.sent[0].buffers == wanted, "and those that came out");
}

static void many_targets() {
  static const kind kinds[] = {kind::widget, kind::plain, kind::widget_echo, kind::opaque};
  manager m(1);
  int registered = 0;
  for (int number = 0; number < 400; number++) {
    const outcome came = m.register_target(kinds[number % 4], std::to_string(number));
    registered += came.reply == rolgunai::reply::registered;
  }
  check(registered == 400, "a hundred targets of each kind");
}

// Lines, their texts, and the reason in the same words.
static const struct {
  const char *line, *text, *shown;
} lines[] = {
    {R"({"call":"register","kind":"counter","name":"c"})", "reply 1 registered\n", "registered @c"},
    {R"({"call":"hang_up","id":"nobody"})", "reply 2 no_comm\n", "no_comm nobody@"},
    {R"({"call":"state","id":"nobody"})", "state 2 no_comm\n", "no_comm"},
    {"{", "bad 4 not_json\n", "bad (not_json)"},
    {R"({"call":"send","id":"a","buffers":["!"]})", "bad 5 bad_buffer 0\n", "bad (bad_buffer 0)"},
    {R"({"call":"register","kind":"c","name":"c"})", "bad 6 bad_field kind\n", "bad (bad_field kind)"},
    {R"({"call":"none"})", "bad 7 unknown_call\n", "bad (unknown_call)"},
    {"{}", "bad 8 no_type\n", "bad (no_type)"},
    {R"({"header":{"msg_type":"none"}})", "bad 9 unknown_type\n", "bad (unknown_type)"},
    {"", "", "none"},
};

static void texts() {
  manager m;
  for (const auto &row : lines) {
    check_same(m.line(row.line), row.text, row.line);
    check_same(shown(m.last()), row.shown, row.line);
    check_same(m.text(), row.text, row.line);
  }
  const std::vector<rolgunai::answer> found = rolgunai::answers("reply 12 delivered\nout {\"a\":1}\n");
  check(found.size() == 2 && found[0].word == "reply" && found[0].number == 12 && found[0].words == "delivered",
        "a reply");
  check(found.size() == 2 && found[1].word == "out" && found[1].words == "{\"a\":1}", "what goes out");
  check(rolgunai::answers("").empty(), "an empty text has no line");
}

static void long_texts() {
  manager m;
  m.register_target(kind::plain, "p");
  opens(m, R"({"comm_id":"a","target_name":"p"})");
  const std::string data = "{\"k\":\"" + std::string(100000, 'x') + "\"}";
  check(tells(m, R"({"comm_id":"a","data":)" + data + "}").payload->content == data, "a long part");
  check_same(m.text(), "reply 3 custom {\"buffers\":[],\"content\":" + data + "}\n", "a long text");
}

static void moves() {
  manager m, other;
  m.register_target(kind::plain, "p");
  other = std::move(m);
  check(status_of([&] { m.line("{}"); }) == status::closed, "one that was moved from");
  std::thread([&] { check_same(shown(other.last()), "registered @p", "another thread"); }).join();
  other.end();
  check(status_of([&] { other.text(); }) == status::closed, "after the end");
  check(status_of([&] { other.state("a"); }) == status::closed, "no state after it");
  check(status_of([&] { other.end(); }) == status::closed, "a second end");
}

int main() {
  calls();
  memory();
  errors();
  decimals();
  buffers();
  many_targets();
  texts();
  long_texts();
  moves();
  std::printf("%d passed, %d failed\n", passed, failed);
  return failed != 0;
}

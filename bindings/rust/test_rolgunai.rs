//! Each call of the wrapper, as rows of tables: what it comes to, with all that it sends and carries, also where any
//! one allocation of the library fails. And what the wrapper adds to the calls: errors, long parts, texts cut into
//! lines, another thread, the drop. Linked with `bindings/c/heap_fail.c`. The last line is 'N passed, M failed', and so
//! is the status.

mod rolgunai;

use rolgunai::{answers, Answer, Error, Field, Kind, Manager, Outcome, Payload, Reason, Reply, Sent};
use std::ffi::c_long;
use std::process::ExitCode;

type Came = Result<Outcome, Error>;

#[derive(Default)]
struct Checks {
    passed: u32,
    failed: u32,
}

impl Checks {
    fn check(&mut self, what: &str, holds: bool) {
        if holds {
            self.passed += 1;
        } else {
            self.failed += 1;
            println!("FAILED: {what}");
        }
    }

    fn check_same(&mut self, what: &str, found: &str, wanted: &str) {
        self.check(what, found == wanted);
        if found != wanted {
            println!("  it is    {found}\n  and not  {wanted}");
        }
    }
}

fn shown_buffers(buffers: &[Vec<u8>]) -> String {
    buffers.iter().map(|buffer| format!(" [{}]", String::from_utf8_lossy(buffer))).collect()
}

fn shown_payload(payload: &Payload) -> String {
    format!(" carries {}{}", payload.content, shown_buffers(&payload.buffers))
}

fn shown_sent(sent: &Sent) -> String {
    let Sent { message_type, id, content, metadata, buffers } = sent;
    format!(" sends {message_type} {id} {content} {metadata}{}", shown_buffers(buffers))
}

/// All of an outcome: 'reply (reason) id@target carries CONTENT [buffer].. sends TYPE ID CONTENT METADATA [buffer]..'.
fn shown(came: &Came) -> String {
    let came = match came {
        Ok(came) => came,
        Err(error) => return format!("error: {error}"),
    };
    let reason = came.reason.map_or(String::new(), |reason| format!(" ({reason})"));
    let (comm, target) = (came.comm.as_deref(), came.target.as_deref());
    let subject = match comm.or(target) {
        Some(_) => format!(" {}@{}", comm.unwrap_or_default(), target.unwrap_or_default()),
        None => String::new(),
    };
    let payload = came.payload.as_ref().map_or(String::new(), shown_payload);
    format!("{}{reason}{subject}{payload}{}", came.reply, came.sent.iter().map(shown_sent).collect::<String>())
}

fn open(manager: &mut Manager, client: u32, content: &str, metadata: &str) -> Came {
    manager.message(client, br#"{"msg_type":"comm_open"}"#, metadata.as_bytes(), content.as_bytes(), &[])
}

fn tell(manager: &mut Manager, content: &str, buffers: &[&[u8]]) -> Came {
    manager.message(1, br#"{"msg_type":"comm_msg"}"#, b"{}", content.as_bytes(), buffers)
}

const ONE: &str = "00000000-0000-0000-0000-000000000001";
const TWO: &str = "00000000-0000-0000-0000-000000000002";

/// A call, by its name, and all that comes of it; ONE in it is the first UUID, and TWO the second.
type Row = (&'static str, fn(&mut Manager) -> Came, &'static str);

/// One manager of four comms that takes whole numbers plays them in this order.
const TARGETS_AND_WIDGETS: &[Row] = &[
    ("no call yet", |m| m.last(), "none"),
    ("widgets", |m| m.register(0, Kind::Widget, "w"), "registered @w"),
    ("plain", |m| m.register(3, Kind::Plain, "mine é"), "registered @mine é"),
    ("widgets that echo", |m| m.register(0, Kind::WidgetEcho, "echo"), "registered @echo"),
    ("opaque", |m| m.register(0, Kind::Opaque, ""), "registered @"),
    ("a fifth client", |m| m.register(4, Kind::Plain, "p"), "bad (bad_client)"),
    ("an unregister of no target", |m| m.unregister(0, "p"), "no_target @p"),
    (
        "a launch",
        |m| m.launch(0, "w", ONE, br#"{"v":1}"#, br#"[["b"],["a"]]"#, &[b"x", b"yz"]),
        concat!(
            r#"launched ONE@w sends comm_open ONE {"comm_id":"ONE","data":{"buffer_paths":[["a"],["b"]],"state":"#,
            r#"{"v":1}},"target_name":"w"} {"version":"2.1.0"} [yz] [x]"#
        ),
    ),
    ("its id again", |m| m.launch(0, "w", ONE, b"{}", b"[]", &[]), "id_in_use ONE@w"),
    ("no UUID", |m| m.launch(0, "w", "one", b"{}", b"[]", &[]), "bad (bad_uuid)"),
    ("a launch towards a plain target", |m| m.launch(0, "mine é", TWO, b"{}", b"[]", &[]), "not_widget TWO@mine é"),
    ("a state that is a list", |m| m.launch(0, "w", TWO, b"[]", b"[]", &[]), "bad (bad_field state)"),
    ("a fraction in a state", |m| m.launch(0, "w", TWO, br#"{"v":0.5}"#, b"[]", &[]), "bad (not_whole)"),
    (
        "a push",
        |m| m.push(0, ONE, br#"{"v":[2]}"#, br#"[["b"]]"#, &[b"abc"]),
        concat!(
            r#"delivered ONE@w sends comm_msg ONE {"comm_id":"ONE","data":{"buffer_paths":[["b"]],"#,
            r#""method":"update","state":{"v":[2]}}} {} [abc]"#
        ),
    ),
    (
        "a path into a number",
        |m| m.push(0, ONE, br#"{"v":1}"#, br#"[["a"],["v","x"]]"#, &[b"x", b"yz"]),
        "bad (bad_path 1)",
    ),
    ("a path without a buffer", |m| m.push(0, ONE, b"{}", br#"[["a"],["b"]]"#, &[b"x"]), "bad (buffer_missing 1)"),
    (
        "what was pushed is kept",
        |m| m.state(ONE),
        r#"state carries {"buffer_paths":[["a"],["b"]],"state":{"v":[2]}} [yz] [abc]"#,
    ),
    ("the state of no comm", |m| m.state("nobody"), "no_comm"),
];

/// And then these.
const COMMS: &[Row] = &[
    ("an open of a plain comm", |m| open(m, 0, r#"{"comm_id":"m","target_name":"mine é"}"#, "{}"), "opened m@mine é"),
    ("the state of a plain comm", |m| m.state("m"), "no_state"),
    (
        "a message for the kernel",
        |m| tell(m, r#"{"comm_id":"m","data":{"y":[2]}}"#, &[b"x", b"", b"yz"]),
        r#"for_kernel m@mine é carries {"y":[2]} [x] [] [yz]"#,
    ),
    ("the same again", |m| m.last(), r#"for_kernel m@mine é carries {"y":[2]} [x] [] [yz]"#),
    (
        "a send",
        |m| m.send(2, "m", br#"{"y":"\n "}"#, &[b"abc"]),
        r#"delivered m@mine é sends comm_msg m {"comm_id":"m","data":{"y":"\n "}} {} [abc]"#,
    ),
    ("a send of a text", |m| m.send(0, "m", br#""y""#, &[]), "bad (bad_field data)"),
    ("a push to a plain comm", |m| m.push(0, "m", b"{}", b"[]", &[]), "not_widget m@mine é"),
    (
        "an open of a widget that echoes",
        |m| open(m, 0, r#"{"comm_id":"e","target_name":"echo","data":{"state":{"v":1}}}"#, r#"{"version":"2.0.0"}"#),
        "opened e@echo",
    ),
    (
        "its update is echoed",
        |m| tell(m, r#"{"comm_id":"e","data":{"method":"update","state":{"v":2},"buffer_paths":[["b"]]}}"#, &[b"yz"]),
        concat!(
            r#"delivered e@echo sends comm_msg e {"comm_id":"e","data":{"buffer_paths":[["b"]],"#,
            r#""method":"echo_update","state":{"v":2}}} {} [yz]"#
        ),
    ),
    ("no method", |m| tell(m, r#"{"comm_id":"e","data":{}}"#, &[]), "fault (no_method) e@echo"),
    (
        "an open of an opaque comm, whose data is a text",
        |m| open(m, 0, r#"{"comm_id":"o","target_name":"","data":"a text"}"#, "7"),
        "opened o@",
    ),
    (
        "a message whose data is a fraction",
        |m| tell(m, r#"{"comm_id":"o","data":0.5}"#, &[b"abc"]),
        "for_kernel o@ carries {}",
    ),
    (
        "an answer to it",
        |m| m.send(0, "o", b"{}", &[]),
        r#"delivered o@ sends comm_msg o {"comm_id":"o","data":{}} {}"#,
    ),
];

/// And these at last.
const CLOSES: &[Row] = &[
    (
        "one comm more than may be open",
        |m| open(m, 0, r#"{"comm_id":"z","target_name":"mine é"}"#, "{}"),
        r#"refused (too_many_comms) z@mine é sends comm_close z {"comm_id":"z","data":{}} {}"#,
    ),
    ("a close", |m| m.close(0, "o"), r#"closed o@ sends comm_close o {"comm_id":"o","data":{}} {}"#),
    ("a close of no comm", |m| m.close(0, "o"), "no_comm o@"),
    (
        "a widget of another version",
        |m| open(m, 0, r#"{"comm_id":"z","target_name":"w","data":{"state":{}}}"#, r#"{"version":"1.0"}"#),
        r#"refused (wrong_version) z@w sends comm_close z {"comm_id":"z","data":{}} {}"#,
    ),
    (
        "a bad open is closed",
        |m| open(m, 0, r#"{"comm_id":"q\"","target_name":"w","data":3}"#, "{}"),
        r#"bad (bad_content data) sends comm_close q" {"comm_id":"q\"","data":{}} {}"#,
    ),
    (
        "and so is one by a fifth client",
        |m| open(m, 4, r#"{"comm_id":"q"}"#, "{}"),
        r#"bad (bad_client) sends comm_close q {"comm_id":"q","data":{}} {}"#,
    ),
    (
        "one of a comm that is open isn't",
        |m| open(m, 0, r#"{"comm_id":"m","target_name":3}"#, "{}"),
        "bad (bad_content target_name)",
    ),
    (
        "which are open",
        |m| m.message(0, br#"{"msg_type":"comm_info_request"}"#, b"{}", b"{}", &[]),
        concat!(
            r#"comm_info sends comm_info_reply  {"comms":{"ONE":{"target_name":"w"},"e":{"target_name":"echo"},"#,
            r#""m":{"target_name":"mine é"}},"status":"ok"} {}"#
        ),
    ),
    (
        "a register of a taken name",
        |m| m.register(0, Kind::Opaque, "mine é"),
        r#"replaced @mine é carries ["m"] sends comm_close m {"comm_id":"m","data":{}} {}"#,
    ),
    (
        "an unregister",
        |m| m.unregister(3, "echo"),
        r#"unregistered @echo carries ["e"] sends comm_close e {"comm_id":"e","data":{}} {}"#,
    ),
    ("an unregister by a fifth client", |m| m.unregister(4, "w"), "bad (bad_client)"),
];

fn calls(checks: &mut Checks) -> Result<(), Error> {
    let mut manager = Manager::new(4)?;
    for (what, call, wanted) in [TARGETS_AND_WIDGETS, COMMS, CLOSES].concat() {
        let wanted = wanted.replace("ONE", ONE).replace("TWO", TWO);
        checks.check_same(what, &shown(&call(&mut manager)), &wanted);
    }
    Ok(())
}

unsafe extern "C" {
    static mut heap_fail_at: c_long;
    static mut heap_count: c_long;
    static heap_live: c_long;
}

/// A call, made again where it wasn't made, and its outcome asked for again where it was.
fn made(manager: &mut Manager, call: fn(&mut Manager) -> Came, refusals: &mut u32) -> Came {
    loop {
        let came = call(manager);
        *refusals += u32::from(came.is_err());
        match came {
            Err(Error::Memory) => (),
            Err(Error::NoText) => return manager.last(),
            came => return came,
        }
    }
}

/// The rows, with the allocation of this number failing: the first that comes to something else, or "", and how many
/// allocations there were.
fn differs(at: c_long, refusals: &mut u32) -> (&'static str, c_long) {
    // SAFETY: the one thread that there is by now writes and reads them.
    unsafe { (heap_fail_at, heap_count) = (at, 0) };
    let mut manager = Manager::new(4);
    if manager.as_ref().err() == Some(&Error::Memory) {
        *refusals += 1;
        manager = Manager::new(4);
    }
    let Ok(mut manager) = manager else {
        return ("a new manager", 0);
    };
    for (what, call, wanted) in [TARGETS_AND_WIDGETS, COMMS, CLOSES].concat() {
        if shown(&made(&mut manager, call, refusals)) != wanted.replace("ONE", ONE).replace("TWO", TWO) {
            return (what, 0);
        }
    }
    drop(manager);
    // SAFETY: as above.
    let (live, all) = unsafe { (heap_live, heap_count) };
    (if live == 0 { "" } else { "blocks are left" }, all)
}

fn memory(checks: &mut Checks) -> Result<(), Error> {
    let mut refusals = 0;
    let (found, all) = differs(-1, &mut refusals);
    checks.check_same("no allocation fails", found, "");
    for at in 1..=all {
        checks.check_same(&format!("allocation {at} fails"), differs(at, &mut refusals).0, "");
    }
    differs(-1, &mut refusals);
    checks.check("some calls answer so", refusals > 0);
    Ok(())
}

/// Calls that aren't made: the last outcome stays.
const REFUSALS: &[(&str, fn(&mut Manager) -> Came)] = &[
    ("no JSON in a message", |m| m.message(0, b"{", b"{}", b"{}", &[])),
    ("no UTF-8 in a message", |m| m.message(0, b"{}", b"{}", b"\xff", &[])),
    ("no JSON in a launch", |m| m.launch(0, "w", ONE, b"{}", b"", &[])),
    ("no JSON in a push", |m| m.push(0, "a", b"", b"[]", &[])),
    ("no JSON in a send", |m| m.send(0, "a", b"}", &[])),
    ("a number beyond a double's range", |m| m.send(0, "a", br#"{"v":1e400}"#, &[])),
];

fn errors(checks: &mut Checks) -> Result<(), Error> {
    let mut manager = Manager::with_decimals(4096)?;
    manager.register(0, Kind::Plain, "mine")?;
    for (what, call) in REFUSALS {
        checks.check(what, call(&mut manager) == Err(Error::NotJson));
        checks.check_same(what, &shown(&manager.last()), "registered @mine");
    }
    checks.check("no comm", Manager::new(0).err() == Some(Error::BadLimit));
    checks.check("too many comms", Manager::with_decimals(1_048_577).err() == Some(Error::BadLimit));
    let error: Box<dyn std::error::Error> = Box::new(Error::NoText);
    checks.check_same("an error in words", &error.to_string(), "done, but out of memory for what came of it");
    Ok(())
}

fn decimals(checks: &mut Checks) -> Result<(), Error> {
    let mut manager = Manager::with_decimals(4096)?;
    manager.register(0, Kind::Widget, "w")?;
    manager.launch(0, "w", ONE, br#"{"v":1.50}"#, b"[]", &[])?;
    let wanted = r#"state carries {"buffer_paths":[],"state":{"v":1.50}}"#;
    checks.check_same("decimals", &shown(&manager.state(ONE)), wanted);
    Ok(())
}

fn many_targets(checks: &mut Checks) -> Result<(), Error> {
    let mut manager = Manager::new(1)?;
    let mut registered = 0;
    for number in 0..400 {
        let kind = [Kind::Widget, Kind::Plain, Kind::WidgetEcho, Kind::Opaque][number % 4];
        registered += u32::from(manager.register(0, kind, &number.to_string())?.reply == Reply::Registered);
    }
    checks.check("a hundred targets of each kind", registered == 400);
    Ok(())
}

/// Lines, their texts, and the reason of those that can't be read.
const LINES: &[(&str, &str, Option<Reason>)] = &[
    (r#"{"call":"register","kind":"counter","name":"c"}"#, "reply 1 registered\n", None),
    (r#"{"call":"state","id":"nobody"}"#, "state 1 no_comm\n", None),
    ("{", "bad 3 not_json\n", Some(Reason::NotJson)),
    (r#"{"call":"send","id":"a","buffers":["!"]}"#, "bad 4 bad_buffer 0\n", Some(Reason::BadBuffer(0))),
    (r#"{"call":"register","kind":"c"}"#, "bad 5 bad_field kind\n", Some(Reason::BadField(Field::Kind))),
    (r#"{"call":"none"}"#, "bad 6 unknown_call\n", Some(Reason::UnknownCall)),
    ("{}", "bad 7 no_type\n", Some(Reason::NoType)),
    (r#"{"header":{"msg_type":"none"}}"#, "bad 8 unknown_type\n", Some(Reason::UnknownType)),
    ("", "", None),
];

fn texts(checks: &mut Checks) -> Result<(), Error> {
    let mut manager = Manager::new(4096)?;
    for (line, text, reason) in LINES {
        checks.check(line, manager.line(line.as_bytes()) == Ok(text));
        checks.check(line, manager.last()?.reason == *reason);
        checks.check(line, manager.text() == Ok(text));
        if let Some(reason) = reason {
            checks.check(line, text.ends_with(&format!(" {reason}\n")));
        }
    }
    let text = "reply 12 delivered\nout {\"a\":1}\nstate 5 no_state\nbad 7 not_json\n";
    let found = [Answer::Reply(12, "delivered"), Answer::Out("{\"a\":1}"), Answer::State(5, "no_state")];
    checks.check("the lines of a text", answers(text).eq(found.into_iter().chain([Answer::Bad(7, "not_json")])));
    Ok(())
}

fn long_texts(checks: &mut Checks) -> Result<(), Error> {
    let mut manager = Manager::new(4096)?;
    manager.line(br#"{"call":"register","kind":"echo","name":"e"}"#)?;
    open(&mut manager, 0, r#"{"comm_id":"a","target_name":"e"}"#, "{}")?;
    let buffers: [&[u8]; 3] = [&[0, 255], &[], &[7; 100_000]];
    let came = tell(&mut manager, r#"{"comm_id":"a"}"#, &buffers)?;
    checks.check("buffers there and back", came.sent.len() == 1 && came.sent[0].buffers == buffers);
    let data = format!(r#"{{"comm_id":"a","data":{{"k":"{}"}}}}"#, "x".repeat(100_000));
    let came = tell(&mut manager, &data, &[])?;
    checks.check("a long part", came.sent.len() == 1 && came.sent[0].content == data);
    checks.check("a long text", manager.text().is_ok_and(|text| text.contains(&data)));
    let elsewhere = std::thread::spawn(move || shown(&manager.close(0, "nobody")) == "no_comm nobody@");
    checks.check("another thread, which drops it", elsewhere.join().unwrap_or(false));
    Ok(())
}

fn version(checks: &mut Checks) -> Result<(), Error> {
    let line = format!("#define ROLGUNAI_VERSION_NUMBER {} ", rolgunai::version());
    checks.check("the library's version is the header's", include_str!("../c/rolgunai.h").contains(&line));
    Ok(())
}

fn main() -> ExitCode {
    let mut checks = Checks::default();
    let parts = [calls, memory, errors, decimals, many_targets, texts, long_texts, version];
    for (number, part) in parts.into_iter().enumerate() {
        let made = part(&mut checks);
        checks.check(&format!("part {number}: {made:?}"), made.is_ok());
    }
    println!("{} passed, {} failed", checks.passed, checks.failed);
    ExitCode::from(u8::from(checks.failed != 0))
}

//! Each call of a `Client`, as rows: by which client, what it comes to, and after how many changes, also where any one
//! allocation of the library fails. And what the wrapper adds: one mutex, so that nothing is busy; messages in the
//! order of the changes; errors; threads. Linked with `bindings/c/heap_fail.c`. The last line is 'N passed, M failed',
//! and so is the status.

mod rolgunai;

use rolgunai::{Client, Error, Kind, Reply, Sent, SharedOutcome};
use std::ffi::c_long;
use std::process::ExitCode;
use std::sync::{Arc, Mutex};
use std::thread;

type Came = Result<SharedOutcome, Error>;

#[derive(Default)]
struct Checks {
    passed: u32,
    failed: u32,
}

impl Checks {
    fn check(&mut self, what: &str, holds: bool) {
        if holds {
            self.passed += 1;
        } else {
            self.failed += 1;
            println!("FAILED: {what}");
        }
    }

    fn check_same(&mut self, what: &str, found: &str, wanted: &str) {
        self.check(what, found == wanted);
        if found != wanted {
            println!("  it is    {found}\n  and not  {wanted}");
        }
    }
}

/// 'SEEN reply (reason) id@target carries CONTENT sends TYPE ID, ..'.
fn shown(came: &SharedOutcome) -> String {
    let it = &came.outcome;
    let reason = it.reason.map_or(String::new(), |reason| format!(" ({reason})"));
    let (comm, target) = (it.comm.as_deref(), it.target.as_deref());
    let subject = match comm.or(target) {
        Some(_) => format!(" {}@{}", comm.unwrap_or_default(), target.unwrap_or_default()),
        None => String::new(),
    };
    let payload = it.payload.as_ref().map_or(String::new(), |payload| format!(" carries {}", payload.content));
    let sent: String = it.sent.iter().map(|sent| format!(" sends {} {}", sent.message_type, sent.id)).collect();
    format!("{} {}{reason}{subject}{payload}{sent}", came.seen, it.reply)
}

const ONE: &str = "00000000-0000-0000-0000-000000000001";
const OPEN_M: &str = r#"{"comm_id":"m","target_name":"p"}"#;
const MESSAGE_M: &str = r#"{"comm_id":"m","data":{"x":1}}"#;

fn says(of: &mut Client, message_type: &str, content: &str) -> Came {
    of.message(format!(r#"{{"msg_type":"{message_type}"}}"#).as_bytes(), b"{}", content.as_bytes(), &[])
}

/// A call by the first or the second of two clients, and what it comes to; ONE in it is the UUID.
type Row = (&'static str, usize, fn(&mut Client) -> Came, &'static str);

const ROWS: &[Row] = &[
    ("no call yet", 0, |c| c.last(), "0 none"),
    ("widgets", 0, |c| c.register(Kind::Widget, "w"), "1 registered @w"),
    ("plain", 1, |c| c.register(Kind::Plain, "p"), "2 registered @p"),
    ("its own result", 0, |c| c.last(), "1 registered @w"),
    ("a launch", 0, |c| c.launch("w", ONE, br#"{"v":1}"#, b"[]", &[]), "3 launched ONE@w sends comm_open ONE"),
    ("a push", 1, |c| c.push(ONE, br#"{"v":2}"#, br#"[["b"]]"#, &[b"x"]), "4 delivered ONE@w sends comm_msg ONE"),
    ("an open", 0, |c| says(c, "comm_open", OPEN_M), "5 opened m@p"),
    ("a message", 1, |c| says(c, "comm_msg", MESSAGE_M), r#"6 for_kernel m@p carries {"x":1}"#),
    ("a send", 0, |c| c.send("m", b"{}", &[]), "7 delivered m@p sends comm_msg m"),
    ("a bad launch", 1, |c| c.launch("w", "one", b"{}", b"[]", &[]), "7 bad (bad_uuid)"),
    ("a state", 1, |c| c.state(ONE, 7), r#"7 state carries {"buffer_paths":[["b"]],"state":{"v":2}}"#),
    ("a target", 0, |c| c.target("m", 7), "7 target @p"),
    ("no comm", 0, |c| c.target("n", 0), "7 no_comm"),
    ("all comms", 0, |c| c.infos(7), "7 comm_info sends comm_info_reply "),
    ("those of one target", 1, |c| c.infos_of("p", 0), "7 comm_info sends comm_info_reply "),
    ("a close", 1, |c| c.close("m"), "8 closed m@p sends comm_close m"),
    ("an unregister", 0, |c| c.unregister("w"), r#"9 unregistered @w carries ["ONE"] sends comm_close ONE"#),
];

fn two(comms: usize) -> Result<[Client; 2], Error> {
    let mut first = Client::new(comms)?;
    let second = first.another()?;
    Ok([first, second])
}

fn calls(checks: &mut Checks) -> Result<(), Error> {
    let mut clients = two(9)?;
    for (what, by, call, wanted) in ROWS {
        checks.check_same(what, &shown(&call(&mut clients[*by])?), &wanted.replace("ONE", ONE));
    }
    checks.check("a comm whose target ended", !clients[1].is_open(ONE, 9)? && clients[1].seen()? == 9);
    Ok(())
}

extern "C" {
    static mut heap_fail_at: c_long;
    static mut heap_count: c_long;
    static heap_live: c_long;
}

/// What a row comes to: it is called again where it wasn't made, and its outcome asked for again where it was.
fn come_to(of: &mut Client, call: fn(&mut Client) -> Came, refusals: &mut u32) -> Came {
    let mut is_made = false;
    loop {
        let came = if is_made { of.last() } else { call(of) };
        match came {
            Err(Error::Memory) => (),
            Err(Error::NoText) => is_made = true,
            came => return came,
        }
        *refusals += 1;
    }
}

/// The rows, with the allocation of this number failing: the first that comes to something else, or none.
fn differs(at: c_long, refusals: &mut u32) -> Result<&'static str, Error> {
    // SAFETY: there is one thread.
    unsafe {
        heap_fail_at = at;
        heap_count = 0;
    }
    let mut clients = loop {
        match two(9) {
            Err(Error::Memory) => *refusals += 1,
            made => break made?,
        }
    };
    for (what, by, call, wanted) in ROWS {
        if shown(&come_to(&mut clients[*by], *call, refusals)?) != wanted.replace("ONE", ONE) {
            return Ok(what);
        }
    }
    drop(clients);
    // SAFETY: as above.
    Ok(if unsafe { heap_live } == 0 { "" } else { "blocks are left" })
}

fn memory(checks: &mut Checks) -> Result<(), Error> {
    let mut refusals = 0;
    checks.check_same("no allocation fails", differs(-1, &mut refusals)?, "");
    // SAFETY: there is one thread.
    let all = unsafe { heap_count };
    for at in 1..=all {
        checks.check_same(&format!("allocation {at} fails"), differs(at, &mut refusals)?, "");
    }
    // SAFETY: as above.
    unsafe { heap_fail_at = -1 };
    checks.check("some calls answer so", refusals > 0);
    Ok(())
}

fn errors(checks: &mut Checks) -> Result<(), Error> {
    let [mut a, mut b] = two(9)?;
    checks.check("no comm", Client::new(0).err() == Some(Error::BadLimit));
    checks.check("too many comms", Client::with_decimals(1_048_577).err() == Some(Error::BadLimit));
    checks.check("no JSON", a.push("a", b"{", b"[]", &[]).err() == Some(Error::NotJson));
    checks.check("a change that isn't there", a.state("a", 1).err() == Some(Error::Again));
    checks.check("seven of them", b.infos(7).err() == Some(Error::Again));
    checks.check("nothing was changed", a.seen()? == 0);
    let mut all = (2..256).map(|_| a.another()).collect::<Result<Vec<_>, _>>()?;
    checks.check("256 clients", a.another().err() == Some(Error::NoSeat));
    all.pop();
    checks.check("one that ended gives its seat up", a.another().is_ok());
    let texts = [Error::Again, Error::NoSeat].map(|error| error.to_string());
    checks.check_same(
        "words",
        &texts.join("; "),
        "there aren't as many changes as were asked for; the manager has 256 clients",
    );
    Ok(())
}

/// Messages go out in the order of the changes, whichever outcome is sent first.
fn order(checks: &mut Checks) -> Result<(), Error> {
    let [mut a, mut b] = two(9)?;
    let said = Arc::new(Mutex::new(String::new()));
    let note = |said: &Arc<Mutex<String>>| {
        let said = Arc::clone(said);
        move |sent: Sent| said.lock().expect("no panic").push_str(&format!("{} ", &sent.message_type[5..]))
    };
    let now = |said: &Arc<Mutex<String>>| said.lock().expect("no panic").clone();
    a.register(Kind::Plain, "p")?;
    says(&mut b, "comm_open", OPEN_M)?;
    let (mut first, unsent, mut second) = (a.send("m", b"{}", &[])?, a.send("m", b"{}", &[])?, b.close("m")?);
    b.infos(0)?.send(note(&said));
    second.send(note(&said));
    checks.check_same("what comes after waits", &now(&said), "");
    first.send(note(&said));
    first.send(note(&said));
    checks.check_same("until that before is sent, once", &now(&said), "msg ");
    drop(unsent);
    checks.check_same("or won't be", &now(&said), "msg close info_reply ");
    says(&mut b, "comm_open", OPEN_M)?;
    let inner = Arc::clone(&said);
    a.send("m", b"{}", &[])?.send(move |sent| {
        note(&inner)(sent);
        b.close("m").expect("it is made").send(note(&inner));
        inner.lock().expect("no panic").push_str("| ");
    });
    checks.check_same("what is sent may make calls and send", &now(&said), "msg close info_reply msg | close ");
    Ok(())
}

const MANY: u64 = 2000;

fn play(mut mine: Client, gone: Arc<Mutex<Vec<u64>>>) -> Result<(), Error> {
    for _ in 0..MANY {
        let mut came = mine.send("m", b"{}", &[])?;
        let (seen, gone) = (came.seen, Arc::clone(&gone));
        came.send(move |_| gone.lock().expect("no panic").push(seen));
        assert!(mine.target("m", seen)?.outcome.reply == Reply::Target);
    }
    Ok(())
}

/// Threads that make calls at once: none is busy, and each number goes out in its turn.
fn threads(checks: &mut Checks) -> Result<(), Error> {
    let mut first = Client::new(9)?;
    first.register(Kind::Plain, "p")?;
    says(&mut first, "comm_open", OPEN_M)?;
    let gone = Arc::new(Mutex::new(Vec::new()));
    let started = (0..4).map(|_| {
        let (mine, gone) = (first.another()?, Arc::clone(&gone));
        Ok(thread::spawn(move || play(mine, gone)))
    });
    for thread in started.collect::<Result<Vec<_>, Error>>()? {
        checks.check("a thread", thread.join().is_ok_and(|ended| ended.is_ok()));
    }
    let gone = gone.lock().expect("no panic");
    checks.check("threads that make calls at once", gone.iter().copied().eq(3..3 + 4 * MANY));
    Ok(())
}

/// A panic in what is sent ends the thread, and not the sending.
fn panics(checks: &mut Checks) -> Result<(), Error> {
    let [mut a, mut b] = two(9)?;
    a.register(Kind::Plain, "p")?;
    says(&mut a, "comm_open", OPEN_M)?;
    std::panic::set_hook(Box::new(|_| ()));
    let ended =
        thread::spawn(move || a.send("m", b"{}", &[]).map(|mut came| came.send(|_| panic!("as it should")))).join();
    let _ = std::panic::take_hook();
    let said = Arc::new(Mutex::new(0));
    let count = Arc::clone(&said);
    b.send("m", b"{}", &[])?.send(move |_| *count.lock().expect("no panic") += 1);
    checks.check("a panic in what is sent", ended.is_err() && *said.lock().expect("no panic") == 1);
    Ok(())
}

/// Compiles only where a client isn't shared by threads: else there are two ways to call `is_unshared`.
trait Unshared<Which> {
    fn is_unshared() -> bool {
        true
    }
}
impl<T: ?Sized> Unshared<()> for T {}
#[allow(dead_code)]
struct WhereShared;
impl<T: ?Sized + Sync> Unshared<WhereShared> for T {}

fn main() -> ExitCode {
    let mut checks = Checks::default();
    let all: [fn(&mut Checks) -> Result<(), Error>; 6] = [calls, memory, errors, order, threads, panics];
    for test in all {
        if let Err(error) = test(&mut checks) {
            checks.check(&error.to_string(), false);
        }
    }
    checks.check("a client is one thread's at a time", <Client as Unshared<_>>::is_unshared());
    println!("{} passed, {} failed", checks.passed, checks.failed);
    ExitCode::from(u8::from(checks.failed != 0))
}

//! A storm, as `bindings/c/storm.c` is, by the wrapper for Rust: storm SCRIPT. `tools/storm` checks what it writes.

mod rolgunai;

use rolgunai::{Client, Error, Field, Kind, Outcome, Reason, Reply, SharedOutcome};
use std::sync::atomic::{AtomicU64, Ordering::SeqCst};
use std::sync::{Arc, Mutex};
use std::thread;

struct Line {
    number: usize,
    client: usize,
    hear: Option<usize>,
    fields: Vec<String>,
}

impl Line {
    fn field(&self, at: usize) -> &str {
        self.fields.get(at).map_or("", String::as_str)
    }
}

#[derive(Clone, Default)]
struct Answer {
    status: u32,
    reply: u32,
    reason: (u32, u64),
    since: u64,
    seen: u64,
    is_unshown: bool,
    sent: usize,
    crc: u32,
}

/// What the threads share: the lines, the last number that each client was told, and the lines of what was sent.
struct Storm {
    lines: Vec<Line>,
    told: Vec<AtomicU64>,
    order: Arc<Mutex<Vec<usize>>>,
}

/// A CRC-32 of parts, each with its size.
struct Sum(u32);

impl Sum {
    fn step(&mut self, byte: u8) {
        self.0 ^= u32::from(byte);
        for _ in 0..8 {
            self.0 = self.0 >> 1 ^ (0xEDB8_8320 & (self.0 & 1).wrapping_neg());
        }
    }

    fn add(&mut self, part: Option<&[u8]>) {
        self.step(u8::from(part.is_some()));
        let Some(part) = part else { return };
        for byte in (part.len() as u64).to_le_bytes().iter().chain(part) {
            self.step(*byte);
        }
    }

    fn add_buffers(&mut self, buffers: &[Vec<u8>]) {
        for buffer in buffers {
            self.add(Some(buffer));
        }
        self.add(None);
    }

    fn of(came: &Outcome) -> u32 {
        let mut sum = Sum(u32::MAX);
        sum.add(came.comm.as_deref().map(str::as_bytes));
        sum.add(came.target.as_deref().map(str::as_bytes));
        sum.add(came.payload.as_ref().map(|payload| payload.content.as_bytes()));
        sum.add_buffers(came.payload.as_ref().map_or(&[], |payload| &payload.buffers));
        for sent in &came.sent {
            for part in [&sent.message_type, &sent.id, &sent.content, &sent.metadata] {
                sum.add(Some(part.as_bytes()));
            }
            sum.add_buffers(&sent.buffers);
        }
        !sum.0
    }
}

fn number_of(reply: Reply) -> u32 {
    use Reply::*;
    let all = [
        None,
        Bad,
        CommInfo,
        Registered,
        Replaced,
        Opened,
        IdInUse,
        Refused,
        Delivered,
        ForKernel,
        Fault,
        NoComm,
        Closed,
        Unregistered,
        NoTarget,
        Launched,
        NotWidget,
        State,
        NoState,
        Target,
    ];
    all.iter().position(|it| *it == reply).map_or(u32::MAX, |at| at as u32)
}

fn field_number(field: Field) -> u64 {
    use Field::*;
    let all = [Content, CommId, TargetName, Data, Metadata, Buffers, Kind, Name, Uuid, State, Id];
    all.iter().position(|it| *it == field).map_or(u64::MAX, |at| at as u64)
}

fn reason_numbers(reason: Option<Reason>) -> (u32, u64) {
    match reason {
        None => (0, 0),
        Some(Reason::NotJson) => (1, 0),
        Some(Reason::NoType) => (2, 0),
        Some(Reason::UnknownType) => (3, 0),
        Some(Reason::BadContent(field)) => (4, field_number(field)),
        Some(Reason::NotWhole) => (5, 0),
        Some(Reason::BadBuffer(index)) => (6, index),
        Some(Reason::BadClient) => (7, 0),
        Some(Reason::UnknownCall) => (8, 0),
        Some(Reason::BadField(field)) => (9, field_number(field)),
        Some(Reason::BadUuid) => (10, 0),
        Some(Reason::NoStock) => (11, 0),
        Some(Reason::BadPath(index)) => (12, index),
        Some(Reason::BufferMissing(index)) => (13, index),
        Some(Reason::NoTarget) => (14, 0),
        Some(Reason::TooManyComms) => (15, 0),
        Some(Reason::WrongVersion) => (16, 0),
        Some(Reason::NoState) => (17, 0),
        Some(Reason::BadState) => (18, 0),
        Some(Reason::NoMethod) => (19, 0),
        Some(Reason::UnknownMethod) => (20, 0),
        Some(Reason::Other { reason, index }) => (reason, index),
    }
}

fn status_of(error: Error) -> u32 {
    match error {
        Error::Memory => 2,
        Error::BadLimit => 3,
        Error::Exhausted => 6,
        Error::NotJson => 10,
        Error::NoText => 12,
        Error::Again => 14,
        Error::NoSeat => 15,
        Error::Other(status) => status,
    }
}

/// Buffers of these sizes, as 3,0,50; the bytes tell the line.
fn buffers_of(line: &Line, sizes: &str) -> Vec<Vec<u8>> {
    let mut bytes = (line.number * 7..).map(|byte| (byte % 251) as u8);
    let sizes = sizes.split(',').filter_map(|size| size.parse().ok());
    sizes.map(|size: usize| bytes.by_ref().take(size).collect()).collect()
}

fn called(by: &mut Client, line: &Line, since: u64) -> Result<SharedOutcome, Error> {
    let text = |at| line.field(at);
    let bytes = |at| line.field(at).as_bytes();
    let with = |at, call: &mut dyn FnMut(&[&[u8]]) -> Result<SharedOutcome, Error>| {
        let buffers = buffers_of(line, line.field(at));
        call(&buffers.iter().map(Vec::as_slice).collect::<Vec<_>>())
    };
    match text(0) {
        "message" => with(4, &mut |buffers| by.message(bytes(1), bytes(2), bytes(3), buffers)),
        "register" => {
            let kinds = [Kind::Widget, Kind::Plain, Kind::WidgetEcho, Kind::Opaque];
            by.register(kinds[text(1).parse::<usize>().expect("a kind") - 2], text(2))
        }
        "unregister" => by.unregister(text(1)),
        "launch" => with(5, &mut |buffers| by.launch(text(1), text(2), bytes(3), bytes(4), buffers)),
        "push" => with(4, &mut |buffers| by.push(text(1), bytes(2), bytes(3), buffers)),
        "send" => with(3, &mut |buffers| by.send(text(1), bytes(2), buffers)),
        "close" => by.close(text(1)),
        "state" => by.state(text(1), since),
        "target" => by.target(text(1), since),
        "infos" => by.infos(since),
        "infos_of" => by.infos_of(text(1), since),
        other => panic!("no such call: {other}"),
    }
}

fn play_line(all: &Storm, by: &mut Client, line: &Line) -> Answer {
    let since = line.hear.map_or(0, |other| all.told[other].load(SeqCst));
    let mut answer = Answer { since, ..Answer::default() };
    let came = match line.field(0) {
        "join" => by.another().map(|other| *by = other).map(|()| None),
        _ => called(by, line, since).map(Some),
    };
    match came {
        Ok(None) => (),
        Ok(Some(mut came)) => {
            answer.reply = number_of(came.outcome.reply);
            answer.reason = reason_numbers(came.outcome.reason);
            answer.is_unshown = !came.is_shown;
            answer.sent = came.outcome.sent.len();
            answer.crc = Sum::of(&came.outcome);
            let (order, number) = (Arc::clone(&all.order), line.number);
            came.send(move |_| order.lock().expect("no thread panics").push(number));
        }
        Err(error) => answer.status = status_of(error),
    }
    answer.seen = by.seen().expect("there is a manager");
    all.told[line.client].store(answer.seen, SeqCst);
    answer
}

fn read_line(number: usize, text: &str) -> Line {
    let mut fields = text.split('\t').map(String::from);
    let mut next = || fields.next().expect("a line is long enough");
    let (client, hear) = (next().parse().expect("a client"), next().parse().ok());
    Line { number, client, hear, fields: fields.collect() }
}

fn begin(script: &str) -> Result<(Storm, Vec<Client>), Error> {
    let (head, rest) = script.split_once('\n').expect("the script has lines");
    let numbers: Vec<usize> = head.split('\t').map(|it| it.parse().expect("a number")).collect();
    let [count, comms, decimals] = numbers[..] else { panic!("the first line is wrong") };
    let mut clients = vec![if decimals == 1 { Client::with_decimals(comms)? } else { Client::new(comms)? }];
    while clients.len() < count {
        let other = clients[0].another()?;
        clients.push(other);
    }
    let lines = rest.lines().enumerate().map(|(at, line)| read_line(at + 1, line)).collect();
    let told = clients.iter().map(|_| AtomicU64::new(0)).collect();
    Ok((Storm { lines, told, order: Arc::default() }, clients))
}

/// The answers of one client's lines.
fn play(all: &Storm, number: usize, mut by: Client) -> Vec<(usize, Answer)> {
    let mine = all.lines.iter().filter(|line| line.client == number);
    mine.map(|line| (line.number, play_line(all, &mut by, line))).collect()
}

fn main() -> Result<(), Error> {
    let script = std::env::args().nth(1).expect("storm SCRIPT");
    let script = std::fs::read_to_string(script).expect("the script can be read");
    let (all, clients) = begin(&script)?;
    let count = clients.len();
    let mut answers: Vec<(usize, Answer)> = thread::scope(|scope| {
        let all = &all;
        let started: Vec<_> =
            (clients.into_iter().enumerate()).map(|(number, by)| scope.spawn(move || play(all, number, by))).collect();
        started.into_iter().flat_map(|thread| thread.join().expect("no thread panics")).collect()
    });
    answers.sort_by_key(|(number, _)| *number);
    for (number, it) in answers {
        let Answer { status, reply, reason: (reason, index), since, seen, is_unshown, sent, crc } = it;
        let shown = u32::from(!is_unshown);
        println!(
            "line {number} status {status} reply {reply} reason {reason} index {index} since {since} seen {seen} shown \
             {shown} sent {sent} crc {crc:08x}"
        );
    }
    all.order.lock().expect("no thread panics").iter().for_each(|line| println!("sent {line}"));
    (0..count).for_each(|_| println!("freed 0"));
    Ok(())
}

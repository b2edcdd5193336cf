//! What the manager has, and how it says what came of a line.
use crate::out;
use crate::val::{Dict, Own, PlaceFault};
use hashbrown::HashMap;
use std::collections::BTreeMap;

pub const CLIENTS: u64 = 4;
pub const COMMS: usize = 4096;

#[derive(Clone, Copy, PartialEq)]
pub enum Kind {
    Echo,
    Counter,
    Widget,
    WidgetEcho,
}

impl Kind {
    pub fn is_widget(self) -> bool {
        matches!(self, Kind::Widget | Kind::WidgetEcho)
    }
}

pub type State = BTreeMap<Box<str>, Own>;

pub struct Target {
    pub name: Box<str>,
    pub kind: Kind,
    pub notes: u64,
}

pub struct Comm {
    pub target: usize,
    pub opened: u64,
    pub state: Option<State>,
}

/// Why a target refuses an open or a message.
pub enum Fault {
    Word(&'static str),
    Path(usize),
    Missing(usize),
}

impl From<PlaceFault> for Fault {
    fn from(fault: PlaceFault) -> Fault {
        match fault {
            PlaceFault::Path(n) => Fault::Path(n),
            PlaceFault::Missing(n) => Fault::Missing(n),
        }
    }
}

/// Why a line can't be read.
pub enum Bad {
    Words(&'static str),
    At(&'static str, usize),
    Field(&'static str),
}

impl From<PlaceFault> for Bad {
    fn from(fault: PlaceFault) -> Bad {
        match fault {
            PlaceFault::Path(n) => Bad::At("bad_path", n),
            PlaceFault::Missing(n) => Bad::At("buffer_missing", n),
        }
    }
}

pub struct Player {
    pub out: Vec<u8>,
    pub split: out::Split,
    pub targets: Vec<Option<Target>>,
    pub comms: HashMap<Box<str>, Comm>,
    pub sorted: Vec<(Box<str>, usize)>,
    pub stale: bool,
    pub opened: u64,
    pub changes: u64,
    pub calls: [u64; CLIENTS as usize],
    pub stock: [usize; 4],
}

/// Appends a text as it stands.
#[macro_export]
macro_rules! w {
    ($o:expr, $s:expr) => {
        $o.extend_from_slice($s.as_bytes())
    };
}

impl Player {
    pub fn new() -> Player {
        Player {
            out: Vec::with_capacity(1 << 17),
            split: out::Split::new(),
            targets: Vec::new(),
            comms: HashMap::new(),
            sorted: Vec::new(),
            stale: false,
            opened: 0,
            changes: 0,
            calls: [0; CLIENTS as usize],
            stock: [2; 4],
        }
    }

    pub fn target(&self, name: &str) -> Option<usize> {
        self.targets.iter().position(|t| matches!(t, Some(t) if *t.name == *name))
    }

    pub fn kind(&self, slot: usize) -> Kind {
        self.targets[slot].as_ref().expect("a comm's target stands").kind
    }

    /// Starts a `reply` line: the number of the change, and a blank.
    pub fn reply(&mut self, client: usize) {
        self.changes += 1;
        self.calls[client] += 1;
        w!(self.out, "reply ");
        out::num(&mut self.out, self.changes);
        self.out.push(b' ');
    }

    pub fn words(&mut self, client: usize, words: &str) {
        self.reply(client);
        w!(self.out, words);
        self.out.push(b'\n');
    }

    pub fn fault(&mut self, client: usize, lead: &str, fault: &Fault) {
        self.reply(client);
        w!(self.out, lead);
        match fault {
            Fault::Word(word) => w!(self.out, word),
            Fault::Path(n) => self.numbered("bad_path", *n),
            Fault::Missing(n) => self.numbered("buffer_missing", *n),
        }
        self.out.push(b'\n');
    }

    fn numbered(&mut self, word: &str, n: usize) {
        w!(self.out, word);
        self.out.push(b' ');
        out::num(&mut self.out, n as u64);
    }

    pub fn bad(&mut self, line: u64, why: &Bad) {
        w!(self.out, "bad ");
        out::num(&mut self.out, line);
        self.out.push(b' ');
        match why {
            Bad::Words(words) => w!(self.out, words),
            Bad::At(word, n) => self.numbered(word, *n),
            Bad::Field(key) => {
                w!(self.out, "bad_field ");
                w!(self.out, key);
            }
        }
        self.out.push(b'\n');
    }

    /// After `"buffers":[..]`: up to the value of `data`.
    pub fn mid(&mut self, client: usize, id: &str) {
        w!(self.out, ",\"call\":");
        out::num(&mut self.out, self.calls[client]);
        w!(self.out, ",\"client\":");
        out::num(&mut self.out, client as u64);
        w!(self.out, ",\"content\":{\"comm_id\":");
        out::text(&mut self.out, id);
        w!(self.out, ",\"data\":");
    }

    pub fn sent_close(&mut self, client: usize, id: &str) {
        w!(self.out, "out {\"buffers\":[]");
        self.mid(client, id);
        w!(self.out, "{}},\"header\":{\"msg_type\":\"comm_close\"},\"metadata\":{}}\n");
    }

    fn end_msg(&mut self) {
        w!(self.out, "},\"header\":{\"msg_type\":\"comm_msg\"},\"metadata\":{}}\n");
    }

    pub fn sent_body(&mut self, client: usize, id: &str, data: &Dict, buffers: &[Vec<u8>]) {
        w!(self.out, "out {\"buffers\":");
        out::buffers(&mut self.out, buffers);
        self.mid(client, id);
        out::dict(&mut self.out, data);
        self.end_msg();
    }

    pub fn sent_update(&mut self, client: usize, id: &str, method: &str, state: &State) {
        w!(self.out, "out {\"buffers\":");
        self.split.write(&mut self.out, state);
        self.mid(client, id);
        w!(self.out, "{\"buffer_paths\":");
        self.out.extend_from_slice(&self.split.paths);
        w!(self.out, ",\"method\":\"");
        w!(self.out, method);
        w!(self.out, "\",\"state\":");
        out::plain_dict(&mut self.out, state);
        self.out.push(b'}');
        self.end_msg();
    }

    pub fn sent_open(&mut self, client: usize, id: &str, name: &str, state: &State) {
        w!(self.out, "out {\"buffers\":");
        self.split.write(&mut self.out, state);
        self.mid(client, id);
        w!(self.out, "{\"buffer_paths\":");
        self.out.extend_from_slice(&self.split.paths);
        w!(self.out, ",\"state\":");
        out::plain_dict(&mut self.out, state);
        w!(self.out, "},\"target_name\":");
        out::text(&mut self.out, name);
        w!(self.out, "},\"header\":{\"msg_type\":\"comm_open\"},\"metadata\":{\"version\":\"2.1.0\"}}\n");
    }
}

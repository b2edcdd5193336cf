//! What the calls take and give: errors, kinds, replies, reasons, messages, and the lines of a text. The numbers and
//! what they mean are those of `bindings/c/rolgunai.h`.

use std::fmt::{self, Display, Formatter};

/// Why a call wasn't made, or at `NoText` what of it was. After any other the manager is as it was before it.
#[derive(Clone, Copy, Debug, PartialEq, Eq)]
pub enum Error {
    /// Out of memory, and nothing has changed: the same call may be made again.
    Memory,
    /// The limit of comms isn't from 1 to 1,048,576.
    BadLimit,
    /// 2^62 calls were made.
    Exhausted,
    /// A part isn't one JSON text in UTF-8 that nests at most 127 deep.
    NotJson,
    /// The call is made, and memory ran out for what it came to: `Manager::last`, `Manager::text` and `Client::last`
    /// give that.
    NoText,
    /// A read of a `Client` asks for more changes than there are.
    Again,
    /// The manager has 256 clients.
    NoSeat,
    /// A status that no call of this wrapper should give.
    Other(u32),
}

impl Error {
    pub(super) fn numbered(status: u32) -> Error {
        match status {
            2 => Error::Memory,
            3 => Error::BadLimit,
            6 => Error::Exhausted,
            10 => Error::NotJson,
            12 => Error::NoText,
            14 => Error::Again,
            15 => Error::NoSeat,
            other => Error::Other(other),
        }
    }
}

impl Display for Error {
    fn fmt(&self, to: &mut Formatter<'_>) -> fmt::Result {
        match self {
            Error::Memory => to.write_str("out of memory, and nothing has changed"),
            Error::BadLimit => to.write_str("the limit of comms isn't from 1 to 1,048,576"),
            Error::Exhausted => to.write_str("no more calls can be counted"),
            Error::NotJson => to.write_str("a part isn't one JSON text that nests at most 127 deep"),
            Error::NoText => to.write_str("done, but out of memory for what came of it"),
            Error::Again => to.write_str("there aren't as many changes as were asked for"),
            Error::NoSeat => to.write_str("the manager has 256 clients"),
            Error::Other(status) => write!(to, "the library gave the status {status}"),
        }
    }
}

impl std::error::Error for Error {}

/// The kinds of targets.
#[derive(Clone, Copy, Debug, PartialEq, Eq)]
#[repr(u32)]
pub enum Kind {
    /// Keeps the state of Jupyter widgets.
    Widget = 2,
    /// Takes every open and message, and hands a message to the kernel in its reply.
    Plain = 3,
    /// As `Widget`, and repeats to the frontends what a frontend's update brought.
    WidgetEcho = 4,
    /// As `Plain`, for what nobody here reads: neither `data` nor buffers of a message count.
    Opaque = 5,
}

/// What a call came to. One that is `Bad`, `Refused` or `Fault` has a reason.
#[derive(Clone, Copy, Debug, PartialEq, Eq)]
pub enum Reply {
    None,
    Bad,
    CommInfo,
    Registered,
    Replaced,
    Opened,
    IdInUse,
    Refused,
    Delivered,
    ForKernel,
    Fault,
    NoComm,
    Closed,
    Unregistered,
    NoTarget,
    Launched,
    NotWidget,
    State,
    NoState,
    Target,
    /// A number that the library shouldn't give.
    Other(u32),
}

/// Each reply at its number, with its word.
const REPLIES: [(Reply, &str); 20] = [
    (Reply::None, "none"),
    (Reply::Bad, "bad"),
    (Reply::CommInfo, "comm_info"),
    (Reply::Registered, "registered"),
    (Reply::Replaced, "replaced"),
    (Reply::Opened, "opened"),
    (Reply::IdInUse, "id_in_use"),
    (Reply::Refused, "refused"),
    (Reply::Delivered, "delivered"),
    (Reply::ForKernel, "for_kernel"),
    (Reply::Fault, "fault"),
    (Reply::NoComm, "no_comm"),
    (Reply::Closed, "closed"),
    (Reply::Unregistered, "unregistered"),
    (Reply::NoTarget, "no_target"),
    (Reply::Launched, "launched"),
    (Reply::NotWidget, "not_widget"),
    (Reply::State, "state"),
    (Reply::NoState, "no_state"),
    (Reply::Target, "target"),
];

impl Reply {
    pub(super) fn numbered(number: u32) -> Reply {
        REPLIES.get(number as usize).map_or(Reply::Other(number), |(reply, _)| *reply)
    }
}

impl Display for Reply {
    fn fmt(&self, to: &mut Formatter<'_>) -> fmt::Result {
        to.write_str(REPLIES.iter().find(|(reply, _)| reply == self).map_or("unknown", |(_, word)| word))
    }
}

/// The field that a reason speaks of.
#[derive(Clone, Copy, Debug, PartialEq, Eq)]
pub enum Field {
    Content,
    CommId,
    TargetName,
    Data,
    Metadata,
    Buffers,
    Kind,
    Name,
    Uuid,
    State,
    Id,
    /// A number that the library shouldn't give.
    Other(u64),
}

/// Each field at its number, with its name.
const FIELDS: [(Field, &str); 11] = [
    (Field::Content, "content"),
    (Field::CommId, "comm_id"),
    (Field::TargetName, "target_name"),
    (Field::Data, "data"),
    (Field::Metadata, "metadata"),
    (Field::Buffers, "buffers"),
    (Field::Kind, "kind"),
    (Field::Name, "name"),
    (Field::Uuid, "uuid"),
    (Field::State, "state"),
    (Field::Id, "id"),
];

impl Field {
    fn numbered(number: u64) -> Field {
        let found = usize::try_from(number).ok().and_then(|at| FIELDS.get(at));
        found.map_or(Field::Other(number), |(field, _)| *field)
    }
}

impl Display for Field {
    fn fmt(&self, to: &mut Formatter<'_>) -> fmt::Result {
        to.write_str(FIELDS.iter().find(|(field, _)| field == self).map_or("unknown", |(_, name)| name))
    }
}

/// Why a reply is `Bad`, `Refused` or `Fault`; in words as `docs/FORMATS.md` has them. The number is that of a buffer
/// or a path.
#[derive(Clone, Copy, Debug, PartialEq, Eq)]
pub enum Reason {
    NotJson,
    NoType,
    UnknownType,
    BadContent(Field),
    NotWhole,
    BadBuffer(u64),
    BadClient,
    UnknownCall,
    BadField(Field),
    BadUuid,
    NoStock,
    BadPath(u64),
    BufferMissing(u64),
    NoTarget,
    TooManyComms,
    WrongVersion,
    NoState,
    BadState,
    NoMethod,
    UnknownMethod,
    /// A refusal of a target of one's own, or a reason that the library shouldn't give.
    Other {
        reason: u32,
        index: u64,
    },
}

impl Reason {
    /// None where the reply has no reason.
    pub(super) fn numbered(reason: u32, index: u64) -> Option<Reason> {
        Some(match reason {
            0 => return None,
            1 => Reason::NotJson,
            2 => Reason::NoType,
            3 => Reason::UnknownType,
            4 => Reason::BadContent(Field::numbered(index)),
            5 => Reason::NotWhole,
            6 => Reason::BadBuffer(index),
            7 => Reason::BadClient,
            8 => Reason::UnknownCall,
            9 => Reason::BadField(Field::numbered(index)),
            10 => Reason::BadUuid,
            11 => Reason::NoStock,
            12 => Reason::BadPath(index),
            13 => Reason::BufferMissing(index),
            14 => Reason::NoTarget,
            15 => Reason::TooManyComms,
            16 => Reason::WrongVersion,
            17 => Reason::NoState,
            18 => Reason::BadState,
            19 => Reason::NoMethod,
            20 => Reason::UnknownMethod,
            _ => Reason::Other { reason, index },
        })
    }
}

impl Display for Reason {
    fn fmt(&self, to: &mut Formatter<'_>) -> fmt::Result {
        match self {
            Reason::NotJson => to.write_str("not_json"),
            Reason::NoType => to.write_str("no_type"),
            Reason::UnknownType => to.write_str("unknown_type"),
            Reason::BadContent(field) => write!(to, "bad_content {field}"),
            Reason::NotWhole => to.write_str("not_whole"),
            Reason::BadBuffer(index) => write!(to, "bad_buffer {index}"),
            Reason::BadClient => to.write_str("bad_client"),
            Reason::UnknownCall => to.write_str("unknown_call"),
            Reason::BadField(field) => write!(to, "bad_field {field}"),
            Reason::BadUuid => to.write_str("bad_uuid"),
            Reason::NoStock => to.write_str("no_stock"),
            Reason::BadPath(index) => write!(to, "bad_path {index}"),
            Reason::BufferMissing(index) => write!(to, "buffer_missing {index}"),
            Reason::NoTarget => to.write_str("no_target"),
            Reason::TooManyComms => to.write_str("too_many_comms"),
            Reason::WrongVersion => to.write_str("wrong_version"),
            Reason::NoState => to.write_str("no_state"),
            Reason::BadState => to.write_str("bad_state"),
            Reason::NoMethod => to.write_str("no_method"),
            Reason::UnknownMethod => to.write_str("unknown_method"),
            Reason::Other { index, .. } => write!(to, "other {index}"),
        }
    }
}

/// A message that is sent, by its parts. A `comm_info_reply` has no id; content and metadata are JSON.
#[derive(Clone, Debug, PartialEq, Eq)]
pub struct Sent {
    pub message_type: String,
    pub id: String,
    pub content: String,
    pub metadata: String,
    pub buffers: Vec<Vec<u8>>,
}

/// What a reply carries: `ForKernel` and `State` JSON and buffers, `Unregistered` and `Replaced` the JSON list of the
/// ids of the comms that were closed.
#[derive(Clone, Debug, PartialEq, Eq)]
pub struct Payload {
    pub content: String,
    pub buffers: Vec<Vec<u8>>,
}

/// What a call came to: its reply, which comm and target it is about, what the reply carries, and the messages that are
/// to be sent, in their order.
#[derive(Clone, Debug, PartialEq, Eq)]
pub struct Outcome {
    pub reply: Reply,
    pub reason: Option<Reason>,
    pub comm: Option<String>,
    pub target: Option<String>,
    pub payload: Option<Payload>,
    pub sent: Vec<Sent>,
}

/// One line of a text, without its line feed.
#[derive(Clone, Copy, Debug, PartialEq, Eq)]
pub enum Answer<'a> {
    /// A change, its number and its words.
    Reply(u64, &'a str),
    /// A message to send, as JSON.
    Out(&'a str),
    /// A state that was read, after so many changes.
    State(u64, &'a str),
    /// A line that can't be read, its number and why.
    Bad(u64, &'a str),
}

/// The lines of a text of `Manager::line` or `Manager::text`.
pub fn answers(text: &str) -> impl Iterator<Item = Answer<'_>> {
    text.lines().filter_map(|line| {
        let (word, rest) = line.split_once(' ')?;
        if word == "out" {
            return Some(Answer::Out(rest));
        }
        let (number, words) = rest.split_once(' ')?;
        let number = number.parse().ok()?;
        match word {
            "reply" => Some(Answer::Reply(number, words)),
            "state" => Some(Answer::State(number, words)),
            "bad" => Some(Answer::Bad(number, words)),
            _ => None,
        }
    })
}

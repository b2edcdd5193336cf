//! How buffers are handed in, and how the parts of a result come out, of a manager and of a client alike.

use super::ffi::Frame;
use super::types::{Error, Outcome, Payload, Reason, Reply, Sent};

pub const OK: u32 = 0;
pub const BUFFER_TOO_SMALL: u32 = 5;
pub const NOT_UTF8: u32 = 7;
const NO_PART: u32 = 11;

// The parts of a message and of a reply; binary buffers are numbered on from the last.
const TYPE: usize = 0;
const ID: usize = 1;
const CONTENT: usize = 2;
const METADATA: usize = 3;
const TARGET: usize = 4;
const BUFFERS: usize = 5;

/// How long a buffer may be that is copied twice.
pub const SHORT: usize = 4096;

/// What a handle's last call came to, as the library tells it.
pub trait LastResult {
    fn reason(&mut self, reason: &mut u32, index: &mut u64) -> u32;
    fn part(&mut self, part: usize, out: &mut [u8], size: &mut usize) -> u32;
    fn sent_part(&mut self, message: usize, part: usize, out: &mut [u8], size: &mut usize) -> u32;
}

/// The buffers where they lie.
pub fn framed(buffers: &[&[u8]]) -> Vec<Frame> {
    buffers.iter().map(|buffer| Frame { bytes: buffer.as_ptr(), size: buffer.len() }).collect()
}

pub fn checked(status: u32) -> Result<(), Error> {
    if status == OK {
        Ok(())
    } else {
        Err(Error::numbered(status))
    }
}

/// All of a result.
pub fn outcome(of: &mut impl LastResult, out: &mut Vec<u8>, reply: u32, count: usize) -> Result<Outcome, Error> {
    let (mut reason, mut index) = (0, 0);
    checked(of.reason(&mut reason, &mut index))?;
    let mut part = |part, out: &mut [u8], size: &mut usize| of.part(part, out, size);
    let comm = text_part(out, &mut part, ID)?;
    let target = text_part(out, &mut part, TARGET)?;
    let payload = match text_part(out, &mut part, CONTENT)? {
        Some(content) => Some(Payload { content, buffers: buffers_of(out, &mut part)? }),
        None => None,
    };
    let sent = (0..count).map(|number| sent(of, out, number)).collect::<Result<_, _>>()?;
    let (reply, reason) = (Reply::numbered(reply), Reason::numbered(reason, index));
    Ok(Outcome { reply, reason, comm, target, payload, sent })
}

/// The same right after the call: where memory runs out, the call is made.
pub fn outcome_once(of: &mut impl LastResult, out: &mut Vec<u8>, reply: u32, count: usize) -> Result<Outcome, Error> {
    outcome(of, out, reply, count).map_err(|error| if error == Error::Memory { Error::NoText } else { error })
}

fn sent(of: &mut impl LastResult, out: &mut Vec<u8>, number: usize) -> Result<Sent, Error> {
    let mut part = |part, out: &mut [u8], size: &mut usize| of.sent_part(number, part, out, size);
    let mut text = |number| text_part(out, &mut part, number)?.ok_or(Error::Other(NO_PART));
    let (message_type, id, content, metadata) = (text(TYPE)?, text(ID)?, text(CONTENT)?, text(METADATA)?);
    Ok(Sent { message_type, id, content, metadata, buffers: buffers_of(out, &mut part)? })
}

/// A part that is a text, where there is one. JSON is written each time that it is asked for, so that `out` grows to
/// the longest.
fn text_part(
    out: &mut Vec<u8>,
    part: &mut impl FnMut(usize, &mut [u8], &mut usize) -> u32,
    number: usize,
) -> Result<Option<String>, Error> {
    let mut size = 0;
    let mut status = part(number, out, &mut size);
    if status == BUFFER_TOO_SMALL {
        out.resize(2 * size, 0);
        status = part(number, out, &mut size);
    }
    if status == NO_PART {
        return Ok(None);
    }
    checked(status)?;
    String::from_utf8(out[..size].to_vec()).map(Some).map_err(|_| Error::Other(NOT_UTF8))
}

/// The binary buffers. A long one is copied once, to where it stays.
fn buffers_of(
    out: &mut [u8],
    part: &mut impl FnMut(usize, &mut [u8], &mut usize) -> u32,
) -> Result<Vec<Vec<u8>>, Error> {
    let mut buffers = Vec::new();
    loop {
        let (mut size, number) = (0, BUFFERS + buffers.len());
        match part(number, &mut out[..SHORT], &mut size) {
            NO_PART => return Ok(buffers),
            BUFFER_TOO_SMALL => {
                let mut whole = vec![0; size];
                checked(part(number, &mut whole, &mut size))?;
                buffers.push(whole);
            }
            status => {
                checked(status)?;
                buffers.push(out[..size].to_vec());
            }
        }
    }
}

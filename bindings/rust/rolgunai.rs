//! Rolgunai, the proved comm manager, in a Rust program that isn't written in Rattle: a safe wrapper of the calls of
//! `bindings/c/rolgunai.h`. This file and its folder are to be copied; they need only the standard library, and are
//! linked with `librolgunai.a` or `librolgunai.so`.
//!
//! ```ignore
//! let mut manager = Manager::with_decimals(4096)?;
//! manager.register(0, Kind::WidgetEcho, "jupyter.widget")?;
//! let came = manager.message(0, header, metadata, content, &buffers)?;
//! for sent in came.sent { .. }
//! manager.push(0, id, br#"{"value":7}"#, b"[]", &[])?;
//! ```
//!
//! A message is given and sent by its parts, as the wire has them: JSON texts and binary buffers. A call gives its
//! outcome; one that isn't made gives an `Error`. Clients are numbered 0 to 3: hand in 0, unless the kernel tells its
//! frontends apart. What else a kernel has to know stands in `rolgunai.h`. Threads that share a manager have a `Client`
//! each.

// A program that copies this file uses a part of it: a manager, or clients.
#![allow(dead_code, unused_imports)]

mod client;
mod ffi;
mod outbox;
mod parts;
mod types;

pub use client::{Client, SharedOutcome};
pub use types::{answers, Answer, Error, Field, Kind, Outcome, Payload, Reason, Reply, Sent};

use parts::{checked, framed, LastResult, BUFFER_TOO_SMALL, NOT_UTF8, OK, SHORT};

/// The version of the library that is linked: 2,003,004 is 2.3.4.
pub fn version() -> u32 {
    ffi::rolgunai_version()
}

/// A manager, which is freed where it is dropped.
#[derive(Debug)]
pub struct Manager {
    // In a box, since a handle may not be copied, and a `Manager` is moved.
    handle: Box<ffi::Handle>,
    out: Vec<u8>,
}

// SAFETY: between two calls a handle may go to another thread (proved: `Handle` of `comm_c` is `Send`). A call takes
// `&mut self`, so that there is one at a time.
unsafe impl Send for Manager {}

impl Manager {
    /// A manager, of which at most `comms` comms (1 to 1,048,576) are open at a time. Any number of targets may be
    /// registered.
    pub fn new(comms: usize) -> Result<Manager, Error> {
        // SAFETY: the handle is zeroed, and only the library uses it from here on.
        Manager::made_by(|handle| unsafe { ffi::rolgunai_new(handle, comms) })
    }

    /// A manager as `new` makes it, but to which a number that isn't whole is a value too, kept and sent as the text
    /// that came.
    pub fn with_decimals(comms: usize) -> Result<Manager, Error> {
        // SAFETY: as in `new`.
        Manager::made_by(|handle| unsafe { ffi::rolgunai_new_with_decimals(handle, comms) })
    }

    fn made_by(make: impl FnOnce(&mut ffi::Handle) -> u32) -> Result<Manager, Error> {
        let mut handle = Box::new(ffi::Handle { manager: std::ptr::null_mut() });
        match make(&mut handle) {
            OK => Ok(Manager { handle, out: vec![0; SHORT] }),
            status => Err(Error::numbered(status)),
        }
    }

    /// Plays a message of a frontend by its parts: JSON texts, and its binary buffers.
    pub fn message(
        &mut self,
        client: u32,
        header: &[u8],
        metadata: &[u8],
        content: &[u8],
        buffers: &[&[u8]],
    ) -> Result<Outcome, Error> {
        let frames = framed(buffers);
        // SAFETY: each slice is readable for its length, and none is null, not even where it is empty; and so below.
        self.made(|handle, reply, sent| unsafe {
            ffi::rolgunai_handle_frames(
                handle,
                client,
                header.as_ptr(),
                header.len(),
                metadata.as_ptr(),
                metadata.len(),
                content.as_ptr(),
                content.len(),
                frames.as_ptr(),
                frames.len(),
                reply,
                sent,
            )
        })
    }

    /// Registers a new target under a name. One that has the name is replaced, and its comms are closed.
    pub fn register(&mut self, client: u32, kind: Kind, name: &str) -> Result<Outcome, Error> {
        // SAFETY: as in `message`.
        self.made(|handle, reply, sent| unsafe {
            ffi::rolgunai_register(handle, client, kind as u32, name.as_ptr(), name.len(), reply, sent)
        })
    }

    /// Takes the target of a name out, and closes its comms.
    pub fn unregister(&mut self, client: u32, name: &str) -> Result<Outcome, Error> {
        self.named(ffi::rolgunai_unregister, client, name)
    }

    /// Opens a widget of the kernel towards the frontends, with its state, a JSON object, and the buffers at the paths,
    /// a JSON list of lists of strings and indices. The comm's id is the UUID, with hyphens.
    pub fn launch(
        &mut self,
        client: u32,
        target: &str,
        uuid: &str,
        state: &[u8],
        paths: &[u8],
        buffers: &[&[u8]],
    ) -> Result<Outcome, Error> {
        let frames = framed(buffers);
        // SAFETY: as in `message`.
        self.made(|handle, reply, sent| unsafe {
            ffi::rolgunai_launch_frames(
                handle,
                client,
                target.as_ptr(),
                target.len(),
                uuid.as_ptr(),
                uuid.len(),
                state.as_ptr(),
                state.len(),
                paths.as_ptr(),
                paths.len(),
                frames.as_ptr(),
                frames.len(),
                reply,
                sent,
            )
        })
    }

    /// Changes these keys of a widget's state, and sends an `update` with just them.
    pub fn push(
        &mut self,
        client: u32,
        id: &str,
        state: &[u8],
        paths: &[u8],
        buffers: &[&[u8]],
    ) -> Result<Outcome, Error> {
        let frames = framed(buffers);
        // SAFETY: as in `message`.
        self.made(|handle, reply, sent| unsafe {
            ffi::rolgunai_push_frames(
                handle,
                client,
                id.as_ptr(),
                id.len(),
                state.as_ptr(),
                state.len(),
                paths.as_ptr(),
                paths.len(),
                frames.as_ptr(),
                frames.len(),
                reply,
                sent,
            )
        })
    }

    /// Sends a `comm_msg` with this data, a JSON object, on a comm, past its target.
    pub fn send(&mut self, client: u32, id: &str, data: &[u8], buffers: &[&[u8]]) -> Result<Outcome, Error> {
        let frames = framed(buffers);
        // SAFETY: as in `message`.
        self.made(|handle, reply, sent| unsafe {
            ffi::rolgunai_send_frames(
                handle,
                client,
                id.as_ptr(),
                id.len(),
                data.as_ptr(),
                data.len(),
                frames.as_ptr(),
                frames.len(),
                reply,
                sent,
            )
        })
    }

    /// Closes a comm, and sends a `comm_close`.
    pub fn close(&mut self, client: u32, id: &str) -> Result<Outcome, Error> {
        self.named(ffi::rolgunai_close, client, id)
    }

    /// Reads a comm's state, which the outcome carries.
    pub fn state(&mut self, id: &str) -> Result<Outcome, Error> {
        // SAFETY: as in `message`.
        self.made(|handle, reply, sent| unsafe { ffi::rolgunai_state(handle, id.as_ptr(), id.len(), reply, sent) })
    }

    /// Plays a message or a command, and gives the lines of its text, which may be none.
    pub fn line(&mut self, line: &[u8]) -> Result<&str, Error> {
        self.text_of(|handle, out, size| {
            // SAFETY: the line is readable and `out` writable for its length, they don't overlap, and none is null.
            unsafe { ffi::rolgunai_play_line(handle, line.as_ptr(), line.len(), out.as_mut_ptr(), out.len(), size) }
        })
    }

    /// What the last call that was made came to, again. At `Memory` it may be asked for once more.
    pub fn last(&mut self) -> Result<Outcome, Error> {
        let (mut reply, mut count) = (0, 0);
        // SAFETY: reply and count are writable.
        let status = unsafe { ffi::rolgunai_last_result(&mut *self.handle, &mut reply, &mut count) };
        checked(status)?;
        parts::outcome(&mut *self.handle, &mut self.out, reply, count)
    }

    /// The text of the last call that was made, as `line` gives it.
    pub fn text(&mut self) -> Result<&str, Error> {
        self.text_of(text)
    }

    fn made(&mut self, call: impl FnOnce(&mut ffi::Handle, &mut u32, &mut usize) -> u32) -> Result<Outcome, Error> {
        let (mut reply, mut count) = (0, 0);
        checked(call(&mut self.handle, &mut reply, &mut count))?;
        parts::outcome_once(&mut *self.handle, &mut self.out, reply, count)
    }

    fn named(&mut self, call: ffi::NamedCall, client: u32, name: &str) -> Result<Outcome, Error> {
        // SAFETY: as in `message`.
        self.made(|handle, reply, sent| unsafe { call(handle, client, name.as_ptr(), name.len(), reply, sent) })
    }

    fn text_of(&mut self, call: impl FnOnce(&mut ffi::Handle, &mut [u8], &mut usize) -> u32) -> Result<&str, Error> {
        let mut size = 0;
        let mut status = call(&mut self.handle, &mut self.out, &mut size);
        // The call is made, and its text, which may be asked for again, doesn't fit.
        if status == BUFFER_TOO_SMALL {
            self.out.resize(2 * size, 0);
            status = text(&mut self.handle, &mut self.out, &mut size);
        }
        checked(status)?;
        std::str::from_utf8(&self.out[..size]).map_err(|_| Error::Other(NOT_UTF8))
    }
}

fn text(handle: &mut ffi::Handle, out: &mut [u8], size: &mut usize) -> u32 {
    // SAFETY: `out` is writable for its length, and not null, not even where it is empty.
    unsafe { ffi::rolgunai_copy_last_text(handle, out.as_mut_ptr(), out.len(), size) }
}

impl LastResult for ffi::Handle {
    fn reason(&mut self, reason: &mut u32, index: &mut u64) -> u32 {
        // SAFETY: reason and index are writable.
        unsafe { ffi::rolgunai_last_reason(self, reason, index) }
    }

    fn part(&mut self, part: usize, out: &mut [u8], size: &mut usize) -> u32 {
        // SAFETY: `out` is writable for its length, and not null.
        unsafe { ffi::rolgunai_copy_reply_part(self, part, out.as_mut_ptr(), out.len(), size) }
    }

    fn sent_part(&mut self, message: usize, part: usize, out: &mut [u8], size: &mut usize) -> u32 {
        // SAFETY: as in `part`.
        unsafe { ffi::rolgunai_copy_sent_part(self, message, part, out.as_mut_ptr(), out.len(), size) }
    }
}

impl Drop for Manager {
    fn drop(&mut self) {
        // SAFETY: only the library has used the handle since it was made.
        unsafe { ffi::rolgunai_free(&mut *self.handle) };
    }
}

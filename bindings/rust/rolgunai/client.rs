//! The manager that threads share, over the calls of `bindings/c/rolgunai_client.h`.

use super::ffi;
use super::outbox::{Outbox, Turn};
use super::parts::{checked, framed, outcome, outcome_once, LastResult, OK, SHORT};
use super::types::{Error, Kind, Outcome, Reply, Sent};
use std::sync::{Arc, Mutex, MutexGuard, PoisonError};

const AGAIN: u32 = 14;

/// The replies of changes, where the call isn't a read.
const CHANGES: std::ops::RangeInclusive<u32> = 3..=16;

/// Readers may be in each place that a change could be shown in, but none stays.
const MOST_TRIES: u32 = 1000;

/// What the clients of a manager share.
#[derive(Debug, Default)]
struct Common {
    gate: Mutex<()>,
    outbox: Arc<Outbox>,
}

impl Common {
    fn inside(&self) -> MutexGuard<'_, ()> {
        self.gate.lock().unwrap_or_else(PoisonError::into_inner)
    }
}

/// A client of a manager that threads share: each thread has one of its own, made from another by `another`. It leaves
/// the manager where it is dropped; with the last one the manager ends.
///
/// ```ignore
/// let mut client = Client::with_decimals(1_048_576)?;
/// let mut mine = client.another()?;
/// thread::spawn(move || mine.push(&id, br#"{"value":7}"#, b"[]", &[]).map(|mut came| came.send(to_iopub)));
/// let mut came = client.message(header, metadata, content, &buffers)?;
/// came.send(move |message| { .. });    // in the order of the changes, whichever thread made them
/// ```
///
/// Changes are made under one mutex, which is let go before the call's parts are read; reads take no lock. A call that
/// gives an error wasn't made, and all is as it was; but `NoText` says that it was made, and that memory ran out for
/// what it came to: `last` gives that. What else a kernel has to know stands in `rolgunai.h` and `rolgunai_client.h`.
#[derive(Debug)]
pub struct Client {
    // In a box, since a handle may not be copied, and a `Client` is moved.
    handle: Box<ffi::Client>,
    common: Arc<Common>,
    out: Vec<u8>,
    /// Of a call whose outcome memory ran out for.
    owed: Option<Turn>,
}

// SAFETY: between two calls a client may go to another thread (`rolgunai_client.h`). A call takes `&mut self`, so that
// there is one at a time; calls of several clients may be made at once.
unsafe impl Send for Client {}

/// What a client's call came to, and where it stands in the history.
#[derive(Debug)]
pub struct SharedOutcome {
    pub outcome: Outcome,
    /// A change's number, from 1; of any other call, how many changes it comes after.
    pub seen: u64,
    /// Whether readers saw the client's last change right after it was made.
    pub is_shown: bool,
    turn: Option<Turn>,
}

impl SharedOutcome {
    /// Hands each message that is sent to `to`, once all that goes before is sent: here, or in the thread that sends
    /// that. An outcome that isn't sent holds up those behind it until it is dropped; one that was sends nothing more.
    pub fn send(&mut self, mut to: impl FnMut(Sent) + Send + 'static) {
        let messages = std::mem::take(&mut self.outcome.sent);
        match self.turn.take() {
            Some(turn) if !messages.is_empty() => turn.send(move || messages.into_iter().for_each(&mut to)),
            _ => (),
        }
    }
}

impl Client {
    /// A manager, of which at most `comms` comms (1 to 1,048,576) are open at a time, and its first client.
    pub fn new(comms: usize) -> Result<Client, Error> {
        // SAFETY: the handle is zeroed, and only the library uses it from here on.
        Client::made_by(Arc::default(), |handle| unsafe { ffi::rolgunai_open_shared(handle, comms) })
    }

    /// A manager as `new` makes it, but to which a number that isn't whole is a value too, kept and sent as the text
    /// that came.
    pub fn with_decimals(comms: usize) -> Result<Client, Error> {
        // SAFETY: as in `new`.
        Client::made_by(Arc::default(), |handle| unsafe { ffi::rolgunai_open_shared_with_decimals(handle, comms) })
    }

    /// Another client of the manager, for another thread.
    pub fn another(&mut self) -> Result<Client, Error> {
        let common = Arc::clone(&self.common);
        let _inside = self.common.inside();
        // SAFETY: as in `new`.
        Client::made_by(common, |other| unsafe { ffi::rolgunai_client_join(&mut *self.handle, other) })
    }

    fn made_by(common: Arc<Common>, make: impl FnOnce(&mut ffi::Client) -> u32) -> Result<Client, Error> {
        let mut handle = Box::new(ffi::Client { at: std::ptr::null_mut() });
        match make(&mut handle) {
            OK => Ok(Client { handle, common, out: vec![0; SHORT], owed: None }),
            status => Err(Error::numbered(status)),
        }
    }

    /// Plays a message of a frontend by its parts: JSON texts, and its binary buffers.
    pub fn message(
        &mut self,
        header: &[u8],
        metadata: &[u8],
        content: &[u8],
        buffers: &[&[u8]],
    ) -> Result<SharedOutcome, Error> {
        let frames = framed(buffers);
        // SAFETY: each slice is readable for its length, and none is null, not even where it is empty; and so below.
        self.changed(|handle, reply, sent| unsafe {
            ffi::rolgunai_client_handle_frames(
                handle,
                header.as_ptr(),
                header.len(),
                metadata.as_ptr(),
                metadata.len(),
                content.as_ptr(),
                content.len(),
                frames.as_ptr(),
                frames.len(),
                reply,
                sent,
            )
        })
    }

    /// Registers a new target under a name. One that has the name is replaced, and its comms are closed.
    pub fn register(&mut self, kind: Kind, name: &str) -> Result<SharedOutcome, Error> {
        // SAFETY: as in `message`.
        self.changed(|handle, reply, sent| unsafe {
            ffi::rolgunai_client_register(handle, kind as u32, name.as_ptr(), name.len(), reply, sent)
        })
    }

    /// Takes the target of a name out, and closes its comms.
    pub fn unregister(&mut self, name: &str) -> Result<SharedOutcome, Error> {
        self.named(ffi::rolgunai_client_unregister, name)
    }

    /// Opens a widget of the kernel towards the frontends: see `Manager::launch`.
    pub fn launch(
        &mut self,
        target: &str,
        uuid: &str,
        state: &[u8],
        paths: &[u8],
        buffers: &[&[u8]],
    ) -> Result<SharedOutcome, Error> {
        let frames = framed(buffers);
        // SAFETY: as in `message`.
        self.changed(|handle, reply, sent| unsafe {
            ffi::rolgunai_client_launch_frames(
                handle,
                target.as_ptr(),
                target.len(),
                uuid.as_ptr(),
                uuid.len(),
                state.as_ptr(),
                state.len(),
                paths.as_ptr(),
                paths.len(),
                frames.as_ptr(),
                frames.len(),
                reply,
                sent,
            )
        })
    }

    /// Changes these keys of a widget's state, and sends an `update` with just them.
    pub fn push(&mut self, id: &str, state: &[u8], paths: &[u8], buffers: &[&[u8]]) -> Result<SharedOutcome, Error> {
        let frames = framed(buffers);
        // SAFETY: as in `message`.
        self.changed(|handle, reply, sent| unsafe {
            ffi::rolgunai_client_push_frames(
                handle,
                id.as_ptr(),
                id.len(),
                state.as_ptr(),
                state.len(),
                paths.as_ptr(),
                paths.len(),
                frames.as_ptr(),
                frames.len(),
                reply,
                sent,
            )
        })
    }

    /// Sends a `comm_msg` with this data, a JSON object, on a comm, past its target.
    pub fn send(&mut self, id: &str, data: &[u8], buffers: &[&[u8]]) -> Result<SharedOutcome, Error> {
        let frames = framed(buffers);
        // SAFETY: as in `message`.
        self.changed(|handle, reply, sent| unsafe {
            ffi::rolgunai_client_send_frames(
                handle,
                id.as_ptr(),
                id.len(),
                data.as_ptr(),
                data.len(),
                frames.as_ptr(),
                frames.len(),
                reply,
                sent,
            )
        })
    }

    /// Closes a comm, and sends a `comm_close`.
    pub fn close(&mut self, id: &str) -> Result<SharedOutcome, Error> {
        self.named(ffi::rolgunai_client_close, id)
    }

    /// Reads a comm's state, which the outcome carries, after `since` changes or more, and never before what this
    /// client has seen; and so below. `Again` says that there are fewer changes.
    pub fn state(&mut self, id: &str, since: u64) -> Result<SharedOutcome, Error> {
        self.named_read(ffi::rolgunai_client_state, id, since)
    }

    /// Reads the name of an open comm's target: the outcome's, with the reply `Target`, or else `NoComm`.
    pub fn target(&mut self, id: &str, since: u64) -> Result<SharedOutcome, Error> {
        self.named_read(ffi::rolgunai_client_target, id, since)
    }

    /// Whether a comm is open.
    pub fn is_open(&mut self, id: &str, since: u64) -> Result<bool, Error> {
        Ok(self.target(id, since)?.outcome.reply == Reply::Target)
    }

    /// Lists the open comms, in a `comm_info_reply`.
    pub fn infos(&mut self, since: u64) -> Result<SharedOutcome, Error> {
        // SAFETY: reply and sent are writable.
        self.read(|handle, reply, sent| unsafe { ffi::rolgunai_client_infos(handle, since, reply, sent) })
    }

    /// Lists those of one target.
    pub fn infos_of(&mut self, target: &str, since: u64) -> Result<SharedOutcome, Error> {
        self.named_read(ffi::rolgunai_client_infos_of, target, since)
    }

    /// What this client's last call came to, again. At `Memory` it may be asked for once more. After `NoText` it has
    /// the call's turn to send, which the next other call gives up.
    pub fn last(&mut self) -> Result<SharedOutcome, Error> {
        let (mut reply, mut count) = (0, 0);
        // SAFETY: reply and count are writable.
        checked(unsafe { ffi::rolgunai_client_last_result(&mut *self.handle, &mut reply, &mut count) })?;
        let outcome = outcome(&mut *self.handle, &mut self.out, reply, count)?;
        let (seen, is_shown) = self.position()?;
        Ok(SharedOutcome { outcome, seen, is_shown, turn: self.owed.take() })
    }

    /// How many changes this client has seen.
    pub fn seen(&mut self) -> Result<u64, Error> {
        Ok(self.position()?.0)
    }

    fn position(&mut self) -> Result<(u64, bool), Error> {
        let (mut seen, mut shown) = (0, 0);
        // SAFETY: seen and shown are writable.
        checked(unsafe { ffi::rolgunai_client_seen(&mut *self.handle, &mut seen, &mut shown) })?;
        Ok((seen, shown != 0))
    }

    fn changed(
        &mut self,
        call: impl FnOnce(&mut ffi::Client, &mut u32, &mut usize) -> u32,
    ) -> Result<SharedOutcome, Error> {
        let (mut reply, mut count) = (0, 0);
        let inside = self.common.inside();
        let status = call(&mut self.handle, &mut reply, &mut count);
        drop(inside);
        checked(status)?;
        self.came(reply, count, CHANGES.contains(&reply))
    }

    fn named(&mut self, call: ffi::NamedClientCall, name: &str) -> Result<SharedOutcome, Error> {
        // SAFETY: as in `message`.
        self.changed(|handle, reply, sent| unsafe { call(handle, name.as_ptr(), name.len(), reply, sent) })
    }

    fn read(&mut self, call: impl Fn(&mut ffi::Client, &mut u32, &mut usize) -> u32) -> Result<SharedOutcome, Error> {
        let (mut reply, mut count) = (0, 0);
        for _ in 1..MOST_TRIES {
            match call(&mut self.handle, &mut reply, &mut count) {
                AGAIN => self.show()?,
                status => {
                    checked(status)?;
                    return self.came(reply, count, false);
                }
            }
        }
        Err(Error::Again)
    }

    fn named_read(&mut self, call: ffi::NamedRead, name: &str, since: u64) -> Result<SharedOutcome, Error> {
        // SAFETY: as in `message`.
        self.read(|handle, reply, sent| unsafe { call(handle, since, name.as_ptr(), name.len(), reply, sent) })
    }

    /// Shows the last change, or lets the readers go on that are in its way.
    fn show(&mut self) -> Result<(), Error> {
        let mut shown = 0;
        let inside = self.common.inside();
        // SAFETY: shown is writable.
        let status = unsafe { ffi::rolgunai_client_show(&mut *self.handle, &mut shown) };
        drop(inside);
        checked(status)?;
        if shown == 0 {
            std::thread::yield_now();
        }
        Ok(())
    }

    /// The call is made: what it came to, with its turn, which is kept for `last` where memory runs out.
    fn came(&mut self, reply: u32, count: usize, is_change: bool) -> Result<SharedOutcome, Error> {
        let (seen, is_shown) = self.position()?;
        self.owed = (is_change || count > 0).then(|| Turn::of(&self.common.outbox, seen, is_change));
        let outcome = outcome_once(&mut *self.handle, &mut self.out, reply, count)?;
        Ok(SharedOutcome { outcome, seen, is_shown, turn: self.owed.take() })
    }
}

impl LastResult for ffi::Client {
    fn reason(&mut self, reason: &mut u32, index: &mut u64) -> u32 {
        // SAFETY: reason and index are writable.
        unsafe { ffi::rolgunai_client_last_reason(self, reason, index) }
    }

    fn part(&mut self, part: usize, out: &mut [u8], size: &mut usize) -> u32 {
        // SAFETY: `out` is writable for its length, and not null.
        unsafe { ffi::rolgunai_client_copy_reply_part(self, part, out.as_mut_ptr(), out.len(), size) }
    }

    fn sent_part(&mut self, message: usize, part: usize, out: &mut [u8], size: &mut usize) -> u32 {
        // SAFETY: as in `part`.
        unsafe { ffi::rolgunai_client_copy_sent_part(self, message, part, out.as_mut_ptr(), out.len(), size) }
    }
}

impl Drop for Client {
    fn drop(&mut self) {
        // SAFETY: only the library has used the handle since it was made.
        unsafe { ffi::rolgunai_client_free(&mut *self.handle) };
    }
}

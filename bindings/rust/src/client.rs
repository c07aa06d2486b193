//! A client's end of a session: it keeps an editor's documents, and each call returns the frame to send.

use crate::codes::codes;
use crate::received::Received;
use crate::session::session;
use crate::{
    batch, changes_of, demand, demand_change, demand_edits, ffi, passed_edits, Change, Encoding, Error, Limits, Position,
    TextEdit,
};
use std::fmt;

/// How a client is set up. UTF-16 is always offered, after UTF-8 and before UTF-32: an order that LSP reads as a preference.
#[derive(Clone, Copy, Debug, Default, PartialEq, Eq)]
pub struct Settings {
    /// Its limits: of a message, of the client's and of the server's.
    pub limits: Limits,
    /// Whether UTF-8 is offered.
    pub utf8: bool,
    /// Whether UTF-32 is offered.
    pub utf32: bool,
}

/// The phase of a session.
#[derive(Clone, Copy, Debug, PartialEq, Eq)]
pub enum Phase {
    /// Nothing was sent.
    New,
    /// `initialize` was sent.
    Asked,
    /// Documents are opened, edited and closed.
    Ready,
    /// `shutdown` was sent.
    Closing,
    /// `shutdown` was answered; only `exit` is left.
    Closed,
    /// `exit` was sent.
    Done,
    /// The server sent what no session can continue with.
    Failed(Reason),
}

codes! {
    /// Why a session can't continue.
    Reason {
        /// No message, a response to no request of the client, or one that can't be read.
        NotAnAnswer = NOT_AN_ANSWER,
        /// An error response to `initialize` or `shutdown`.
        ErrorAnswer = ERROR_ANSWER,
        /// The server doesn't want to be notified of documents, or of changes.
        NoSync = NO_SYNC,
        /// The server announces an encoding that wasn't offered.
        BadEncoding = BAD_ENCODING,
    }
}

/// What a client did with a message of the server.
#[derive(Clone, Debug, PartialEq, Eq)]
#[non_exhaustive]
pub enum Delivered {
    /// A frame to send: `initialized`, or an error response to a request.
    Send(Vec<u8>),
    /// The response to `shutdown`.
    Noted,
    /// A notification.
    Ignored,
    /// The session can't continue; the documents stay.
    BadServer(Reason),
}

/// A client's end of a session, without input and output of its own: each call returns the frame to send, and bytes that
/// were read go in by [`Client::receive`].
///
/// ```
/// use laspidru::client::{Client, Phase, Settings};
///
/// let mut client = Client::new(&Settings::default())?;
/// assert!(client.start()?.starts_with(b"Content-Length: "));
/// assert_eq!(client.phase(), Phase::Asked);
/// # Ok::<(), laspidru::Error>(())
/// ```
pub struct Client {
    handle: ffi::Handle,
    received: Received,
}

impl Client {
    /// Returns a client at the start of a session.
    ///
    /// # Errors
    /// [`Error::BadLimit`] if a limit is out of its range, else [`Error::OutOfMemory`].
    pub fn new(settings: &Settings) -> Result<Self, Error> {
        let settings = ffi::ClientSettings {
            max_body: settings.limits.max_body,
            max_text: settings.limits.max_text,
            max_docs: settings.limits.max_docs,
            max_changes: settings.limits.max_changes,
            utf8: settings.utf8,
            utf32: settings.utf32,
            lenient: settings.limits.lenient,
        };
        let handle = ffi::Handle::empty();
        demand(handle.client_new(&settings))?;
        Ok(Client { handle, received: Received::default() })
    }

    /// Begins the session, and returns the frame of `initialize`.
    ///
    /// # Errors
    /// [`Error::WrongPhase`] but in [`Phase::New`], and [`Error::OutOfMemory`].
    pub fn start(&mut self) -> Result<Vec<u8>, Error> {
        self.call(ffi::laspidru_client_start)
    }

    /// Opens a document, and returns the frame of `textDocument/didOpen`.
    ///
    /// # Errors
    /// [`Error::WrongPhase`] but in [`Phase::Ready`], [`Error::Refused`] where the documents refuse it or the message
    /// would be too long, and [`Error::OutOfMemory`].
    pub fn open(&mut self, uri: &str, language: &str, version: i32, text: &str) -> Result<Vec<u8>, Error> {
        let mut len = 0;
        self.frame(self.handle.client_did_open(uri, language, version, text, &mut len), len)
    }

    /// Changes a document, and returns the frame of one `textDocument/didChange`, with the canonical batch, or where the server
    /// asked for it with the whole text. Positions count units of [`Client::encoding`].
    ///
    /// # Errors
    /// As those of [`Client::open`]; and [`Error::InsideCharacter`] or [`Error::ReversedRange`] of the first change
    /// that has no result.
    pub fn edit(&mut self, uri: &str, version: i32, changes: &[Change]) -> Result<Vec<u8>, Error> {
        let (edits, texts) = batch(changes);
        let (mut fault, mut len) = (ffi::Fault::default(), 0);
        demand_change(self.handle.client_did_change(uri, version, &edits, &texts, &mut fault, &mut len), &fault)?;
        Ok(self.handle.session_frame(len))
    }

    /// Closes a document, and returns the frame of `textDocument/didClose`.
    ///
    /// # Errors
    /// As those of [`Client::open`].
    pub fn close(&mut self, uri: &str) -> Result<Vec<u8>, Error> {
        let mut len = 0;
        self.frame(self.handle.client_did_close(uri, &mut len), len)
    }

    /// Asks the server to shut down, and returns the frame of `shutdown`.
    ///
    /// # Errors
    /// [`Error::WrongPhase`] but in [`Phase::Ready`], and [`Error::OutOfMemory`].
    pub fn shutdown(&mut self) -> Result<Vec<u8>, Error> {
        self.call(ffi::laspidru_client_shutdown)
    }

    /// Ends the session, once `shutdown` was answered, and returns the frame of `exit`.
    ///
    /// # Errors
    /// [`Error::WrongPhase`] but in [`Phase::Closed`], and [`Error::OutOfMemory`].
    pub fn exit(&mut self) -> Result<Vec<u8>, Error> {
        self.call(ffi::laspidru_client_exit)
    }

    /// Takes bytes that were read. [`Client::next_message`] then has the messages that end in them.
    pub fn receive(&mut self, bytes: &[u8]) {
        self.received.add(bytes);
    }

    /// Handles the next message that is whole, and returns it with what the client did, or `None` if the rest of it is to come.
    ///
    /// # Errors
    /// [`Error::Frame`] if the stream is faulty, and [`Error::WrongPhase`] for a message in a phase in which none is
    /// awaited. After [`Error::OutOfMemory`] the same call continues.
    pub fn next_message(&mut self) -> Result<Option<(Vec<u8>, Delivered)>, Error> {
        Ok(self.received.take_by(&self.handle)?.map(|(body, answer)| (body, self.delivered(&answer))))
    }

    /// Handles the body of a message of the server.
    ///
    /// # Errors
    /// [`Error::WrongPhase`] in [`Phase::New`], [`Phase::Done`] and [`Phase::Failed`], and [`Error::OutOfMemory`].
    pub fn deliver(&mut self, body: &[u8]) -> Result<Delivered, Error> {
        let mut answer = ffi::Answer::default();
        demand(self.handle.session_deliver(body, &mut answer))?;
        Ok(self.delivered(&answer))
    }

    fn delivered(&self, answer: &ffi::Answer) -> Delivered {
        match answer.kind {
            ffi::REPLIED => Delivered::Send(self.handle.session_frame(answer.reply_len)),
            ffi::NOTED => Delivered::Noted,
            ffi::IGNORED => Delivered::Ignored,
            ffi::BAD_SERVER => Delivered::BadServer(reason(answer.reason)),
            kind => unreachable!("a delivery of kind {kind}"),
        }
    }

    /// Returns the phase of the session.
    pub fn phase(&self) -> Phase {
        let state = self.handle.state();
        match state.phase {
            ffi::PHASE_NEW => Phase::New,
            ffi::PHASE_ASKED => Phase::Asked,
            ffi::PHASE_READY => Phase::Ready,
            ffi::PHASE_CLOSING => Phase::Closing,
            ffi::PHASE_CLOSED => Phase::Closed,
            ffi::PHASE_DONE => Phase::Done,
            ffi::PHASE_FAILED => Phase::Failed(reason(state.reason)),
            phase => unreachable!("a client in phase {phase}"),
        }
    }

    fn call(&mut self, call: ffi::Lifecycle) -> Result<Vec<u8>, Error> {
        let mut len = 0;
        self.frame(self.handle.client_call(call, &mut len), len)
    }

    fn frame(&self, code: u32, len: usize) -> Result<Vec<u8>, Error> {
        demand(code)?;
        Ok(self.handle.session_frame(len))
    }
}

session!(Client);

impl fmt::Debug for Client {
    fn fmt(&self, f: &mut fmt::Formatter<'_>) -> fmt::Result {
        let (phase, documents) = (self.phase(), self.document_count());
        f.debug_struct("Client").field("phase", &phase).field("document_count", &documents).finish()
    }
}

fn reason(code: u32) -> Reason {
    Reason::of(code).expect("a code for which a session fails")
}

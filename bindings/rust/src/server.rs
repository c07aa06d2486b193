//! A server's end of a session: bytes or bodies of messages go in, and it keeps the open documents.

use crate::codes::codes;
use crate::received::Received;
use crate::session::session;
use crate::{batch, changes_of, demand, demand_edits, ffi, passed_edits, Change, Encoding, Error, Limits, Position, TextEdit};
use std::fmt;

/// How a server is set up. The default is that of `lspsync serve`.
#[derive(Clone, Copy, Debug, Default, PartialEq, Eq)]
pub struct Settings {
    /// Its limits. [`Server::handle`] takes a body of any length.
    pub limits: Limits,
    /// Which encoding of positions the server takes.
    pub choice: EncodingChoice,
    /// How the client is asked to send changes. Both forms are taken.
    pub sync: ChangeForm,
}

/// Which encoding of positions a server takes.
#[derive(Clone, Copy, Debug, PartialEq, Eq)]
pub enum EncodingChoice {
    /// The preferred one where the client offers it, else UTF-16.
    Negotiated {
        /// The encoding that the server takes where it can.
        prefer: Encoding,
    },
    /// This one, whatever the client offers. LSP 3.17 allows one that was offered, or UTF-16: fix another only for logs, or where you
    /// write the editor too.
    Fixed(Encoding),
}

impl Default for EncodingChoice {
    fn default() -> Self {
        EncodingChoice::Negotiated { prefer: Encoding::Utf16 }
    }
}

/// How a server asks the client to send changes.
#[derive(Clone, Copy, Debug, Default, PartialEq, Eq)]
pub enum ChangeForm {
    /// As ranges with their texts.
    #[default]
    Incremental,
    /// As whole texts.
    Full,
}

/// What a server answers to a message.
#[derive(Clone, Debug, PartialEq, Eq)]
#[non_exhaustive]
pub enum Answer {
    /// A frame to send, with its header. An error reply has its code (LSP 3.17, ErrorCodes).
    Reply {
        /// The message with its header.
        frame: Vec<u8>,
        /// The code of an error reply.
        code: Option<i32>,
    },
    /// The open documents changed.
    Changed,
    /// A notification before `initialize` or after `shutdown`.
    Dropped,
    /// A response, or a notification that is yours to handle.
    Ignored,
    /// A document notification that changed nothing.
    Refused(Refusal),
    /// The session ends, and the process is to end with this status: 0 after `shutdown`, else 1.
    Exit(u8),
}

codes! {
    /// Why a document notification of the client, or a client's call on a document, was refused.
    Refusal {
        /// The params are not those of the notification.
        InvalidParams = INVALID_PARAMS,
        /// A text has more than 1,073,741,824 bytes or `max_text`, or a message to be sent more than `max_body`.
        TooLong = TOO_LONG,
        /// An end of a range lies inside a character.
        InsideCharacter = INSIDE_CHARACTER,
        /// A range starts after its end.
        ReversedRange = REVERSED_RANGE,
        /// No document of this URI is open.
        NotOpen = NOT_OPEN,
        /// A document of this URI is open already.
        AlreadyOpen = ALREADY_OPEN,
        /// `max_docs` documents are open.
        TooManyDocuments = TOO_MANY_DOCUMENTS,
        /// The version is not greater than the current one.
        StaleVersion = STALE_VERSION,
        /// There are more than `max_changes` changes, or too long ones.
        TooManyChanges = TOO_MANY_CHANGES,
    }
}

/// A server's end of a session, without input and output of its own: bytes that were read go in, frames to send come out.
///
/// ```
/// use laspidru::server::{Answer, Server, Settings};
///
/// let mut server = Server::new(&Settings::default())?;
/// let body = br#"{"jsonrpc":"2.0","id":1,"method":"initialize","params":{"capabilities":{}}}"#;
/// assert!(matches!(server.handle(body)?, Answer::Reply { code: None, .. }));
/// assert_eq!(server.document_count(), 0);
/// # Ok::<(), laspidru::Error>(())
/// ```
pub struct Server {
    handle: ffi::Handle,
    received: Received,
}

impl Server {
    /// Returns a server at the start of a session.
    ///
    /// # Errors
    /// [`Error::BadLimit`] if a limit is out of its range, else [`Error::OutOfMemory`].
    pub fn new(settings: &Settings) -> Result<Self, Error> {
        let (encoding, is_fixed) = match settings.choice {
            EncodingChoice::Negotiated { prefer } => (prefer, false),
            EncodingChoice::Fixed(encoding) => (encoding, true),
        };
        let settings = ffi::Settings {
            max_body: settings.limits.max_body,
            max_text: settings.limits.max_text,
            max_docs: settings.limits.max_docs,
            max_changes: settings.limits.max_changes,
            encoding: encoding as u32,
            is_fixed,
            whole_texts: settings.sync == ChangeForm::Full,
            lenient: settings.limits.lenient,
        };
        let handle = ffi::Handle::empty();
        demand(handle.server_new(&settings))?;
        Ok(Server { handle, received: Received::default() })
    }

    /// Takes bytes that were read. [`Server::next_message`] then has the messages that end in them.
    pub fn receive(&mut self, bytes: &[u8]) {
        self.received.add(bytes);
    }

    /// Handles the next message that is whole, and returns it with what the server did, or `None` if the rest of it is to come.
    ///
    /// A request that the server doesn't handle is answered by the code -32601: it is yours, and your answer goes in place of
    /// that frame. Until the next call the documents are those that the request speaks of.
    ///
    /// # Errors
    /// [`Error::Frame`] if the stream is faulty, and [`Error::Ended`] for a message after `exit`. After
    /// [`Error::OutOfMemory`] the same call continues.
    pub fn next_message(&mut self) -> Result<Option<(Vec<u8>, Answer)>, Error> {
        Ok(self.received.take_by(&self.handle)?.map(|(body, answer)| (body, self.answered(&answer))))
    }

    /// Whether the stream may end here: no byte of a message is left.
    pub fn is_at_rest(&self) -> bool {
        self.received.is_at_rest()
    }

    /// Answers the body of a message: the bytes after its header.
    ///
    /// # Errors
    /// [`Error::Ended`] after `exit`, and [`Error::OutOfMemory`]: then the same body can be passed again.
    pub fn handle(&mut self, body: &[u8]) -> Result<Answer, Error> {
        let mut answer = ffi::Answer::default();
        demand(self.handle.session_deliver(body, &mut answer))?;
        Ok(self.answered(&answer))
    }

    fn answered(&self, answer: &ffi::Answer) -> Answer {
        match answer.kind {
            ffi::REPLIED => Answer::Reply {
                frame: self.handle.session_frame(answer.reply_len),
                code: (answer.error != 0).then_some(answer.error),
            },
            ffi::CHANGED => Answer::Changed,
            ffi::DROPPED => Answer::Dropped,
            ffi::IGNORED => Answer::Ignored,
            ffi::REFUSED => Answer::Refused(refusal(answer.reason)),
            ffi::EXITED => Answer::Exit(u8::from(answer.status != 0)),
            kind => unreachable!("an answer of kind {kind}"),
        }
    }
}

session!(Server);

impl fmt::Debug for Server {
    fn fmt(&self, f: &mut fmt::Formatter<'_>) -> fmt::Result {
        f.debug_struct("Server").field("document_count", &self.document_count()).finish()
    }
}

pub(crate) fn refusal(reason: u32) -> Refusal {
    Refusal::of(reason).expect("a code for which a notification or a call is refused")
}

//! Applies the changes of LSP 3.17 to a server's or an editor's texts, over a formally verified library.
//!
//! - [`Document`] is a text with its lines. It makes the changes of a `didChange` or text edits, and finds positions.
//! - [`Server`] keeps the documents of a session behind your server: bytes that were read go in, and replies come out.
//! - [`Client`] keeps the documents of an editor: each call returns the frame to send.
//! - [`Framer`] takes a stream apart into the bodies of its messages.
//! - [`log`] has the commands of `lspsync` on the bytes of a log.
//!
//! The feature `lsp-types` has `From` both ways between positions, ranges, text edits and changes and that crate's types.
//!
//! ```
//! use laspidru::{Change, Document, Encoding, Position, Range};
//!
//! let mut document = Document::new("abc\n", Encoding::Utf16)?;
//! let range = Range { start: Position { line: 0, character: 1 }, end: Position { line: 0, character: 2 } };
//! document.change(&[Change { range: Some(range), text: "X".into() }])?;
//! assert_eq!(document.text(), "aXc\n");
//! # Ok::<(), laspidru::Error>(())
//! ```
//!
//! # The library
//!
//! The first `liblaspidru.a` of these is linked:
//!
//! 1. the one in the folder that the variable `LASPIDRU_LIB_DIR` names by an absolute path;
//! 2. if this package has a folder `lib`, as the crate has and the repository hasn't, the target's in it;
//! 3. the installed one, which `pkg-config` finds.
//!
//! If `lib` has none for the target, the build ends, and names the targets that it has. Where there is no archive at all, cargo warns
//! of that before the linker fails.

#![deny(unsafe_code)]
#![warn(missing_docs)]

use std::cell::OnceCell;
use std::fmt;

pub mod client;
mod codes;
#[allow(unsafe_code)]
mod ffi;
mod framer;
pub mod log;
#[cfg(feature = "lsp-types")]
mod lsp;
mod received;
pub mod server;
mod session;

pub use client::Client;
pub use codes::BadLimit;
pub use framer::Framer;
pub use server::{Refusal, Server};

use server::refusal;

/// Returns the version of the library that is linked, as `0.1.0`.
pub fn version() -> String {
    let number = ffi::version();
    format!("{}.{}.{}", number / 10_000, number / 100 % 100, number % 100)
}

/// Returns the URI of the document that a message opens, changes or closes, or `None` if it does none of these or its parameters
/// can't be read. The body is that of [`Server::next_message`].
///
/// # Errors
/// [`Error::OutOfMemory`].
pub fn message_uri(body: &[u8]) -> Result<Option<String>, Error> {
    ffi::message_uri(body)
}

/// The limits of a server, a client or a command on a log. The default is that of `lspsync`.
#[derive(Clone, Copy, Debug, PartialEq, Eq)]
pub struct Limits {
    /// 4,096 to 1,073,741,824 bytes of a message of the stream, or of a log.
    pub max_body: usize,
    /// Up to 1,073,741,824 bytes of a document.
    pub max_text: usize,
    /// 1 to 65,536 open documents.
    pub max_docs: usize,
    /// 1 to 1,048,576 changes in one message.
    pub max_changes: usize,
    /// Whether a change of any version is taken, and an open document may be opened again.
    pub lenient: bool,
}

impl Default for Limits {
    fn default() -> Self {
        Limits { max_body: 16_777_216, max_text: 16_777_216, max_docs: 1_024, max_changes: 65_536, lenient: false }
    }
}

/// What a position's character counts.
#[derive(Clone, Copy, Debug, Default, PartialEq, Eq, Hash)]
pub enum Encoding {
    /// Bytes.
    Utf8 = 8,
    /// Code units of 16 bits: what both ends count unless they agree otherwise.
    #[default]
    Utf16 = 16,
    /// Whole characters.
    Utf32 = 32,
}

impl Encoding {
    /// The encoding of a number of laspidru.h.
    fn of(number: u32) -> Option<Self> {
        [Encoding::Utf8, Encoding::Utf16, Encoding::Utf32].into_iter().find(|&encoding| encoding as u32 == number)
    }
}

/// A position: a line, counted from 0, and the units before it in that line.
#[repr(C)]
#[derive(Clone, Copy, Debug, Default, PartialEq, Eq, PartialOrd, Ord, Hash)]
pub struct Position {
    /// The line, counted from 0.
    pub line: u32,
    /// The units before the position in its line, in the encoding that both ends agreed on.
    pub character: u32,
}

/// A range. `end` is exclusive.
#[derive(Clone, Copy, Debug, Default, PartialEq, Eq, Hash)]
pub struct Range {
    /// Where it starts.
    pub start: Position,
    /// The position after it.
    pub end: Position,
}

/// A change of a `didChange`: a text in place of a range, or of the whole text.
#[derive(Clone, Debug, PartialEq, Eq)]
pub struct Change {
    /// The range that is replaced; `None` for the whole text.
    pub range: Option<Range>,
    /// The text that replaces it.
    pub text: String,
}

/// A text edit, as a formatter returns it: a text in place of a range.
#[derive(Clone, Debug, PartialEq, Eq)]
pub struct TextEdit {
    /// The range that is replaced, in the text before all edits.
    pub range: Range,
    /// The text that replaces it.
    pub new_text: String,
}

/// Why a call was refused. It changed nothing, but that no more is taken of a faulty stream. Changes and text edits are named by their
/// index in the list, counted from 0.
#[derive(Clone, Copy, Debug, PartialEq, Eq)]
#[non_exhaustive]
pub enum Error {
    /// The same call can be made again.
    OutOfMemory,
    /// An end of the range of the change at this index lies inside a character.
    InsideCharacter {
        /// The change's index.
        change: usize,
        /// Whether it is the range's end, and not its start.
        at_end: bool,
    },
    /// The range of the change at this index starts after its end.
    ReversedRange {
        /// The change's index.
        change: usize,
    },
    /// An end of the range of the text edit at this index lies inside a character.
    EditInsideCharacter {
        /// The edit's index.
        edit: usize,
        /// Whether it is the range's end, and not its start.
        at_end: bool,
    },
    /// The range of the text edit at this index starts after its end.
    EditReversedRange {
        /// The edit's index.
        edit: usize,
    },
    /// The text edit at the index `second` starts before the one at `first` ends.
    Overlap {
        /// The index of the edit that starts first.
        first: usize,
        /// The index of the other.
        second: usize,
    },
    /// A position or an offset lies inside a character, or an offset inside a CRLF or past the end.
    NoPosition,
    /// The documents refuse it, or its message would be too long.
    Refused(Refusal),
    /// A client's call isn't allowed in this phase of the session.
    WrongPhase,
    /// The session of a server ended by `exit`.
    Ended,
    /// A limit is out of its range.
    BadLimit(BadLimit),
    /// The stream is faulty: the number of F1 to F7, and the byte offset on which it was decided. No more is taken.
    Frame {
        /// The fault's number, from 1 to 7.
        number: u32,
        /// The offset in the stream.
        offset: u64,
    },
    /// The stream was faulty before.
    Failed,
}

impl Error {
    /// The error of a code, and of the change that it is about.
    fn of(code: u32, fault: &ffi::Fault) -> Self {
        match code {
            ffi::OUT_OF_MEMORY => Error::OutOfMemory,
            ffi::INSIDE_CHARACTER => Error::InsideCharacter { change: fault.change, at_end: fault.at_end },
            ffi::REVERSED_RANGE => Error::ReversedRange { change: fault.change },
            ffi::WRONG_PHASE => Error::WrongPhase,
            ffi::ENDED => Error::Ended,
            ffi::FAILED => Error::Failed,
            code => BadLimit::of(code).map_or_else(|| Error::Refused(refusal(code)), Error::BadLimit),
        }
    }
}

impl fmt::Display for Error {
    fn fmt(&self, f: &mut fmt::Formatter<'_>) -> fmt::Result {
        let side = |at_end| if at_end { "end" } else { "start" };
        match *self {
            Error::OutOfMemory => f.write_str(&codes::why(ffi::OUT_OF_MEMORY)),
            Error::InsideCharacter { change, at_end } => {
                write!(f, "change at index {change}: the {} of its range lies inside a character", side(at_end))
            }
            Error::ReversedRange { change } => write!(f, "change at index {change}: the range is reversed"),
            Error::EditInsideCharacter { edit, at_end } => {
                write!(f, "edit at index {edit}: the {} of its range lies inside a character", side(at_end))
            }
            Error::EditReversedRange { edit } => write!(f, "edit at index {edit}: the range is reversed"),
            Error::Overlap { first, second } => write!(f, "edits at the indexes {first} and {second} overlap"),
            Error::NoPosition => write!(f, "the position or offset is inside a character, inside a CRLF or past the end"),
            Error::Refused(refusal) => write!(f, "{refusal}"),
            Error::WrongPhase => f.write_str(&codes::why(ffi::WRONG_PHASE)),
            Error::Ended => f.write_str(&codes::why(ffi::ENDED)),
            Error::BadLimit(limit) => write!(f, "{limit}"),
            Error::Frame { number, offset } => write!(f, "frame fault F{number} at byte offset {offset}"),
            Error::Failed => f.write_str(&codes::why(ffi::FAILED)),
        }
    }
}

impl std::error::Error for Error {}

/// A text with its lines.
pub struct Document {
    handle: ffi::Handle,
    // The text, once it was asked for after the last change.
    text: OnceCell<String>,
    encoding: Encoding,
}

impl Document {
    /// Returns a document of a text. Positions count units of `encoding`.
    ///
    /// # Errors
    /// [`Refusal::TooLong`] if the text has more than 1,073,741,824 bytes, else [`Error::OutOfMemory`].
    pub fn new(text: &str, encoding: Encoding) -> Result<Self, Error> {
        let handle = ffi::Handle::empty();
        demand(handle.document_new(text))?;
        Ok(Document { handle, text: OnceCell::new(), encoding })
    }

    /// Returns the text. The first call after a change copies it out of the library.
    pub fn text(&self) -> &str {
        self.text.get_or_init(|| self.copied(0, self.length().bytes))
    }

    /// Returns how many lines the text has: one more than it has line ends.
    pub fn line_count(&self) -> usize {
        self.length().lines
    }

    /// Returns a line, counted from 0, without its line end, or `None` if the text has no such line. The rest of the text is not
    /// read.
    pub fn line(&self, number: u32) -> Option<String> {
        let mut line = ffi::Line::default();
        match self.handle.document_line(number, &mut line) {
            ffi::OK => Some(self.copied(line.start, line.end - line.start)),
            ffi::OUT_OF_RANGE => None,
            code => unreachable!("code {code} of a full handle"),
        }
    }

    /// Makes the changes of a `didChange`, in order, or none of them.
    ///
    /// # Errors
    /// [`Error::InsideCharacter`] or [`Error::ReversedRange`] of the first change that has no result, [`Refusal::TooLong`] if the text
    /// would have, or the changes have, more than 1,073,741,824 bytes; or [`Error::OutOfMemory`].
    pub fn change(&mut self, changes: &[Change]) -> Result<(), Error> {
        let (edits, texts) = batch(changes);
        let mut fault = ffi::Fault::default();
        let code = self.handle.document_change(self.encoding as u32, &edits, &texts, &mut fault);
        demand_change(code, &fault)?;
        self.text.take();
        Ok(())
    }

    /// Returns the one canonical batch that means the same on the text, which stays as it is.
    ///
    /// # Errors
    /// As those of [`Document::change`].
    pub fn canonical(&self, changes: &[Change]) -> Result<Vec<Change>, Error> {
        let (edits, texts) = batch(changes);
        let mut fault = ffi::Fault::default();
        let found = ffi::Handle::empty();
        let code = self.handle.document_canonical(self.encoding as u32, &edits, &texts, &found, &mut fault);
        demand_change(code, &fault)?;
        Ok(changes_of(&found))
    }

    /// Makes text edits, or none of them. All their ranges count in the text as it is.
    ///
    /// # Errors
    /// [`Error::EditInsideCharacter`], [`Error::EditReversedRange`] or [`Error::Overlap`] of faulty edits, [`Refusal::TooLong`] if the
    /// text would have, or the edits have, more than 1,073,741,824 bytes; or [`Error::OutOfMemory`].
    pub fn apply_edits(&mut self, edits: &[TextEdit]) -> Result<(), Error> {
        let (passed, texts) = passed_edits(edits);
        let mut fault = ffi::EditsFault::default();
        let code = self.handle.document_apply_edits(self.encoding as u32, &passed, texts.as_bytes(), &mut fault);
        demand_edits(code, &fault)?;
        self.text.take();
        Ok(())
    }

    /// Returns the canonical batch of what text edits mean on the text, which stays as it is: the changes of the `didChange` that
    /// reports them.
    ///
    /// # Errors
    /// As those of [`Document::apply_edits`]; but the text that the edits would leave may have any length.
    pub fn batch_of_edits(&self, edits: &[TextEdit]) -> Result<Vec<Change>, Error> {
        let (passed, texts) = passed_edits(edits);
        let mut fault = ffi::EditsFault::default();
        let found = ffi::Handle::empty();
        let units = self.encoding as u32;
        let code = self.handle.document_batch_of_edits(units, &passed, texts.as_bytes(), &found, &mut fault);
        demand_edits(code, &fault)?;
        Ok(changes_of(&found))
    }

    /// Returns the byte offset of a position. One after the line's end is the line's end.
    ///
    /// # Errors
    /// [`Error::NoPosition`] if the position is inside a character.
    pub fn offset(&self, position: Position) -> Result<usize, Error> {
        let mut offset = 0;
        let code = self.handle.document_offset(self.encoding as u32, position, &mut offset);
        found(code, offset)
    }

    /// Returns the exact position of a byte offset.
    ///
    /// # Errors
    /// [`Error::NoPosition`] if the offset is inside a character, inside a CRLF or past the end.
    pub fn position(&self, offset: usize) -> Result<Position, Error> {
        let mut position = Position::default();
        let code = self.handle.document_position(self.encoding as u32, offset, &mut position);
        found(code, position)
    }

    fn length(&self) -> ffi::Length {
        let mut length = ffi::Length::default();
        let code = self.handle.document_size(&mut length);
        assert_eq!(code, ffi::OK, "the handle of a document is full");
        length
    }

    /// Copies a part of the text, which begins and ends between characters.
    fn copied(&self, start: usize, len: usize) -> String {
        String::from_utf8(self.handle.document_bytes(start, len)).expect("the library keeps UTF-8")
    }
}

impl fmt::Debug for Document {
    fn fmt(&self, f: &mut fmt::Formatter<'_>) -> fmt::Result {
        f.debug_struct("Document").field("text", &self.text()).field("encoding", &self.encoding).finish()
    }
}

/// The changes of a canonical batch of the library.
fn changes_of(batch: &ffi::Handle) -> Vec<Change> {
    let mut len = 0;
    assert_eq!(batch.batch_len(&mut len), ffi::OK, "the handle of a batch is full");
    (0..len).map(|index| change_at(batch, index)).collect()
}

/// Asks for the length of a change's text first, then for the text.
fn change_at(batch: &ffi::Handle, index: usize) -> Change {
    let (mut edit, mut bytes, mut copied) = (ffi::Edit::default(), Vec::new(), 0);
    for _ in 0..2 {
        bytes.resize(edit.len, 0);
        let code = batch.batch_edit(index, &mut edit, &mut bytes, &mut copied);
        assert_eq!(code, ffi::OK, "the batch has this change");
    }
    let range = (!edit.is_whole).then_some(Range { start: edit.start, end: edit.end });
    Change { range, text: String::from_utf8(bytes).expect("the library keeps UTF-8") }
}

/// A batch as the library takes it: its texts follow each other.
fn batch(changes: &[Change]) -> (Vec<ffi::Edit>, Vec<u8>) {
    let edit = |change: &Change| {
        let range = change.range.unwrap_or_default();
        ffi::Edit { start: range.start, end: range.end, len: change.text.len(), is_whole: change.range.is_none() }
    };
    let mut texts = Vec::with_capacity(changes.iter().map(|change| change.text.len()).sum());
    for change in changes {
        texts.extend_from_slice(change.text.as_bytes());
    }
    (changes.iter().map(edit).collect(), texts)
}

/// Text edits as the library takes them.
fn passed_edits(edits: &[TextEdit]) -> (Vec<ffi::Edit>, String) {
    let passed = |edit: &TextEdit| {
        let Range { start, end } = edit.range;
        ffi::Edit { start, end, len: edit.new_text.len(), is_whole: false }
    };
    (edits.iter().map(passed).collect(), edits.iter().map(|edit| edit.new_text.as_str()).collect())
}

/// What a call found in a text, if the code says that there is such a position.
fn found<T>(code: u32, value: T) -> Result<T, Error> {
    match code {
        ffi::OK => Ok(value),
        ffi::INSIDE_CHARACTER => Err(Error::NoPosition),
        code => unreachable!("code {code} of a full handle and an encoding"),
    }
}

fn demand_edits(code: u32, fault: &ffi::EditsFault) -> Result<(), Error> {
    match code {
        ffi::INSIDE_CHARACTER => Err(Error::EditInsideCharacter { edit: fault.edit, at_end: fault.at_end }),
        ffi::REVERSED_RANGE => Err(Error::EditReversedRange { edit: fault.edit }),
        ffi::OVERLAP => Err(Error::Overlap { first: fault.edit, second: fault.other }),
        code => demand(code),
    }
}

fn demand(code: u32) -> Result<(), Error> {
    demand_change(code, &ffi::Fault::default())
}

fn demand_change(code: u32, fault: &ffi::Fault) -> Result<(), Error> {
    match code {
        ffi::OK => Ok(()),
        code => Err(Error::of(code, fault)),
    }
}

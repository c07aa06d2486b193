//! The commands of `lspsync` on the bytes of a log.

use crate::codes::BadLimit;
use crate::{ffi, Encoding, Error, Limits};
use std::fmt;

/// How a log is read, and what of it is written. The default is that of `lspsync`.
#[derive(Clone, Copy, Debug, Default, PartialEq, Eq)]
pub struct Settings {
    /// The limits.
    pub limits: Limits,
    /// What positions count in a log of version 1. A log of version 2 names it itself.
    pub encoding: Encoding,
    /// Whether [`normalise`] writes changes of one document that follow each other as one message.
    pub squash: bool,
    /// Whether [`normalise`] leaves out the records that are neither about the session nor about a text.
    pub documents: bool,
    /// Whether [`trace`] writes the document's text, where it was opened or changed.
    pub texts: bool,
    /// Whether [`trace`] writes each body.
    pub bodies: bool,
    /// Whether [`explain`] writes only lines with a reason or notes.
    pub brief: bool,
    /// Whether [`explain`] writes each note on its line, also where its kind comes often.
    pub all: bool,
}

/// The part of a log that [`replay_part`] reads, and what it writes.
#[derive(Clone, Debug, Default, PartialEq, Eq)]
pub struct Part<'a> {
    /// The number of the last record that is read, from 1; all without one.
    pub at: Option<u64>,
    /// The document whose text is written; without one each open document has a line.
    pub uri: Option<&'a str>,
}

/// What a command wrote.
#[derive(Clone, Debug, PartialEq, Eq)]
pub struct Output {
    /// The bytes.
    pub bytes: Vec<u8>,
    /// 1 where something was refused, or of [`compare`] where the texts differ; else 0.
    pub status: u32,
    /// How many messages there were.
    pub messages: u64,
    /// How many of them were refused.
    pub refused: u64,
}

/// Why a command came to no end.
#[derive(Clone, Debug, PartialEq, Eq)]
#[non_exhaustive]
pub enum LogError {
    /// The same call can be made again.
    OutOfMemory,
    /// A limit is out of its range.
    BadLimit(BadLimit),
    /// The log has no record of this number.
    NoRecord,
    /// The document was never open.
    NotOpen,
    /// The log has a fault at a byte offset; `output` is what was written up to it.
    Fault {
        /// What is wrong.
        fault: LogFault,
        /// The offset in the log.
        offset: u64,
        /// The output of what comes before.
        output: Vec<u8>,
    },
}

/// What is wrong with a log.
#[derive(Clone, Copy, Debug, PartialEq, Eq)]
#[non_exhaustive]
pub enum LogFault {
    /// The log ends inside a record.
    Cut,
    /// A frame is faulty: the number of F1 to F7.
    BadFrame(u32),
    /// A canonical message has a longer body than `max_body`.
    BodyTooLong,
    /// What is there belongs in no log.
    BadLog,
}

impl fmt::Display for LogError {
    fn fmt(&self, f: &mut fmt::Formatter<'_>) -> fmt::Result {
        match self {
            LogError::OutOfMemory => write!(f, "out of memory"),
            LogError::BadLimit(limit) => write!(f, "{limit}"),
            LogError::NoRecord => write!(f, "the log has no record of this number"),
            LogError::NotOpen => write!(f, "the document was never open"),
            LogError::Fault { fault: LogFault::Cut, offset, .. } => write!(f, "truncated at byte offset {offset}"),
            LogError::Fault { fault: LogFault::BadFrame(number), offset, .. } => {
                write!(f, "{}", Error::Frame { number: *number, offset: *offset })
            }
            LogError::Fault { fault: LogFault::BodyTooLong, offset, .. } => write!(f, "body too long at byte offset {offset}"),
            LogError::Fault { fault: LogFault::BadLog, offset, .. } => write!(f, "bad log at byte offset {offset}"),
        }
    }
}

impl std::error::Error for LogError {}

/// Writes what a server answers to each record of a log, a line for each, as `lspsync check` does.
///
/// # Errors
/// [`LogError::Fault`] if the log is faulty, with the output up to there; else a limit is out of its range, memory ran out, or more
/// than 2^64 - 1 reads and writes would be needed.
pub fn check(log: &[u8], settings: &Settings) -> Result<Output, LogError> {
    run(ffi::CHECK, log, settings, &Part::default())
}

/// Writes the same, with reasons and what is suspicious, as `lspsync check --explain` does.
///
/// # Errors
/// As those of [`check`].
pub fn explain(log: &[u8], settings: &Settings) -> Result<Output, LogError> {
    run(ffi::EXPLAIN, log, settings, &Part::default())
}

/// Writes all that is known of each record of a log, a line of JSON for each.
///
/// # Errors
/// As those of [`check`].
pub fn trace(log: &[u8], settings: &Settings) -> Result<Output, LogError> {
    run(ffi::TRACE, log, settings, &Part::default())
}

/// Writes the documents that are open at the end of a log, a line of JSON for each.
///
/// # Errors
/// As those of [`check`].
pub fn replay(log: &[u8], settings: &Settings) -> Result<Output, LogError> {
    replay_part(log, settings, &Part::default())
}

/// Writes the documents that are open after a record, or the text of one document, byte for byte.
///
/// # Errors
/// As those of [`check`]; and [`LogError::NoRecord`] or [`LogError::NotOpen`] if the log lacks what is asked for.
pub fn replay_part(log: &[u8], settings: &Settings, part: &Part<'_>) -> Result<Output, LogError> {
    if part.at == Some(0) {
        return Err(LogError::NoRecord);
    }
    run(ffi::REPLAY, log, settings, part)
}

/// Writes whether the last text of a document is `saved`, as its editor saved it, and else which message made each line
/// that differs. The document is the one whose URI ends as `uri`, or the only one without it. Where two end so, both are
/// named.
///
/// # Errors
/// As those of [`check`]; and [`LogError::NotOpen`] if no document's URI ends so.
pub fn compare(log: &[u8], saved: &str, uri: Option<&str>, settings: &Settings) -> Result<Output, LogError> {
    let part = Part { uri, ..Part::default() };
    run_with(|output, settings, uri, ending| output.log_compare(settings, uri, saved, log, ending), settings, &part)
}

/// Writes the log with each accepted change as its canonical message.
///
/// # Errors
/// As those of [`check`].
pub fn normalise(log: &[u8], settings: &Settings) -> Result<Output, LogError> {
    run(ffi::NORMALISE, log, settings, &Part::default())
}

/// Writes a log of version 1 in version 2, with the replies that a server gives.
///
/// # Errors
/// As those of [`check`]. A log of version 2 is [`LogFault::BadLog`].
pub fn convert(log: &[u8], settings: &Settings) -> Result<Output, LogError> {
    run(ffi::CONVERT, log, settings, &Part::default())
}

fn run(command: u32, log: &[u8], settings: &Settings, part: &Part<'_>) -> Result<Output, LogError> {
    run_with(|output, settings, uri, ending| output.log_run(command, settings, uri, log, ending), settings, part)
}

fn run_with(
    call: impl FnOnce(&ffi::Handle, &ffi::LogSettings, &str, &mut ffi::Ending) -> u32,
    settings: &Settings,
    part: &Part<'_>,
) -> Result<Output, LogError> {
    let settings = ffi::LogSettings {
        max_body: settings.limits.max_body,
        max_text: settings.limits.max_text,
        max_docs: settings.limits.max_docs,
        max_changes: settings.limits.max_changes,
        at: part.at.unwrap_or(0),
        encoding: settings.encoding as u32,
        lenient: settings.limits.lenient,
        squash: settings.squash,
        documents: settings.documents,
        texts: settings.texts,
        bodies: settings.bodies,
        has_uri: part.uri.is_some(),
        brief: settings.brief,
        all: settings.all,
    };
    let (output, mut ending) = (ffi::Handle::empty(), ffi::Ending::default());
    let code = call(&output, &settings, part.uri.unwrap_or_default(), &mut ending);
    if !output.is_full() {
        return Err(match code {
            ffi::OUT_OF_MEMORY => LogError::OutOfMemory,
            code => LogError::BadLimit(BadLimit::of(code).expect("an empty handle and valid arguments")),
        });
    }
    let bytes = output.output_copy(ending.output_len);
    let fault = match (code, ending.missing) {
        (ffi::OK, ffi::OK) => {
            return Ok(Output { bytes, status: ending.status, messages: ending.messages, refused: ending.refused });
        }
        (ffi::OK, ffi::OUT_OF_RANGE) => return Err(LogError::NoRecord),
        (ffi::OK, _) => return Err(LogError::NotOpen),
        (ffi::CUT, _) => LogFault::Cut,
        (ffi::BAD_FRAME, _) => LogFault::BadFrame(ending.frame),
        (ffi::BODY_TOO_LONG, _) => LogFault::BodyTooLong,
        (ffi::BAD_LOG, _) => LogFault::BadLog,
        (code, _) => unreachable!("code {code} of an empty handle and valid arguments"),
    };
    Err(LogError::Fault { fault, offset: ending.offset, output: bytes })
}

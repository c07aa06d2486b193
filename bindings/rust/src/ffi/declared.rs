//! What laspidru.h declares, as tools/declared makes it.

use crate::Position;
use std::ffi::c_void;

// declared:
#[repr(C)] pub struct Raw { pub pointer: *mut c_void, pub is_full: bool }
#[repr(C)] #[derive(Clone, Copy, Debug, Default)] pub struct Edit { pub start: Position, pub end: Position, pub len: usize,
    pub is_whole: bool }
#[repr(C)] #[derive(Clone, Copy, Debug, Default)] pub struct Fault { pub change: usize, pub at_end: bool }
#[repr(C)] #[derive(Clone, Copy, Debug, Default)] pub struct EditsFault { pub edit: usize, pub other: usize, pub at_end: bool }
#[repr(C)] #[derive(Clone, Copy, Debug, Default)] pub struct Line { pub start: usize, pub end: usize }
#[repr(C)] #[derive(Clone, Copy, Debug, Default)] pub struct Length { pub bytes: usize, pub lines: usize }
#[repr(C)] #[derive(Clone, Copy, Debug, Default)] pub struct Settings { pub max_body: usize, pub max_text: usize,
    pub max_docs: usize, pub max_changes: usize, pub encoding: u32, pub is_fixed: bool, pub whole_texts: bool, pub lenient: bool }
#[repr(C)] #[derive(Clone, Copy, Debug, Default)] pub struct Answer { pub kind: u32, pub reason: u32, pub status: u32,
    pub error: i32, pub reply_len: usize }
#[repr(C)] #[derive(Clone, Copy, Debug, Default)] pub struct Taken { pub bytes: usize, pub body_len: usize, pub offset: u64,
    pub frame: u32, pub is_whole: bool }
#[repr(C)] #[derive(Clone, Copy, Debug, Default)] pub struct ClientSettings { pub max_body: usize, pub max_text: usize,
    pub max_docs: usize, pub max_changes: usize, pub utf8: bool, pub utf32: bool, pub lenient: bool }
#[repr(C)] #[derive(Clone, Copy, Debug, Default)] pub struct State { pub phase: u32, pub reason: u32, pub encoding: u32,
    pub documents: usize }
#[repr(C)] #[derive(Clone, Copy, Debug, Default)] pub struct Opened { pub version: i32, pub bytes: usize }
#[repr(C)] #[derive(Clone, Copy, Debug, Default)] pub struct LogSettings { pub max_body: usize, pub max_text: usize,
    pub max_docs: usize, pub max_changes: usize, pub at: u64, pub encoding: u32, pub lenient: bool, pub squash: bool,
    pub documents: bool, pub texts: bool, pub bodies: bool, pub has_uri: bool, pub brief: bool, pub all: bool }
#[repr(C)] #[derive(Clone, Copy, Debug, Default)] pub struct Ending { pub status: u32, pub frame: u32, pub missing: u32,
    pub messages: u64, pub refused: u64, pub offset: u64, pub output_len: usize }
pub const OK: u32 = 0;
pub const NOT_UTF8: u32 = 1;
pub const OUT_OF_MEMORY: u32 = 2;
pub const IN_USE: u32 = 3;
pub const EMPTY: u32 = 4;
pub const TOO_LONG: u32 = 5;
pub const INSIDE_CHARACTER: u32 = 6;
pub const REVERSED_RANGE: u32 = 7;
pub const BAD_ENCODING: u32 = 8;
pub const BAD_LENGTH: u32 = 9;
pub const OTHER_KIND: u32 = 10;
pub const OUT_OF_RANGE: u32 = 11;
pub const BAD_MAX_BODY: u32 = 12;
pub const ENDED: u32 = 13;
pub const NOT_OPEN: u32 = 14;
pub const ALREADY_OPEN: u32 = 15;
pub const TOO_MANY_DOCUMENTS: u32 = 16;
pub const STALE_VERSION: u32 = 17;
pub const TOO_MANY_CHANGES: u32 = 18;
pub const INVALID_PARAMS: u32 = 19;
pub const CUT: u32 = 20;
pub const BAD_FRAME: u32 = 21;
pub const BODY_TOO_LONG: u32 = 22;
pub const BAD_LOG: u32 = 23;
pub const TOO_MANY_TURNS: u32 = 24;
pub const OVERLAP: u32 = 25;
pub const FAILED: u32 = 26;
pub const NO_MESSAGE: u32 = 27;
pub const WRONG_PHASE: u32 = 28;
pub const NOT_AN_ANSWER: u32 = 29;
pub const ERROR_ANSWER: u32 = 30;
pub const NO_SYNC: u32 = 31;
pub const BAD_MAX_TEXT: u32 = 32;
pub const BAD_MAX_DOCS: u32 = 33;
pub const BAD_MAX_CHANGES: u32 = 34;
pub const NO_DOCUMENT: u32 = 35;
pub const REPLIED: u32 = 0;
pub const CHANGED: u32 = 1;
pub const DROPPED: u32 = 2;
pub const IGNORED: u32 = 3;
pub const REFUSED: u32 = 4;
pub const EXITED: u32 = 5;
pub const NOTED: u32 = 6;
pub const BAD_SERVER: u32 = 7;
pub const PHASE_NEW: u32 = 0;
pub const PHASE_ASKED: u32 = 1;
pub const PHASE_READY: u32 = 2;
pub const PHASE_CLOSING: u32 = 3;
pub const PHASE_CLOSED: u32 = 4;
pub const PHASE_DONE: u32 = 5;
pub const PHASE_FAILED: u32 = 6;
pub const CHECK: u32 = 0;
pub const EXPLAIN: u32 = 1;
pub const TRACE: u32 = 2;
pub const REPLAY: u32 = 3;
pub const NORMALISE: u32 = 4;
pub const CONVERT: u32 = 5;
extern "C" {
    pub fn laspidru_version() -> u32;
    pub fn laspidru_code_text(code: u32, start: usize, out: *mut u8, out_len: usize, copied: *mut usize) -> u32;
    pub fn laspidru_document_new(document: *mut Raw, text: *const u8, text_len: usize) -> u32;
    pub fn laspidru_handle_free(handle: *mut Raw);
    pub fn laspidru_document_change(document: *mut Raw, encoding: u32, edits: *const Edit, edits_len: usize, texts: *const u8,
        texts_len: usize, fault: *mut Fault) -> u32;
    pub fn laspidru_document_size(document: *mut Raw, length: *mut Length) -> u32;
    pub fn laspidru_document_line(document: *mut Raw, line: u32, range: *mut Line) -> u32;
    pub fn laspidru_document_copy(document: *mut Raw, start: usize, out: *mut u8, out_len: usize, copied: *mut usize) -> u32;
    pub fn laspidru_document_offset(document: *mut Raw, encoding: u32, position: Position, offset: *mut usize) -> u32;
    pub fn laspidru_document_position(document: *mut Raw, encoding: u32, offset: usize, position: *mut Position) -> u32;
    pub fn laspidru_document_canonical(document: *mut Raw, encoding: u32, edits: *const Edit, edits_len: usize, texts: *const u8,
        texts_len: usize, batch: *mut Raw, fault: *mut Fault) -> u32;
    pub fn laspidru_document_apply_edits(document: *mut Raw, encoding: u32, edits: *const Edit, edits_len: usize,
        texts: *const u8, texts_len: usize, fault: *mut EditsFault) -> u32;
    pub fn laspidru_document_batch_of_edits(document: *mut Raw, encoding: u32, edits: *const Edit, edits_len: usize,
        texts: *const u8, texts_len: usize, batch: *mut Raw, fault: *mut EditsFault) -> u32;
    pub fn laspidru_batch_len(batch: *mut Raw, len: *mut usize) -> u32;
    pub fn laspidru_batch_edit(batch: *mut Raw, index: usize, edit: *mut Edit, out: *mut u8, out_len: usize,
        copied: *mut usize) -> u32;
    pub fn laspidru_framer_new(framer: *mut Raw, max_body: usize) -> u32;
    pub fn laspidru_framer_feed(framer: *mut Raw, piece: *const u8, piece_len: usize, taken: *mut Taken) -> u32;
    pub fn laspidru_framer_body(framer: *mut Raw, start: usize, out: *mut u8, out_len: usize, copied: *mut usize) -> u32;
    pub fn laspidru_framer_next(framer: *mut Raw) -> u32;
    pub fn laspidru_framer_at_rest(framer: *mut Raw, at_rest: *mut bool) -> u32;
    pub fn laspidru_server_new(server: *mut Raw, settings: *const Settings) -> u32;
    pub fn laspidru_client_new(client: *mut Raw, settings: *const ClientSettings) -> u32;
    pub fn laspidru_client_start(client: *mut Raw, frame_len: *mut usize) -> u32;
    pub fn laspidru_client_did_open(client: *mut Raw, uri: *const u8, uri_len: usize, language: *const u8, language_len: usize,
        version: i32, text: *const u8, text_len: usize, frame_len: *mut usize) -> u32;
    pub fn laspidru_client_did_change(client: *mut Raw, uri: *const u8, uri_len: usize, version: i32, edits: *const Edit,
        edits_len: usize, texts: *const u8, texts_len: usize, fault: *mut Fault, frame_len: *mut usize) -> u32;
    pub fn laspidru_client_did_close(client: *mut Raw, uri: *const u8, uri_len: usize, frame_len: *mut usize) -> u32;
    pub fn laspidru_client_shutdown(client: *mut Raw, frame_len: *mut usize) -> u32;
    pub fn laspidru_client_exit(client: *mut Raw, frame_len: *mut usize) -> u32;
    pub fn laspidru_session_feed(session: *mut Raw, piece: *const u8, piece_len: usize, taken: *mut Taken,
        answer: *mut Answer) -> u32;
    pub fn laspidru_session_body(session: *mut Raw, start: usize, out: *mut u8, out_len: usize, copied: *mut usize) -> u32;
    pub fn laspidru_session_deliver(session: *mut Raw, body: *const u8, body_len: usize, answer: *mut Answer) -> u32;
    pub fn laspidru_session_frame(session: *mut Raw, start: usize, out: *mut u8, out_len: usize, copied: *mut usize) -> u32;
    pub fn laspidru_session_state(session: *mut Raw, state: *mut State) -> u32;
    pub fn laspidru_message_uri(body: *const u8, body_len: usize, start: usize, out: *mut u8, out_len: usize,
        copied: *mut usize) -> u32;
    pub fn laspidru_session_document_state(session: *mut Raw, uri: *const u8, uri_len: usize, document: *mut Opened) -> u32;
    pub fn laspidru_session_document_text(session: *mut Raw, uri: *const u8, uri_len: usize, start: usize, out: *mut u8,
        out_len: usize, copied: *mut usize) -> u32;
    pub fn laspidru_session_document_offset(session: *mut Raw, uri: *const u8, uri_len: usize, encoding: u32, position: Position,
        offset: *mut usize) -> u32;
    pub fn laspidru_session_document_position(session: *mut Raw, uri: *const u8, uri_len: usize, encoding: u32, offset: usize,
        position: *mut Position) -> u32;
    pub fn laspidru_session_document_line(session: *mut Raw, uri: *const u8, uri_len: usize, line: u32, range: *mut Line) -> u32;
    pub fn laspidru_session_document_batch_of_edits(session: *mut Raw, uri: *const u8, uri_len: usize, encoding: u32,
        edits: *const Edit, edits_len: usize, texts: *const u8, texts_len: usize, batch: *mut Raw, fault: *mut EditsFault) -> u32;
    pub fn laspidru_session_document_canonical_message(session: *mut Raw, uri: *const u8, uri_len: usize, version: i32,
        encoding: u32, edits: *const Edit, edits_len: usize, texts: *const u8, texts_len: usize, output: *mut Raw,
        fault: *mut Fault, frame_len: *mut usize) -> u32;
    pub fn laspidru_log_run(output: *mut Raw, command: u32, settings: *const LogSettings, uri: *const u8, uri_len: usize,
        log: *const u8, log_len: usize, ending: *mut Ending) -> u32;
    pub fn laspidru_log_compare(output: *mut Raw, settings: *const LogSettings, uri: *const u8, uri_len: usize, saved: *const u8,
        saved_len: usize, log: *const u8, log_len: usize, ending: *mut Ending) -> u32;
    pub fn laspidru_output_copy(output: *mut Raw, start: usize, out: *mut u8, out_len: usize, copied: *mut usize) -> u32;
}
// end of declared

//! A handle that calls the library's functions. All that is unsafe is here.

#[allow(dead_code)]
#[rustfmt::skip]
mod declared;

use crate::{Error, Position};
pub use declared::*;
use std::cell::RefCell;

/// A call on a document with a batch: edits, and their texts.
type Changing<F> = unsafe extern "C" fn(*mut Raw, u32, *const Edit, usize, *const u8, usize, *mut F) -> u32;

/// One that also fills an empty handle.
type Batching<F> = unsafe extern "C" fn(*mut Raw, u32, *const Edit, usize, *const u8, usize, *mut Raw, *mut F) -> u32;

/// One that copies bytes of a handle.
type Copying = unsafe extern "C" fn(*mut Raw, usize, *mut u8, usize, *mut usize) -> u32;

/// A call of a client's lifecycle.
pub type Lifecycle = unsafe extern "C" fn(*mut Raw, *mut usize) -> u32;

/// The name of a code, a colon, and what it means.
pub fn text(code: u32) -> String {
    let (mut bytes, mut len) = ([0; 120], 0);
    // SAFETY: the pointer is that of an array, with its length.
    let found = unsafe { laspidru_code_text(code, 0, bytes.as_mut_ptr(), bytes.len(), &mut len) };
    if found == OK {
        String::from_utf8_lossy(&bytes[..len]).into_owned()
    } else {
        format!("UNKNOWN: code {code}")
    }
}

pub fn version() -> u32 {
    // SAFETY: it takes nothing.
    unsafe { laspidru_version() }
}

/// The URI of the document that a body opens, changes or closes.
pub fn message_uri(body: &[u8]) -> Result<Option<String>, Error> {
    let (mut bytes, mut len) = (vec![0; body.len()], 0);
    // SAFETY: pointers are those of slices, with their lengths.
    match unsafe { laspidru_message_uri(body.as_ptr(), body.len(), 0, bytes.as_mut_ptr(), bytes.len(), &mut len) } {
        OK => {
            bytes.truncate(len);
            Ok(Some(String::from_utf8(bytes).expect("the library keeps UTF-8")))
        }
        NO_DOCUMENT => Ok(None),
        _ => Err(Error::OutOfMemory),
    }
}

/// Room for an object of the library, which is freed where this is dropped. Each call returns a code of laspidru.h.
pub struct Handle(RefCell<Raw>);

// SAFETY: the library proves that its handles may go to another thread.
unsafe impl Send for Handle {}

impl Drop for Handle {
    fn drop(&mut self) {
        // SAFETY: as for each call below. The library closes any handle.
        unsafe { laspidru_handle_free(self.0.get_mut()) }
    }
}

// SAFETY, of each call: the handle began as zeroes, is written by the library alone, is never copied, and the `RefCell` gives it to
// one call at a time. Pointers are those of slices and references, with their lengths.
impl Handle {
    pub fn empty() -> Self {
        Handle(RefCell::new(Raw { pointer: std::ptr::null_mut(), is_full: false }))
    }

    pub fn is_full(&self) -> bool {
        self.0.borrow().is_full
    }

    /// So many bytes that a call copies. There are as many, and the call says so.
    fn copied(&self, call: Copying, start: usize, len: usize) -> Vec<u8> {
        let (mut bytes, mut count) = (Vec::with_capacity(len), 0);
        let code = unsafe { call(&mut *self.0.borrow_mut(), start, bytes.as_mut_ptr(), len, &mut count) };
        assert_eq!((code, count), (OK, len), "the handle has these bytes");
        unsafe { bytes.set_len(count) };
        bytes
    }

    pub fn document_new(&self, text: &str) -> u32 {
        unsafe { laspidru_document_new(&mut *self.0.borrow_mut(), text.as_ptr(), text.len()) }
    }

    fn with_batch<F>(&self, call: Changing<F>, encoding: u32, edits: &[Edit], texts: &[u8], fault: &mut F) -> u32 {
        let handle = &mut *self.0.borrow_mut();
        unsafe { call(handle, encoding, edits.as_ptr(), edits.len(), texts.as_ptr(), texts.len(), fault) }
    }

    fn batch_by<F>(
        &self,
        call: Batching<F>,
        encoding: u32,
        edits: &[Edit],
        texts: &[u8],
        batch: &Handle,
        fault: &mut F,
    ) -> u32 {
        let (handle, batch) = (&mut *self.0.borrow_mut(), &mut *batch.0.borrow_mut());
        unsafe { call(handle, encoding, edits.as_ptr(), edits.len(), texts.as_ptr(), texts.len(), batch, fault) }
    }

    pub fn document_change(&self, encoding: u32, edits: &[Edit], texts: &[u8], fault: &mut Fault) -> u32 {
        self.with_batch(laspidru_document_change, encoding, edits, texts, fault)
    }

    pub fn document_canonical(&self, encoding: u32, edits: &[Edit], texts: &[u8], batch: &Handle, fault: &mut Fault) -> u32 {
        self.batch_by(laspidru_document_canonical, encoding, edits, texts, batch, fault)
    }

    pub fn document_apply_edits(&self, encoding: u32, edits: &[Edit], texts: &[u8], fault: &mut EditsFault) -> u32 {
        self.with_batch(laspidru_document_apply_edits, encoding, edits, texts, fault)
    }

    pub fn document_batch_of_edits(
        &self,
        encoding: u32,
        edits: &[Edit],
        texts: &[u8],
        batch: &Handle,
        fault: &mut EditsFault,
    ) -> u32 {
        self.batch_by(laspidru_document_batch_of_edits, encoding, edits, texts, batch, fault)
    }

    pub fn document_bytes(&self, start: usize, len: usize) -> Vec<u8> {
        self.copied(laspidru_document_copy, start, len)
    }

    pub fn batch_edit(&self, index: usize, edit: &mut Edit, out: &mut [u8], copied: &mut usize) -> u32 {
        unsafe { laspidru_batch_edit(&mut *self.0.borrow_mut(), index, edit, out.as_mut_ptr(), out.len(), copied) }
    }

    pub fn framer_feed(&self, piece: &[u8], taken: &mut Taken) -> u32 {
        unsafe { laspidru_framer_feed(&mut *self.0.borrow_mut(), piece.as_ptr(), piece.len(), taken) }
    }

    /// The body of the message that is buffered, which has so many bytes.
    pub fn framer_body(&self, len: usize) -> Vec<u8> {
        self.copied(laspidru_framer_body, 0, len)
    }

    pub fn client_call(&self, call: Lifecycle, len: &mut usize) -> u32 {
        unsafe { call(&mut *self.0.borrow_mut(), len) }
    }

    pub fn client_did_open(&self, uri: &str, language: &str, version: i32, text: &str, len: &mut usize) -> u32 {
        let (handle, uri_len, language_len) = (&mut *self.0.borrow_mut(), uri.len(), language.len());
        let (uri, language) = (uri.as_ptr(), language.as_ptr());
        unsafe {
            laspidru_client_did_open(handle, uri, uri_len, language, language_len, version, text.as_ptr(), text.len(), len)
        }
    }

    pub fn client_did_change(
        &self,
        uri: &str,
        version: i32,
        edits: &[Edit],
        texts: &[u8],
        fault: &mut Fault,
        len: &mut usize,
    ) -> u32 {
        let (handle, count, texts_len) = (&mut *self.0.borrow_mut(), edits.len(), texts.len());
        let (name, edits, texts) = (uri.as_ptr(), edits.as_ptr(), texts.as_ptr());
        unsafe { laspidru_client_did_change(handle, name, uri.len(), version, edits, count, texts, texts_len, fault, len) }
    }

    pub fn client_did_close(&self, uri: &str, len: &mut usize) -> u32 {
        unsafe { laspidru_client_did_close(&mut *self.0.borrow_mut(), uri.as_ptr(), uri.len(), len) }
    }

    pub fn session_feed(&self, piece: &[u8], taken: &mut Taken, answer: &mut Answer) -> u32 {
        unsafe { laspidru_session_feed(&mut *self.0.borrow_mut(), piece.as_ptr(), piece.len(), taken, answer) }
    }

    /// The body of the message that was taken last, which has so many bytes.
    pub fn session_body(&self, len: usize) -> Vec<u8> {
        self.copied(laspidru_session_body, 0, len)
    }

    pub fn session_deliver(&self, body: &[u8], answer: &mut Answer) -> u32 {
        unsafe { laspidru_session_deliver(&mut *self.0.borrow_mut(), body.as_ptr(), body.len(), answer) }
    }

    /// The frame to send, which has so many bytes.
    pub fn session_frame(&self, len: usize) -> Vec<u8> {
        self.copied(laspidru_session_frame, 0, len)
    }

    pub fn state(&self) -> State {
        let mut state = State::default();
        let code = unsafe { laspidru_session_state(&mut *self.0.borrow_mut(), &mut state) };
        assert_eq!(code, OK, "the handle of an end is full");
        state
    }

    /// The open document of a URI.
    pub fn opened(&self, uri: &str) -> Option<Opened> {
        let mut opened = Opened::default();
        match unsafe { laspidru_session_document_state(&mut *self.0.borrow_mut(), uri.as_ptr(), uri.len(), &mut opened) } {
            OK => Some(opened),
            NOT_OPEN => None,
            code => unreachable!("code {code} of a full handle and a URI in UTF-8"),
        }
    }

    /// A copy of the text of the open document of a URI.
    pub fn text(&self, uri: &str) -> Option<String> {
        let len = self.opened(uri)?.bytes;
        Some(self.part(uri, 0, len))
    }

    /// A copy of a part of that text, which begins and ends between characters.
    fn part(&self, uri: &str, start: usize, len: usize) -> String {
        let (mut bytes, mut count) = (vec![0; len], 0);
        let (handle, name, out) = (&mut *self.0.borrow_mut(), uri.as_ptr(), bytes.as_mut_ptr());
        let code = unsafe { laspidru_session_document_text(handle, name, uri.len(), start, out, len, &mut count) };
        assert_eq!((code, count), (OK, len), "the document has these bytes");
        String::from_utf8(bytes).expect("the library keeps UTF-8")
    }

    /// A line of the open document of a URI, if there is one, without its line end.
    pub fn line(&self, uri: &str, number: u32) -> Option<String> {
        let mut line = Line::default();
        let code =
            unsafe { laspidru_session_document_line(&mut *self.0.borrow_mut(), uri.as_ptr(), uri.len(), number, &mut line) };
        match code {
            OK => Some(self.part(uri, line.start, line.end - line.start)),
            NOT_OPEN | OUT_OF_RANGE => None,
            code => unreachable!("code {code} of a full handle and a URI in UTF-8"),
        }
    }

    /// The byte offset of a position in the open document of a URI.
    pub fn offset(&self, uri: &str, encoding: u32, position: Position) -> Result<Option<usize>, Error> {
        let (handle, name, mut offset) = (&mut *self.0.borrow_mut(), uri.as_ptr(), 0);
        let code = unsafe { laspidru_session_document_offset(handle, name, uri.len(), encoding, position, &mut offset) };
        in_open(code, offset)
    }

    /// The exact position of a byte offset in the open document of a URI.
    pub fn position(&self, uri: &str, encoding: u32, offset: usize) -> Result<Option<Position>, Error> {
        let (handle, name, mut position) = (&mut *self.0.borrow_mut(), uri.as_ptr(), Position::default());
        let code = unsafe { laspidru_session_document_position(handle, name, uri.len(), encoding, offset, &mut position) };
        in_open(code, position)
    }

    pub fn session_batch_of_edits(
        &self,
        uri: &str,
        encoding: u32,
        edits: &[Edit],
        texts: &[u8],
        batch: &Handle,
        fault: &mut EditsFault,
    ) -> u32 {
        let (handle, batch, count, len) = (&mut *self.0.borrow_mut(), &mut *batch.0.borrow_mut(), edits.len(), texts.len());
        let (name, edits, texts) = (uri.as_ptr(), edits.as_ptr(), texts.as_ptr());
        unsafe {
            laspidru_session_document_batch_of_edits(handle, name, uri.len(), encoding, edits, count, texts, len, batch, fault)
        }
    }

    /// The frame of a canonical message, or the code of why there is none.
    pub fn session_canonical_message(
        &self,
        uri: &str,
        version: i32,
        encoding: u32,
        edits: &[Edit],
        texts: &[u8],
        fault: &mut Fault,
    ) -> Result<Vec<u8>, u32> {
        let (output, mut frame_len, count, len) = (Handle::empty(), 0, edits.len(), texts.len());
        let (name, edits, texts) = (uri.as_ptr(), edits.as_ptr(), texts.as_ptr());
        let code = unsafe {
            laspidru_session_document_canonical_message(
                &mut *self.0.borrow_mut(),
                name,
                uri.len(),
                version,
                encoding,
                edits,
                count,
                texts,
                len,
                &mut *output.0.borrow_mut(),
                fault,
                &mut frame_len,
            )
        };
        match code {
            OK => Ok(output.output_copy(frame_len)),
            code => Err(code),
        }
    }

    pub fn log_run(&self, command: u32, settings: &LogSettings, uri: &str, log: &[u8], ending: &mut Ending) -> u32 {
        let (handle, name) = (&mut *self.0.borrow_mut(), uri.as_ptr());
        unsafe { laspidru_log_run(handle, command, settings, name, uri.len(), log.as_ptr(), log.len(), ending) }
    }

    pub fn log_compare(&self, settings: &LogSettings, uri: &str, saved: &str, log: &[u8], ending: &mut Ending) -> u32 {
        let (handle, name, text) = (&mut *self.0.borrow_mut(), uri.as_ptr(), saved.as_ptr());
        unsafe { laspidru_log_compare(handle, settings, name, uri.len(), text, saved.len(), log.as_ptr(), log.len(), ending) }
    }

    pub fn output_copy(&self, len: usize) -> Vec<u8> {
        self.copied(laspidru_output_copy, 0, len)
    }
}

/// Declares methods of a handle, each a call with the same arguments. SAFETY: as of the calls above.
macro_rules! calls {
    ($($name:ident = $call:ident($($argument:ident: $kind:ty),*);)*) => {
        impl Handle {
            $(pub fn $name(&self, $($argument: $kind),*) -> u32 {
                unsafe { $call(&mut *self.0.borrow_mut(), $($argument),*) }
            })*
        }
    };
}

calls! {
    document_size = laspidru_document_size(length: &mut Length);
    document_line = laspidru_document_line(number: u32, line: &mut Line);
    document_offset = laspidru_document_offset(encoding: u32, position: Position, offset: &mut usize);
    document_position = laspidru_document_position(encoding: u32, offset: usize, position: &mut Position);
    batch_len = laspidru_batch_len(len: &mut usize);
    framer_new = laspidru_framer_new(max_body: usize);
    framer_next = laspidru_framer_next();
    framer_at_rest = laspidru_framer_at_rest(at_rest: &mut bool);
    server_new = laspidru_server_new(settings: &Settings);
    client_new = laspidru_client_new(settings: &ClientSettings);
}

/// What a call has of an open document; none where no document of its URI is open.
fn in_open<T>(code: u32, found: T) -> Result<Option<T>, Error> {
    match code {
        OK => Ok(Some(found)),
        NOT_OPEN => Ok(None),
        INSIDE_CHARACTER => Err(Error::NoPosition),
        code => unreachable!("code {code} of a full handle, an encoding and a URI in UTF-8"),
    }
}

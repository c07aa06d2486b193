//! What was received of a stream and isn't taken yet.

use crate::{ffi, Error};

#[derive(Default)]
pub(crate) struct Received {
    bytes: Vec<u8>,
    // Up to where they were taken.
    at: usize,
    // Were bytes taken of a message that isn't done, or is the stream faulty?
    is_inside: bool,
}

impl Received {
    pub fn add(&mut self, bytes: &[u8]) {
        self.bytes.drain(..self.at);
        self.at = 0;
        self.bytes.extend_from_slice(bytes);
    }

    /// Was all taken, up to the end of a message?
    pub fn is_at_rest(&self) -> bool {
        self.at == self.bytes.len() && !self.is_inside
    }

    /// Hands what is left to a call that takes bytes up to the end of one message: how many bytes its body has, once it is
    /// whole.
    pub fn take(&mut self, call: impl FnOnce(&[u8], &mut ffi::Taken) -> u32) -> Result<Option<usize>, Error> {
        let mut taken = ffi::Taken::default();
        let is_empty = self.at == self.bytes.len();
        let code = call(&self.bytes[self.at..], &mut taken);
        self.at += taken.bytes;
        self.is_inside |= taken.bytes > 0;
        if code != ffi::OK && code != ffi::OUT_OF_MEMORY {
            // No more of this stream is taken.
            self.bytes.clear();
            self.at = 0;
        }
        match code {
            ffi::OK => {
                self.is_inside &= !taken.is_whole;
                Ok(taken.is_whole.then_some(taken.body_len))
            }
            ffi::BAD_FRAME => {
                self.is_inside = true;
                Err(Error::Frame { number: taken.frame, offset: taken.offset })
            }
            // (an end that takes no more is asked for nothing)
            ffi::ENDED | ffi::WRONG_PHASE if is_empty => Ok(None),
            code => Err(Error::of(code, &ffi::Fault::default())),
        }
    }

    /// Hands what is left to an end of a session: the body of the message that ends there, and the end's answer.
    pub fn take_by(&mut self, handle: &ffi::Handle) -> Result<Option<(Vec<u8>, ffi::Answer)>, Error> {
        let mut answer = ffi::Answer::default();
        let len = self.take(|piece, taken| handle.session_feed(piece, taken, &mut answer))?;
        Ok(len.map(|len| (handle.session_body(len), answer)))
    }
}

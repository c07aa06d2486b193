//! Takes a stream apart into its messages.

use crate::received::Received;
use crate::{demand, ffi, Error};
use std::fmt;

/// Takes a stream apart into the bodies of its messages, in whatever pieces it comes (LSP 3.17, Base Protocol).
///
/// ```
/// let mut framer = laspidru::Framer::new(16_777_216)?;
/// framer.receive(b"Content-Length: 2\r\n\r\n{}Content-Le");
/// assert_eq!(framer.next_body()?, Some(b"{}".to_vec()));
/// assert_eq!(framer.next_body()?, None);
/// framer.receive(b"ngth: 3\r\n\r\n[1]");
/// for body in framer.bodies() {
///     assert_eq!(body?, b"[1]");
/// }
/// # Ok::<(), laspidru::Error>(())
/// ```
pub struct Framer {
    handle: ffi::Handle,
    received: Received,
}

impl Framer {
    /// Returns a framer at the start of a stream, for bodies of at most so many bytes: 4,096 to 1,073,741,824.
    ///
    /// # Errors
    /// [`Error::BadLimit`] if the number isn't between these, else [`Error::OutOfMemory`].
    pub fn new(max_body: usize) -> Result<Self, Error> {
        let handle = ffi::Handle::empty();
        demand(handle.framer_new(max_body))?;
        Ok(Framer { handle, received: Received::default() })
    }

    /// Takes bytes that were read.
    pub fn receive(&mut self, bytes: &[u8]) {
        self.received.add(bytes);
    }

    /// Returns the body of the next message that is whole, or `None` if the rest of it is to come.
    ///
    /// # Errors
    /// [`Error::Frame`] if the stream is faulty, and [`Error::Failed`] at each later call. After
    /// [`Error::OutOfMemory`] the same call continues.
    pub fn next_body(&mut self) -> Result<Option<Vec<u8>>, Error> {
        let Some(len) = self.received.take(|piece, taken| self.handle.framer_feed(piece, taken))? else { return Ok(None) };
        let body = self.handle.framer_body(len);
        assert_eq!(self.handle.framer_next(), ffi::OK, "the handle of a framer is full");
        Ok(Some(body))
    }

    /// Returns the bodies of the messages that are whole, up to a fault. Receive more, and call it again.
    pub fn bodies(&mut self) -> impl Iterator<Item = Result<Vec<u8>, Error>> + '_ {
        std::iter::from_fn(|| match self.next_body() {
            Err(Error::Failed) => None,
            found => found.transpose(),
        })
    }

    /// Whether the stream may end here: no byte of a message is left, and there was no fault.
    pub fn is_at_rest(&self) -> bool {
        let mut at_rest = false;
        assert_eq!(self.handle.framer_at_rest(&mut at_rest), ffi::OK, "the handle of a framer is full");
        at_rest && self.received.is_at_rest()
    }
}

impl fmt::Debug for Framer {
    fn fmt(&self, f: &mut fmt::Formatter<'_>) -> fmt::Result {
        f.debug_struct("Framer").field("is_at_rest", &self.is_at_rest()).finish()
    }
}

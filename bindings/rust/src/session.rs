//! What both ends of a session have: their open documents.

/// Writes the calls on open documents of an end, by its `handle`.
macro_rules! session {
    ($end:ident) => {
        impl $end {
            /// Returns the encoding of positions that both ends agreed on, or `None` before that.
            pub fn encoding(&self) -> Option<Encoding> {
                Encoding::of(self.handle.state().encoding)
            }

            /// Returns how many documents are open.
            pub fn document_count(&self) -> usize {
                self.handle.state().documents
            }

            /// Returns the version of the open document of a URI, which is compared byte for byte.
            pub fn version(&self, uri: &str) -> Option<i32> {
                self.handle.opened(uri).map(|opened| opened.version)
            }

            /// Returns a copy of the text of the open document of a URI, which is compared byte for byte.
            pub fn text(&self, uri: &str) -> Option<String> {
                self.handle.text(uri)
            }

            /// Returns a line, counted from 0, of the open document of a URI, without its line end, or `None` if no document of
            /// the URI is open or it has no such line. The rest of the text is not read.
            pub fn line(&self, uri: &str, number: u32) -> Option<String> {
                self.handle.line(uri, number)
            }

            /// Returns the byte offset of a position in the open document of a URI, or `None` if no document of the URI is open.
            /// A position after the line's end is the line's end. Positions count units of the session's encoding.
            ///
            /// # Errors
            /// [`Error::NoPosition`] if the position is inside a character.
            pub fn offset(&self, uri: &str, position: Position) -> Result<Option<usize>, Error> {
                self.handle.offset(uri, self.units(), position)
            }

            /// Returns the exact position of a byte offset in the open document of a URI, or `None` if no document of the URI is
            /// open.
            ///
            /// # Errors
            /// [`Error::NoPosition`] if the offset is inside a character, inside a CRLF or past the end.
            pub fn position(&self, uri: &str, offset: usize) -> Result<Option<Position>, Error> {
                self.handle.position(uri, self.units(), offset)
            }

            /// Returns the canonical batch of what text edits mean on the open document of a URI: the changes of the `didChange`
            /// that reports them, or `None` if no document of the URI is open. Positions count units of the session's encoding,
            /// and all ranges count in the text as it is. The document stays as it is.
            ///
            /// # Errors
            /// As those of [`Document::batch_of_edits`](crate::Document::batch_of_edits).
            pub fn batch_of_edits(&self, uri: &str, edits: &[TextEdit]) -> Result<Option<Vec<Change>>, Error> {
                let (passed, texts) = passed_edits(edits);
                let (mut fault, found) = (ffi::EditsFault::default(), ffi::Handle::empty());
                match self.handle.session_batch_of_edits(uri, self.units(), &passed, texts.as_bytes(), &found, &mut fault) {
                    ffi::NOT_OPEN => Ok(None),
                    code => demand_edits(code, &fault).map(|()| Some(changes_of(&found))),
                }
            }

            /// Returns the frame of the one canonical `didChange` that means the same as these changes of the open document of a
            /// URI, under a version greater than its own. Positions count units of the session's encoding. The document stays as
            /// it is.
            ///
            /// # Errors
            /// As those of [`Client::edit`](crate::Client::edit).
            pub fn canonical_message(&self, uri: &str, version: i32, changes: &[Change]) -> Result<Vec<u8>, Error> {
                let (edits, texts) = batch(changes);
                let mut fault = ffi::Fault::default();
                let frame = self.handle.session_canonical_message(uri, version, self.units(), &edits, &texts, &mut fault);
                frame.map_err(|code| Error::of(code, &fault))
            }

            fn units(&self) -> u32 {
                self.encoding().unwrap_or(Encoding::Utf16) as u32
            }
        }
    };
}
pub(crate) use session;

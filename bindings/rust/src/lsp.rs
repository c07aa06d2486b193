//! Conversions from and to the types of the crate lsp-types. Each keeps every number and every text.

use crate::{Change, Position, Range, TextEdit};
use lsp_types::TextDocumentContentChangeEvent;

impl From<lsp_types::Position> for Position {
    fn from(position: lsp_types::Position) -> Self {
        Position { line: position.line, character: position.character }
    }
}

impl From<Position> for lsp_types::Position {
    fn from(position: Position) -> Self {
        lsp_types::Position { line: position.line, character: position.character }
    }
}

impl From<lsp_types::Range> for Range {
    fn from(range: lsp_types::Range) -> Self {
        Range { start: range.start.into(), end: range.end.into() }
    }
}

impl From<Range> for lsp_types::Range {
    fn from(range: Range) -> Self {
        lsp_types::Range { start: range.start.into(), end: range.end.into() }
    }
}

/// The deprecated `range_length` is ignored.
impl From<TextDocumentContentChangeEvent> for Change {
    fn from(event: TextDocumentContentChangeEvent) -> Self {
        Change { range: event.range.map(Range::from), text: event.text }
    }
}

/// The deprecated `range_length` is left out.
impl From<Change> for TextDocumentContentChangeEvent {
    fn from(change: Change) -> Self {
        TextDocumentContentChangeEvent {
            range: change.range.map(lsp_types::Range::from),
            range_length: None,
            text: change.text,
        }
    }
}

impl From<lsp_types::TextEdit> for TextEdit {
    fn from(edit: lsp_types::TextEdit) -> Self {
        TextEdit { range: edit.range.into(), new_text: edit.new_text }
    }
}

impl From<TextEdit> for lsp_types::TextEdit {
    fn from(edit: TextEdit) -> Self {
        lsp_types::TextEdit { range: edit.range.into(), new_text: edit.new_text }
    }
}

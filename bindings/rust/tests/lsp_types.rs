//! The feature `lsp-types`.
#![cfg(feature = "lsp-types")]

use laspidru::{Change, Document, Encoding, Error, Position, Range, TextEdit};
use lsp_types::TextDocumentContentChangeEvent;

const OURS: Range = Range { start: Position { line: 1, character: 2 }, end: Position { line: 3, character: u32::MAX } };
const THEIRS: lsp_types::Range = lsp_types::Range {
    start: lsp_types::Position { line: 1, character: 2 },
    end: lsp_types::Position { line: 3, character: u32::MAX },
};

fn event(range: Option<lsp_types::Range>, range_length: Option<u32>) -> TextDocumentContentChangeEvent {
    TextDocumentContentChangeEvent { range, range_length, text: "X".into() }
}

#[test]
fn positions_and_ranges() {
    assert_eq!(Position::from(THEIRS.end), OURS.end);
    assert_eq!(lsp_types::Position::from(OURS.end), THEIRS.end);
    assert_eq!(Range::from(THEIRS), OURS);
    assert_eq!(lsp_types::Range::from(OURS), THEIRS);
}

#[test]
fn changes() {
    for (ours, theirs) in [(Some(OURS), Some(THEIRS)), (None, None)] {
        let change = Change { range: ours, text: "X".into() };
        assert_eq!(Change::from(event(theirs, Some(7))), change);
        assert_eq!(TextDocumentContentChangeEvent::from(change), event(theirs, None));
    }
}

#[test]
fn text_edits() {
    let ours = TextEdit { range: OURS, new_text: "X".into() };
    let theirs = lsp_types::TextEdit { range: THEIRS, new_text: "X".into() };
    assert_eq!(TextEdit::from(theirs.clone()), ours);
    assert_eq!(lsp_types::TextEdit::from(ours), theirs);
}

#[test]
fn events_change_a_document() -> Result<(), Error> {
    let mut document = Document::new("a\nbcd\nef", Encoding::Utf16)?;
    let changes = [event(Some(lsp_types::Range { end: lsp_types::Position { line: 2, character: 1 }, ..THEIRS }), None)];
    document.change(&changes.map(Change::from))?;
    assert_eq!(document.text(), "a\nbcXf");
    Ok(())
}

use laspidru::{Change, Document, Encoding, Error, Position, Range, TextEdit};

fn at(line: u32, character: u32) -> Position {
    Position { line, character }
}

fn change(start: Position, end: Position, text: &str) -> Change {
    Change { range: Some(Range { start, end }), text: text.into() }
}

#[test]
fn changes_in_order() -> Result<(), Error> {
    let mut document = Document::new("a\r\nb\u{1F600}", Encoding::Utf16)?;
    document.change(&[change(at(1, 0), at(1, 1), "XY"), change(at(0, 0), at(0, 0), "Q")])?;
    assert_eq!(document.text(), "Qa\r\nXY\u{1F600}");
    assert_eq!(document.line_count(), 2);
    document.change(&[Change { range: None, text: "new".into() }])?;
    assert_eq!(document.text(), "new");
    Ok(())
}

#[test]
fn refused_changes_leave_the_text() -> Result<(), Error> {
    let mut document = Document::new("\u{1F600}b", Encoding::Utf16)?;
    let faulty = [change(at(0, 0), at(0, 0), "Z"), change(at(0, 1), at(0, 2), "")];
    assert_eq!(document.change(&faulty), Err(Error::InsideCharacter { change: 1, at_end: true }));
    let reversed = [change(at(0, 2), at(0, 0), "")];
    assert_eq!(document.change(&reversed), Err(Error::ReversedRange { change: 0 }));
    assert_eq!(document.text(), "\u{1F600}b");
    Ok(())
}

#[test]
fn positions_both_ways() -> Result<(), Error> {
    for (encoding, character) in [(Encoding::Utf8, 5), (Encoding::Utf16, 3), (Encoding::Utf32, 2)] {
        let document = Document::new("a\r\nb\u{1F600}", encoding)?;
        assert_eq!(document.offset(at(1, character)), Ok(8));
        assert_eq!(document.position(8), Ok(at(1, character)));
        assert_eq!(document.position(2), Err(Error::NoPosition));
        assert_eq!(document.position(9), Err(Error::NoPosition));
    }
    Ok(())
}

#[test]
fn lines() -> Result<(), Error> {
    let mut document = Document::new("a\r\nb\u{1F600}\r\rc\u{2028}d\n", Encoding::Utf16)?;
    let found: Vec<_> = (0..).map_while(|number| document.line(number)).collect();
    assert_eq!(found, ["a", "b\u{1F600}", "", "c\u{2028}d", ""]);
    assert_eq!((document.line_count(), document.line(u32::MAX)), (5, None));
    document.change(&[change(at(1, 0), at(3, 0), "X\n")])?;
    assert_eq!(document.line(1).as_deref(), Some("X"));
    assert_eq!(document.text(), "a\r\nX\nc\u{2028}d\n");
    Ok(())
}

#[test]
fn canonical_batch() -> Result<(), Error> {
    let document = Document::new("abc", Encoding::Utf8)?;
    let changes = [change(at(0, 1), at(0, 1), "X"), change(at(0, 2), at(0, 2), "Y")];
    assert_eq!(document.canonical(&changes)?, [change(at(0, 1), at(0, 1), "XY")]);
    assert_eq!(document.text(), "abc");
    Ok(())
}

#[test]
fn text_edits() -> Result<(), Error> {
    let edit = |start, end, text: &str| TextEdit { range: Range { start, end }, new_text: text.into() };
    let mut document = Document::new("abc", Encoding::Utf16)?;
    let edits = [edit(at(0, 0), at(0, 0), "1"), edit(at(0, 1), at(0, 2), "2")];
    let batch = document.batch_of_edits(&edits)?;
    assert_eq!(batch, [change(at(0, 1), at(0, 2), "2"), change(at(0, 0), at(0, 0), "1")]);
    document.apply_edits(&edits)?;
    assert_eq!(document.text(), "1a2c");
    let over = [edit(at(0, 1), at(0, 3), ""), edit(at(0, 0), at(0, 2), "")];
    assert_eq!(document.apply_edits(&over), Err(Error::Overlap { first: 1, second: 0 }));
    assert_eq!(document.batch_of_edits(&over), Err(Error::Overlap { first: 1, second: 0 }));
    let reversed = [edit(at(0, 2), at(0, 0), "")];
    assert_eq!(document.apply_edits(&reversed), Err(Error::EditReversedRange { edit: 0 }));
    assert_eq!(document.text(), "1a2c");
    Ok(())
}

#[test]
fn faults_name_their_change_or_edit() -> Result<(), Error> {
    let mut document = Document::new("\u{1F600}b", Encoding::Utf16)?;
    let edit = |start, end| TextEdit { range: Range { start: at(0, start), end: at(0, end) }, new_text: String::new() };
    let text = |result: Result<(), Error>| result.unwrap_err().to_string();
    let refused = [
        text(document.change(&[change(at(0, 0), at(0, 0), ""), change(at(0, 0), at(0, 1), "")])),
        text(document.change(&[change(at(0, 2), at(0, 0), "")])),
        text(document.apply_edits(&[edit(0, 0), edit(1, 2)])),
        text(document.batch_of_edits(&[edit(0, 1)]).map(drop)),
        text(document.apply_edits(&[edit(2, 0)])),
        text(document.apply_edits(&[edit(2, 3), edit(0, 3)])),
    ];
    let wanted = [
        "change at index 1: the end of its range lies inside a character",
        "change at index 0: the range is reversed",
        "edit at index 1: the start of its range lies inside a character",
        "edit at index 0: the end of its range lies inside a character",
        "edit at index 0: the range is reversed",
        "edits at the indexes 1 and 0 overlap",
    ];
    assert_eq!(refused, wanted);
    let inside = document.position(1).unwrap_err().to_string();
    assert_eq!(inside, "the position or offset is inside a character, inside a CRLF or past the end");
    Ok(())
}

#[test]
fn goes_to_another_thread() -> Result<(), Error> {
    let document = Document::new("abc", Encoding::Utf8)?;
    let text = std::thread::spawn(move || document.text().to_owned()).join().unwrap();
    assert_eq!(text, "abc");
    Ok(())
}

use laspidru::log::{check, compare, convert, explain, normalise, replay, replay_part, trace};
use laspidru::log::{LogError, LogFault, Part, Settings};
use laspidru::{BadLimit, Limits};

const STALE: &[u8] = include_bytes!("../../../examples/stale-version.log");
const CUT: &[u8] = include_bytes!("../../../examples/cut-short.log");
const TYPING: &[u8] = include_bytes!("../../../examples/typing.log");
const WITH_REPLIES: &[u8] = include_bytes!("../../../examples/typing-with-replies.log");
const SAVES: &[u8] = include_bytes!("../../../examples/two-saves.log");

#[test]
fn commands_write_what_lspsync_does() -> Result<(), LogError> {
    let settings = Settings::default();
    let checked = check(STALE, &settings)?;
    assert_eq!(checked.bytes, b"1 reply\n2 changed\n3 refused S5\n4 refused S4\n5 changed\n");
    assert_eq!((checked.status, checked.messages, checked.refused), (1, 5, 2));
    let lenient = Settings { limits: Limits { lenient: true, ..Limits::default() }, ..settings };
    assert_eq!(check(STALE, &lenient)?.bytes, b"1 reply\n2 changed\n3 changed\n4 refused S4\n5 changed\n");
    assert_eq!(convert(TYPING, &settings)?.bytes, WITH_REPLIES);
    let squash = Settings { squash: true, ..settings };
    let squashed = normalise(SAVES, &squash)?.bytes;
    assert!(squashed.len() < normalise(SAVES, &settings)?.bytes.len());
    assert_eq!(normalise(&squashed, &squash)?.bytes, squashed);
    assert_eq!(replay(&squashed, &settings)?.bytes, replay(SAVES, &settings)?.bytes);
    Ok(())
}

#[test]
fn commands_have_the_options_of_lspsync() -> Result<(), LogError> {
    let settings = Settings::default();
    assert!(explain(STALE, &settings)?.bytes.starts_with(b"1 reply\n2 changed\n3 refused S5 of "));
    assert!(explain(STALE, &Settings { brief: true, ..settings })?.bytes.starts_with(b"3 refused S5 of "));
    let traced = |texts, bodies| trace(STALE, &Settings { texts, bodies, ..settings }).map(|output| output.bytes.len());
    let plain = traced(false, false)?;
    assert!(plain < traced(true, false)? && plain < traced(false, true)?);
    let part = |at, uri| replay_part(STALE, &settings, &Part { at, uri }).map(|output| output.bytes);
    assert_eq!(part(None, Some("file:///a"))?, b"aXc");
    assert_eq!((part(Some(2), Some("file:///a"))?, part(None, None)?), (b"abc".to_vec(), replay(STALE, &settings)?.bytes));
    assert_eq!((part(Some(9), None), part(Some(0), None)), (Err(LogError::NoRecord), Err(LogError::NoRecord)));
    assert_eq!(part(None, Some("file:///none")), Err(LogError::NotOpen));
    let documents = Settings { documents: true, ..settings };
    assert!(normalise(SAVES, &documents)?.bytes.len() <= normalise(SAVES, &settings)?.bytes.len());
    Ok(())
}

#[test]
fn a_saved_text_is_compared() -> Result<(), LogError> {
    let settings = Settings::default();
    let same = compare(STALE, "aXc", None, &settings)?;
    assert_eq!((same.bytes, same.status), (b"\"file:///a\" after message 5: the text is the file's\n".to_vec(), 0));
    let other = compare(STALE, "abc", Some("/a"), &settings)?;
    let text = String::from_utf8_lossy(&other.bytes);
    assert!(text.contains("\nline 1 (made by message 5): \"aXc\"\n") && other.status == 1, "{text}");
    assert_eq!(compare(STALE, "", Some("/b"), &settings), Err(LogError::NotOpen));
    Ok(())
}

#[test]
fn a_fault_has_an_offset_and_the_output_up_to_it() {
    let fault = |fault, offset, output: &[u8]| Err(LogError::Fault { fault, offset, output: output.into() });
    let settings = Settings::default();
    assert_eq!(check(CUT, &settings), fault(LogFault::Cut, 505, b"1 reply\n2 changed\n"));
    assert_eq!(replay(b"Content-Length 2", &settings), fault(LogFault::BadFrame(1), 14, b""));
    assert_eq!(convert(b"lsp-session-log 2\n", &settings), fault(LogFault::BadLog, 0, b""));
    assert_eq!(
        check(b"", &Settings { limits: Limits { max_body: 1, ..Limits::default() }, ..settings }),
        Err(LogError::BadLimit(BadLimit::MaxBody))
    );
    let said = |log: &[u8]| check(log, &settings).unwrap_err().to_string();
    assert_eq!([said(CUT), said(b"Content-Length 2")], ["truncated at byte offset 505", "frame fault F1 at byte offset 14"]);
}

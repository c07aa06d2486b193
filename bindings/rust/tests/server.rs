use laspidru::server::{Answer, EncodingChoice, Server, Settings};
use laspidru::{message_uri, version, BadLimit, Change, Encoding, Error, Limits, Position, Range, Refusal, TextEdit};

const URI: &str = "file:///a";

fn request(id: u32, method: &str, params: &str) -> String {
    format!(r#"{{"jsonrpc":"2.0","id":{id},"method":"{method}","params":{params}}}"#)
}

fn notification(method: &str, params: &str) -> String {
    format!(r#"{{"jsonrpc":"2.0","method":"{method}","params":{params}}}"#)
}

fn open(text: &str) -> String {
    let document = format!(r#"{{"textDocument":{{"uri":"{URI}","languageId":"c","version":1,"text":"{text}"}}}}"#);
    notification("textDocument/didOpen", &document)
}

fn change(version: i32, text: &str) -> String {
    let params = format!(r#"{{"textDocument":{{"uri":"{URI}","version":{version}}},"contentChanges":[{{"text":"{text}"}}]}}"#);
    notification("textDocument/didChange", &params)
}

/// Has the server answered by a frame, with this error code?
fn replies(server: &mut Server, body: &str, wanted: Option<i32>) -> Result<bool, Error> {
    Ok(match server.handle(body.as_bytes())? {
        Answer::Reply { frame, code } => frame.starts_with(b"Content-Length: ") && code == wanted,
        _ => false,
    })
}

fn initialized() -> Result<Server, Error> {
    let mut server = Server::new(&Settings::default())?;
    assert!(replies(&mut server, &request(1, "initialize", r#"{"capabilities":{}}"#), None)?);
    assert_eq!(server.handle(notification("initialized", "{}").as_bytes())?, Answer::Ignored);
    Ok(server)
}

#[test]
fn a_session() -> Result<(), Error> {
    let mut server = initialized()?;
    assert_eq!(server.handle(open("one").as_bytes())?, Answer::Changed);
    assert_eq!(server.document_count(), 1);
    assert_eq!((server.version(URI), server.text(URI).as_deref()), (Some(1), Some("one")));
    assert_eq!(server.handle(change(7, "two\u{1F600}").as_bytes())?, Answer::Changed);
    assert_eq!((server.version(URI), server.text(URI).as_deref()), (Some(7), Some("two\u{1F600}")));
    assert_eq!((server.version("file:///b"), server.text("")), (None, None));
    assert!(replies(&mut server, &request(2, "textDocument/hover", "{}"), Some(-32601))?);
    assert!(replies(&mut server, &request(3, "shutdown", "null"), None)?);
    assert_eq!(server.handle(notification("exit", "null").as_bytes())?, Answer::Exit(0));
    assert_eq!(server.handle(open("one").as_bytes()), Err(Error::Ended));
    Ok(())
}

#[test]
fn refused_notifications_leave_the_documents() -> Result<(), Error> {
    let mut server = initialized()?;
    assert_eq!(server.handle(change(2, "two").as_bytes())?, Answer::Refused(Refusal::NotOpen));
    assert_eq!(server.handle(open("").as_bytes())?, Answer::Changed);
    assert_eq!(server.text(URI).as_deref(), Some(""));
    assert_eq!(server.handle(open("two").as_bytes())?, Answer::Refused(Refusal::AlreadyOpen));
    assert_eq!(server.handle(change(1, "two").as_bytes())?, Answer::Refused(Refusal::StaleVersion));
    assert_eq!((server.version(URI), server.text(URI).as_deref()), (Some(1), Some("")));
    Ok(())
}

#[test]
fn each_refusal_has_its_name() -> Result<(), Error> {
    let choice = EncodingChoice::Fixed(Encoding::Utf16);
    let limits = Limits { max_text: 8, max_docs: 1, max_changes: 1, ..Limits::default() };
    let settings = Settings { limits, choice, ..Settings::default() };
    let mut server = Server::new(&settings)?;
    assert_eq!(server.handle(open("").as_bytes())?, Answer::Dropped);
    assert!(replies(&mut server, &request(1, "initialize", r#"{"capabilities":{}}"#), None)?);
    assert_eq!(server.handle(open("\u{1F600}").as_bytes())?, Answer::Changed);
    let ranged = |start, end| {
        format!(r#"{{"range":{{"start":{{"line":0,"character":{start}}},"end":{{"line":0,"character":{end}}}}},"text":""}}"#)
    };
    let rows = [
        (ranged(0, 1), Refusal::InsideCharacter),
        (ranged(2, 0), Refusal::ReversedRange),
        (r#"{"text":"123456789"}"#.to_owned(), Refusal::TooLong),
        (format!("{0},{0}", ranged(0, 0)), Refusal::TooManyChanges),
        (r#"{"text":1}"#.to_owned(), Refusal::InvalidParams),
    ];
    for (changes, refusal) in rows {
        let params = format!(r#"{{"textDocument":{{"uri":"{URI}","version":2}},"contentChanges":[{changes}]}}"#);
        let body = notification("textDocument/didChange", &params);
        assert_eq!(server.handle(body.as_bytes())?, Answer::Refused(refusal), "{changes}");
    }
    let other = open("").replace(URI, "file:///b");
    assert_eq!(server.handle(other.as_bytes())?, Answer::Refused(Refusal::TooManyDocuments));
    assert_eq!(server.text(URI).as_deref(), Some("\u{1F600}"));
    Ok(())
}

#[test]
fn a_message_names_its_document() -> Result<(), Error> {
    let close = notification("textDocument/didClose", r#"{"textDocument":{"uri":"file:///a"}}"#);
    assert_eq!(message_uri(close.as_bytes())?.as_deref(), Some(URI));
    assert_eq!(message_uri(request(1, "shutdown", "null").as_bytes())?, None);
    Ok(())
}

#[test]
fn settings() -> Result<(), Error> {
    let bad = Settings { limits: Limits { max_body: 1, ..Limits::default() }, ..Settings::default() };
    assert_eq!(Server::new(&bad).map(drop), Err(Error::BadLimit(BadLimit::MaxBody)));
    assert_eq!(BadLimit::MaxBody.to_string(), "max_body is out of its range, 4,096 to 1,073,741,824 bytes");
    assert_eq!((version(), Refusal::StaleVersion.name()), ("0.1.0".into(), "STALE_VERSION".into()));
    let fixed = Settings { choice: EncodingChoice::Fixed(Encoding::Utf8), ..Settings::default() };
    let mut server = Server::new(&fixed)?;
    let body = request(1, "initialize", r#"{"capabilities":{}}"#);
    let Answer::Reply { frame, .. } = server.handle(body.as_bytes())? else { panic!("no reply") };
    assert!(String::from_utf8_lossy(&frame).contains(r#""positionEncoding":"utf-8""#));
    Ok(())
}

fn range(start: u32, end: u32) -> Range {
    Range { start: Position { line: 0, character: start }, end: Position { line: 0, character: end } }
}

#[test]
fn text_edits_on_an_open_document() -> Result<(), Box<dyn std::error::Error>> {
    let mut server = initialized()?;
    let edit = |start, end, text: &str| TextEdit { range: range(start, end), new_text: text.into() };
    assert_eq!(server.batch_of_edits(URI, &[])?, None);
    server.handle(open("abc").as_bytes())?;
    let edits = [edit(0, 0, "1"), edit(1, 2, "2")];
    let wanted =
        vec![Change { range: Some(range(1, 2)), text: "2".into() }, Change { range: Some(range(0, 0)), text: "1".into() }];
    assert_eq!(server.batch_of_edits(URI, &edits)?, Some(wanted));
    let overlapping = [edit(0, 2, ""), edit(1, 3, "")];
    assert_eq!(server.batch_of_edits(URI, &overlapping), Err(Error::Overlap { first: 0, second: 1 }));
    assert_eq!(server.batch_of_edits(URI, &[edit(1, 0, "")]), Err(Error::EditReversedRange { edit: 0 }));
    assert_eq!((server.version(URI), server.text(URI).as_deref()), (Some(1), Some("abc")));
    Ok(())
}

#[test]
fn the_canonical_message_of_changes() -> Result<(), Box<dyn std::error::Error>> {
    let mut server = initialized()?;
    let change = |start, end, text: &str| Change { range: Some(range(start, end)), text: text.into() };
    let refused = |refusal| Err(Error::Refused(refusal));
    assert_eq!(server.canonical_message(URI, 2, &[]), refused(Refusal::NotOpen));
    server.handle(open("abc").as_bytes())?;
    assert_eq!(server.canonical_message(URI, 1, &[]), refused(Refusal::StaleVersion));
    let reversed = server.canonical_message(URI, 2, &[change(1, 0, "")]);
    assert_eq!(reversed, Err(Error::ReversedRange { change: 0 }));
    let frame = server.canonical_message(URI, 2, &[change(0, 1, "x"), change(1, 1, "y")])?;
    let body = concat!(
        r#"{"jsonrpc":"2.0","method":"textDocument/didChange","params":{"contentChanges":[{"range":{"end":"#,
        r#"{"character":1,"line":0},"start":{"character":0,"line":0}},"text":"xy"}],"textDocument":"#,
        r#"{"uri":"file:///a","version":2}}}"#
    );
    assert_eq!(String::from_utf8(frame.clone())?, format!("Content-Length: {}\r\n\r\n{body}", body.len()));
    assert_eq!((server.version(URI), server.text(URI).as_deref()), (Some(1), Some("abc")));
    server.receive(&frame);
    assert_eq!(server.next_message()?, Some((body.as_bytes().to_vec(), Answer::Changed)));
    assert_eq!((server.version(URI), server.text(URI).as_deref()), (Some(2), Some("xybc")));
    Ok(())
}

#[test]
fn a_request_between_two_changes() -> Result<(), Error> {
    let mut server = initialized()?;
    let asks = request(2, "textDocument/hover", "{}");
    for body in [&open("one"), &asks, &change(2, "two"), &asks] {
        server.receive(format!("Content-Length: {}\r\n\r\n{body}", body.len()).as_bytes());
    }
    let mut texts = Vec::new();
    while let Some((_, answer)) = server.next_message()? {
        if matches!(answer, Answer::Reply { code: Some(-32601), .. }) {
            texts.extend(server.text(URI));
        }
    }
    assert_eq!(texts, ["one", "two"]);
    Ok(())
}

#[test]
fn the_encoding_is_known_once_it_is_chosen() -> Result<(), Error> {
    let mut server =
        Server::new(&Settings { choice: EncodingChoice::Negotiated { prefer: Encoding::Utf8 }, ..Settings::default() })?;
    assert_eq!(server.encoding(), None);
    let offers = r#"{"capabilities":{"general":{"positionEncodings":["utf-8"]}}}"#;
    assert!(replies(&mut server, &request(1, "initialize", offers), None)?);
    assert_eq!(server.encoding(), Some(Encoding::Utf8));
    Ok(())
}

#[test]
fn goes_to_another_thread() -> Result<(), Error> {
    let server = initialized()?;
    assert_eq!(std::thread::spawn(move || server.document_count()).join().unwrap(), 0);
    Ok(())
}

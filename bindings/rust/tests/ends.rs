//! A client and a server that talk.

use laspidru::client::{Client, Delivered, Phase, Reason};
use laspidru::server::{Answer, EncodingChoice, Server};
use laspidru::{client, server, BadLimit, Change, Document, Encoding, Error, Framer, Limits, Position, Range, Refusal};

fn ready() -> Client {
    let mut client = Client::new(&client::Settings { utf8: true, ..Default::default() }).unwrap();
    client.start().unwrap();
    let body = br#"{"jsonrpc":"2.0","id":1,"result":{"capabilities":{"positionEncoding":"utf-8","textDocumentSync":2}}}"#;
    assert!(matches!(client.deliver(body), Ok(Delivered::Send(_))));
    client
}

/// Both ends, with this text open, in this encoding.
fn opened(text: &str, encoding: Encoding) -> (Client, Server) {
    let choice = EncodingChoice::Negotiated { prefer: encoding };
    let mut server = Server::new(&server::Settings { choice, ..Default::default() }).unwrap();
    let mut client = Client::new(&client::Settings { utf8: true, utf32: true, ..Default::default() }).unwrap();
    server.receive(&client.start().unwrap());
    let Some((_, Answer::Reply { frame, code: None })) = server.next_message().unwrap() else { panic!("no reply") };
    client.receive(&frame);
    let Some((_, Delivered::Send(frame))) = client.next_message().unwrap() else { panic!("nothing to send") };
    server.receive(&frame);
    server.receive(&client.open("a", "c", 1, text).unwrap());
    let answers: Vec<_> = std::iter::from_fn(|| server.next_message().unwrap()).map(|(_, answer)| answer).collect();
    assert_eq!(answers, [Answer::Ignored, Answer::Changed]);
    (client, server)
}

#[test]
fn positions_are_those_of_a_document() {
    let text = "a\r\nb\u{1F600}";
    for encoding in [Encoding::Utf8, Encoding::Utf16, Encoding::Utf32] {
        let ((client, server), document) = (opened(text, encoding), Document::new(text, encoding).unwrap());
        assert_eq!((client.encoding(), server.encoding()), (Some(encoding), Some(encoding)));
        for line in 0..4 {
            let wanted = document.line(line);
            assert_eq!((client.line("a", line), server.line("a", line)), (wanted.clone(), wanted));
            for character in 0..8 {
                let position = Position { line, character };
                let wanted = document.offset(position).map(Some);
                assert_eq!((client.offset("a", position), server.offset("a", position)), (wanted, wanted));
            }
        }
        for offset in 0..11 {
            let wanted = document.position(offset).map(Some);
            assert_eq!((client.position("a", offset), server.position("a", offset)), (wanted, wanted));
        }
    }
}

#[test]
fn positions_that_there_are_not() {
    let (client, server) = opened("\u{1F600}", Encoding::Utf16);
    let inside = Position { line: 0, character: 1 };
    assert_eq!((server.offset("a", inside), client.offset("a", inside)), (Err(Error::NoPosition), Err(Error::NoPosition)));
    assert_eq!((server.position("a", 5), client.position("a", 1)), (Err(Error::NoPosition), Err(Error::NoPosition)));
    assert_eq!((server.line("a", 1), server.line("b", 0), client.line("", 0)), (None, None, None));
    assert_eq!((server.offset("b", inside), client.offset("b", inside)), (Ok(None), Ok(None)));
    assert_eq!((server.position("b", 0), client.position("b", 0)), (Ok(None), Ok(None)));
}

#[test]
fn refused_calls_say_why() {
    let mut client = Client::new(&client::Settings::default()).unwrap();
    assert_eq!(client.open("a", "c", 1, ""), Err(Error::WrongPhase));
    assert_eq!((client.phase(), client.encoding()), (Phase::New, None));
    let mut client = ready();
    assert_eq!((client.phase(), client.encoding()), (Phase::Ready, Some(Encoding::Utf8)));
    assert_eq!(client.edit("a", 1, &[]), Err(Error::Refused(Refusal::NotOpen)));
    client.open("a", "c", 1, "\u{e9}").unwrap();
    assert_eq!(client.open("a", "c", 1, ""), Err(Error::Refused(Refusal::AlreadyOpen)));
    assert_eq!(client.edit("a", 1, &[]), Err(Error::Refused(Refusal::StaleVersion)));
    let range = |start, end| Range { start: Position { line: 0, character: start }, end: Position { line: 0, character: end } };
    let inside = Change { range: Some(range(0, 1)), text: String::new() };
    let reversed = Change { range: Some(range(2, 0)), text: String::new() };
    assert_eq!(client.edit("a", 2, &[inside]), Err(Error::InsideCharacter { change: 0, at_end: true }));
    assert_eq!(client.edit("a", 2, &[reversed]), Err(Error::ReversedRange { change: 0 }));
    assert_eq!((client.version("a"), client.text("a").as_deref()), (Some(1), Some("\u{e9}")));
    assert_eq!(client.deliver(b"{"), Ok(Delivered::BadServer(Reason::NotAnAnswer)));
    assert_eq!(client.phase(), Phase::Failed(Reason::NotAnAnswer));
    assert_eq!(client.deliver(b"{}"), Err(Error::WrongPhase));
    assert_eq!(client.text("a").as_deref(), Some("\u{e9}"));
    let bad = client::Settings { limits: Limits { max_body: 1, ..Default::default() }, ..Default::default() };
    assert_eq!(Client::new(&bad).err(), Some(Error::BadLimit(BadLimit::MaxBody)));
}

#[test]
fn phases_in_order() {
    let mut client = Client::new(&client::Settings::default()).unwrap();
    let mut phases = vec![client.phase()];
    client.start().unwrap();
    phases.push(client.phase());
    client.deliver(br#"{"jsonrpc":"2.0","id":1,"result":{"capabilities":{"textDocumentSync":2}}}"#).unwrap();
    phases.push(client.phase());
    client.shutdown().unwrap();
    phases.push(client.phase());
    client.deliver(br#"{"jsonrpc":"2.0","id":2,"result":null}"#).unwrap();
    phases.push(client.phase());
    client.exit().unwrap();
    phases.push(client.phase());
    assert_eq!(phases, [Phase::New, Phase::Asked, Phase::Ready, Phase::Closing, Phase::Closed, Phase::Done]);
}

#[test]
fn errors_have_words() {
    let words = [Error::OutOfMemory, Error::Refused(Refusal::NotOpen), Error::WrongPhase, Error::Ended, Error::Failed]
        .map(|it| it.to_string());
    let wanted = [
        "out of memory",
        "no document of this URI is open",
        "not in this phase of the session",
        "the session has ended",
        "a frame was faulty before",
    ];
    assert_eq!(words, wanted);
    assert_eq!(Error::Frame { number: 5, offset: 20 }.to_string(), "frame fault F5 at byte offset 20");
}

#[test]
fn streams() {
    let mut framer = Framer::new(4096).unwrap();
    framer.receive(b"Content-Length: 1\r\n\r\nxContent-Length: 0\r\n\r\nContent-Le");
    assert_eq!(framer.bodies().collect::<Result<Vec<_>, _>>(), Ok(vec![b"x".to_vec(), vec![]]));
    assert!(framer.bodies().next().is_none() && !framer.is_at_rest());
    framer.receive(b"ngth: 1\r\n\r\ny");
    assert_eq!(framer.bodies().collect::<Result<Vec<_>, _>>(), Ok(vec![b"y".to_vec()]));
    assert!(framer.is_at_rest());
    framer.receive(b"Content-Length 2");
    let fault = Error::Frame { number: 1, offset: 43 + 22 + 14 };
    assert_eq!((framer.next_body(), framer.next_body()), (Err(fault), Err(Error::Failed)));
    assert!(framer.bodies().next().is_none());
    assert_eq!(Framer::new(4095).err(), Some(Error::BadLimit(BadLimit::MaxBody)));
    let mut server = Server::new(&server::Settings::default()).unwrap();
    server.receive(b"Content-Length: x\r\n\r\n");
    assert_eq!(server.next_message(), Err(Error::Frame { number: 5, offset: 20 }));
}

#[test]
fn ends_may_go_to_another_thread() {
    fn is_send<T: Send>(_: &T) {}
    let (client, server) = (ready(), Server::new(&server::Settings::default()).unwrap());
    is_send(&Framer::new(4096).unwrap());
    is_send(&client);
    is_send(&server);
    assert_eq!(std::thread::spawn(move || client.document_count()).join().unwrap(), 0);
}

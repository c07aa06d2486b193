//! Both ends of sessions in Rust, as `bindings/sessions` asks for them.

use laspidru::client::{self, Client, Delivered, Reason};
use laspidru::server::{self, Answer, ChangeForm, EncodingChoice, Refusal, Server};
use laspidru::{Change, Encoding, Limits, Position, Range};
use std::collections::VecDeque;
use std::error::Error;
use std::io::Write;

type Frames = VecDeque<Vec<u8>>;

const URIS: [&str; 3] = ["file:///a", "file:///b", "file:///c"];

/// Both ends, and the frames that wait for them.
struct Session {
    client: Client,
    server: Server,
    to_server: Frames,
    to_client: Frames,
}

fn plain(text: &str) -> String {
    text.split("\\\\").map(|part| part.replace("\\n", "\n").replace("\\r", "\r")).collect::<Vec<_>>().join("\\")
}

fn escaped(text: &str) -> String {
    text.replace('\\', "\\\\").replace('\n', "\\n").replace('\r', "\\r")
}

/// The code of laspidru.h.
fn code(refusal: Refusal) -> u32 {
    match refusal {
        Refusal::TooLong => 5,
        Refusal::InsideCharacter => 6,
        Refusal::ReversedRange => 7,
        Refusal::NotOpen => 14,
        Refusal::AlreadyOpen => 15,
        Refusal::TooManyDocuments => 16,
        Refusal::StaleVersion => 17,
        Refusal::TooManyChanges => 18,
        Refusal::InvalidParams => 19,
        refusal => panic!("a refusal without a number: {refusal:?}"),
    }
}

fn sent(found: Result<Vec<u8>, laspidru::Error>, to_server: &mut Frames) -> String {
    let refused = match found {
        Ok(frame) => {
            to_server.push_back(frame);
            return "sent".into();
        }
        Err(laspidru::Error::WrongPhase) => 28,
        Err(laspidru::Error::Refused(refusal)) => code(refusal),
        Err(laspidru::Error::InsideCharacter { .. }) => 6,
        Err(laspidru::Error::ReversedRange { .. }) => 7,
        Err(error) => panic!("{error:?}"),
    };
    format!("refused {refused}")
}

impl Session {
    fn new(line: &str) -> Result<Self, Box<dyn Error>> {
        let numbers = line.split(' ').skip(1).map(str::parse).collect::<Result<Vec<usize>, _>>()?;
        let &[utf8, utf32, preferred, full, max_text, max_docs, max_changes] = &numbers[..] else {
            return Err("a session has seven numbers".into());
        };
        let encoding = match preferred {
            8 => Encoding::Utf8,
            16 => Encoding::Utf16,
            _ => Encoding::Utf32,
        };
        let limits = Limits { max_text, max_docs, max_changes, ..Default::default() };
        let offers = client::Settings { limits, utf8: utf8 > 0, utf32: utf32 > 0 };
        let choice = EncodingChoice::Negotiated { prefer: encoding };
        let sync = if full > 0 { ChangeForm::Full } else { ChangeForm::Incremental };
        let settings = server::Settings { limits, choice, sync };
        let (client, server) = (Client::new(&offers)?, Server::new(&settings)?);
        Ok(Session { client, server, to_server: Frames::new(), to_client: Frames::new() })
    }

    /// Delivers the first message that waits for the server, in two pieces.
    fn serve(&mut self) -> Result<String, Box<dyn Error>> {
        let Some(frame) = self.to_server.pop_front() else {
            return Ok("nothing".into());
        };
        let (first, rest) = frame.split_at(frame.len() * 2 / 3);
        self.server.receive(first);
        assert!(self.server.next_message()?.is_none());
        self.server.receive(rest);
        let (_, answer) = self.server.next_message()?.ok_or("no message is whole")?;
        let (kind, reason, status, error) = match answer {
            Answer::Reply { frame, code } => {
                self.to_client.push_back(frame);
                (0, 0, 0, code.unwrap_or(0))
            }
            Answer::Changed => (1, 0, 0, 0),
            Answer::Dropped => (2, 0, 0, 0),
            Answer::Ignored => (3, 0, 0, 0),
            Answer::Refused(refusal) => (4, code(refusal), 0, 0),
            Answer::Exit(status) => (5, 0, status, 0),
            answer => return Err(format!("an answer without a number: {answer:?}").into()),
        };
        Ok(format!("server {kind} {reason} {status} {error}"))
    }

    /// The same for the client.
    fn hear(&mut self) -> Result<String, Box<dyn Error>> {
        let Some(frame) = self.to_client.pop_front() else {
            return Ok("nothing".into());
        };
        let (first, rest) = frame.split_at(frame.len() * 2 / 3);
        self.client.receive(first);
        assert!(self.client.next_message()?.is_none());
        self.client.receive(rest);
        let (_, delivered) = self.client.next_message()?.ok_or("no message is whole")?;
        let (kind, reason) = match delivered {
            Delivered::Send(frame) => {
                self.to_server.push_back(frame);
                (0, 0)
            }
            Delivered::Ignored => (3, 0),
            Delivered::Noted => (6, 0),
            Delivered::BadServer(Reason::BadEncoding) => (7, 8),
            Delivered::BadServer(Reason::NotAnAnswer) => (7, 29),
            Delivered::BadServer(Reason::ErrorAnswer) => (7, 30),
            Delivered::BadServer(Reason::NoSync) => (7, 31),
            delivered => return Err(format!("a delivery without a number: {delivered:?}").into()),
        };
        Ok(format!("client {kind} {reason}"))
    }

    fn end(&self) -> String {
        let mut found = vec![format!("waiting {} {}", self.to_server.len(), self.to_client.len())];
        for uri in URIS {
            if let (Some(version), Some(text)) = (self.client.version(uri), self.client.text(uri)) {
                found.push(format!("client {uri} {version} {}", escaped(&text)));
            }
            if let (Some(version), Some(text)) = (self.server.version(uri), self.server.text(uri)) {
                found.push(format!("server {uri} {version} {}", escaped(&text)));
            }
        }
        found.join("\n")
    }
}

fn change(line: &str) -> Result<Change, Box<dyn Error>> {
    let parts: Vec<&str> = line.splitn(6, ' ').collect();
    let place = |at: usize| -> Result<Position, Box<dyn Error>> {
        Ok(Position { line: parts[at].parse()?, character: parts[at + 1].parse()? })
    };
    let range = Range { start: place(1)?, end: place(3)? };
    Ok(Change { range: (parts[0] == "change").then_some(range), text: plain(parts[5]) })
}

fn main() -> Result<(), Box<dyn Error>> {
    let input = std::io::read_to_string(std::io::stdin())?;
    let mut output = std::io::BufWriter::new(std::io::stdout());
    let mut lines = input.split_terminator('\n');
    let mut session = Session::new("session 0 0 16 0 1 1 1")?;
    while let Some(line) = lines.next() {
        let parts: Vec<&str> = line.splitn(4, ' ').collect();
        let found = match parts[0] {
            "session" => {
                session = Session::new(line)?;
                continue;
            }
            "start" => sent(session.client.start(), &mut session.to_server),
            "shutdown" => sent(session.client.shutdown(), &mut session.to_server),
            "exit" => sent(session.client.exit(), &mut session.to_server),
            "open" => {
                let found = session.client.open(parts[1], "c", parts[2].parse()?, &plain(parts[3]));
                sent(found, &mut session.to_server)
            }
            "close" => sent(session.client.close(parts[1]), &mut session.to_server),
            "edit" => {
                let count = parts[3].parse()?;
                let changes = lines.by_ref().take(count).map(change).collect::<Result<Vec<_>, _>>()?;
                sent(session.client.edit(parts[1], parts[2].parse()?, &changes), &mut session.to_server)
            }
            "toServer" => session.serve()?,
            "toClient" => session.hear()?,
            "end" => session.end(),
            word => return Err(format!("{word} is no event").into()),
        };
        writeln!(output, "{found}")?;
    }
    output.flush()?;
    Ok(())
}

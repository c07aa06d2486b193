//! Answers the vectors by laspidru, for ask.py: a vector on each line of standard input, and a line of JSON for it.
//!
//! Copy this file, and replace `answer` by what asks your library. As an example of your crate, `examples/vectors.rs`, it is run by
//! `ask.py cargo run -q --example vectors`. It needs `serde_json`.
use laspidru::server::{Answer, EncodingChoice, Refusal, Server, Settings};
use laspidru::{Change, Document, Encoding, Error, Framer, Position, Range, TextEdit};
use serde_json::{json, Value};
use std::collections::BTreeSet;
use std::io::{stdin, stdout, Write};

type Result<T> = std::result::Result<T, Box<dyn std::error::Error>>;

const FAULTS: [&str; 7] =
    ["bad-header", "header-too-long", "missing-length", "repeated-header", "bad-length", "body-too-long", "bad-charset"];

fn encoding_of(vector: &Value) -> Encoding {
    match vector["encoding"].as_str() {
        Some("utf-8") => Encoding::Utf8,
        Some("utf-32") => Encoding::Utf32,
        _ => Encoding::Utf16,
    }
}

/// A position, or `None` if a number of it is no `u32`: such a vector can't be asked.
fn position(value: &Value) -> Option<Position> {
    let number = |name| value[name].as_u64().and_then(|number| number.try_into().ok());
    Some(Position { line: number("line")?, character: number("character")? })
}

fn range(value: &Value) -> Option<Range> {
    Some(Range { start: position(&value["start"])?, end: position(&value["end"])? })
}

fn change(value: &Value) -> Option<Change> {
    let found = if value["range"].is_null() { None } else { Some(range(&value["range"])?) };
    Some(Change { range: found, text: value["text"].as_str()?.into() })
}

fn edit(value: &Value) -> Option<TextEdit> {
    Some(TextEdit { range: range(&value["range"])?, new_text: value["newText"].as_str()?.into() })
}

fn all<T>(values: &Value, read: fn(&Value) -> Option<T>) -> Option<Vec<T>> {
    values.as_array()?.iter().map(read).collect()
}

/// A refusal of the library, and no other error.
fn refused(error: Error) -> Result<Value> {
    let end = |at_end| if at_end { "end" } else { "start" };
    Ok(match error {
        Error::InsideCharacter { change, at_end } => {
            json!({"refused": "inside-character", "change": change, "end": end(at_end)})
        }
        Error::ReversedRange { change } => json!({"refused": "reversed-range", "change": change}),
        Error::EditInsideCharacter { edit, at_end } => json!({"refused": "inside-character", "edit": edit, "end": end(at_end)}),
        Error::EditReversedRange { edit } => json!({"refused": "reversed-range", "edit": edit}),
        Error::Overlap { first, second } => json!({"refused": "overlap", "edit": first, "other": second}),
        error => return Err(error.into()),
    })
}

fn text_left(vector: &Value) -> Result<Value> {
    let mut document = Document::new(vector["text"].as_str().ok_or("no text")?, encoding_of(vector))?;
    let done = if vector["edits"].is_array() {
        let Some(edits) = all(&vector["edits"], edit) else { return Ok(Value::Null) };
        document.apply_edits(&edits)
    } else {
        let Some(changes) = all(&vector["changes"], change) else { return Ok(Value::Null) };
        document.change(&changes)
    };
    done.map_or_else(refused, |()| Ok(json!({"text": document.text()})))
}

fn word(answer: &Answer) -> Result<&'static str> {
    Ok(match answer {
        Answer::Changed => "changed",
        Answer::Refused(Refusal::InvalidParams) => "invalid-params",
        Answer::Refused(Refusal::AlreadyOpen) => "already-open",
        Answer::Refused(Refusal::NotOpen) => "not-open",
        Answer::Refused(Refusal::StaleVersion) => "stale-version",
        Answer::Refused(Refusal::InsideCharacter) => "inside-character",
        Answer::Refused(Refusal::ReversedRange) => "reversed-range",
        answer => return Err(format!("an unexpected answer: {answer:?}").into()),
    })
}

fn session(vector: &Value) -> Result<Value> {
    let mut server = Server::new(&Settings { choice: EncodingChoice::Fixed(encoding_of(vector)), ..Default::default() })?;
    server.handle(br#"{"jsonrpc":"2.0","id":1,"method":"initialize","params":{"capabilities":{}}}"#)?;
    let (mut answers, mut uris) = (vec![], BTreeSet::new());
    for message in vector["messages"].as_array().ok_or("no messages")? {
        let body = json!({"jsonrpc": "2.0", "method": message["method"], "params": message["params"]});
        answers.push(word(&server.handle(body.to_string().as_bytes())?)?);
        uris.extend(message["params"]["textDocument"]["uri"].as_str());
    }
    let document = |uri| Some(json!({"uri": uri, "version": server.version(uri)?, "text": server.text(uri)?}));
    Ok(json!({"answers": answers, "documents": uris.into_iter().filter_map(document).collect::<Vec<_>>()}))
}

fn stream(vector: &Value) -> Result<Value> {
    let (mut framer, mut bodies) = (Framer::new(16_777_216)?, vec![]);
    for piece in vector["pieces"].as_array().ok_or("no pieces")? {
        let bytes = piece.as_str().ok_or("no text")?.chars().map(u8::try_from).collect::<std::result::Result<Vec<_>, _>>()?;
        framer.receive(&bytes);
        for body in framer.bodies() {
            match body {
                Ok(body) => bodies.push(body.into_iter().map(char::from).collect::<String>()),
                Err(Error::Frame { number, offset }) => {
                    return Ok(json!({"bodies": bodies, "fault": {"why": FAULTS[number as usize - 1], "offset": offset}}));
                }
                Err(error) => return Err(error.into()),
            }
        }
    }
    Ok(json!({"bodies": bodies, "fault": null}))
}

fn answer(vector: &Value) -> Result<Value> {
    match vector {
        vector if vector["messages"].is_array() => session(vector),
        vector if vector["pieces"].is_array() => stream(vector),
        vector => text_left(vector),
    }
}

fn main() -> Result<()> {
    for line in stdin().lines() {
        let found = answer(&serde_json::from_str(&line?)?).unwrap_or_else(|error| json!({"error": error.to_string()}));
        writeln!(stdout(), "{found}")?;
    }
    Ok(())
}

//! A language server over standard input, in Rust. Hover shows the document as the server has it.
use laspidru::message_uri;
use laspidru::server::{Answer, Server, Settings};
use serde_json::{json, Value};
use std::error::Error;
use std::io::{Read, Write};
use std::process::ExitCode;

fn frame(message: &Value) -> Vec<u8> {
    let body = message.to_string();
    format!("Content-Length: {}\r\n\r\n{body}", body.len()).into_bytes()
}

/// What is sent: laspidru's reply, or in its place our own.
fn reply(server: &Server, body: &[u8], given: Vec<u8>, code: Option<i32>) -> Result<Vec<u8>, serde_json::Error> {
    let request: Value = serde_json::from_slice(body).unwrap_or_default();
    match (request["method"].as_str(), code) {
        (Some("initialize"), None) => {
            let start = given.windows(4).position(|bytes| bytes == b"\r\n\r\n").map_or(0, |at| at + 4);
            let mut answer: Value = serde_json::from_slice(&given[start..])?;
            answer["result"]["capabilities"]["hoverProvider"] = json!(true);
            Ok(frame(&answer))
        }
        (Some("textDocument/hover"), Some(-32601)) => {
            let text = request["params"]["textDocument"]["uri"].as_str().and_then(|uri| server.text(uri));
            let result = text.map(|text| json!({ "contents": [text] }));
            Ok(frame(&json!({ "jsonrpc": "2.0", "id": request["id"], "result": result })))
        }
        _ => Ok(given),
    }
}

fn main() -> Result<ExitCode, Box<dyn Error>> {
    let mut server = Server::new(&Settings::default())?;
    let (mut input, mut output, mut piece) = (std::io::stdin(), std::io::stdout(), [0; 65536]);
    loop {
        let count = input.read(&mut piece)?;
        if count == 0 {
            return Ok(ExitCode::FAILURE);
        }
        server.receive(&piece[..count]);
        while let Some((body, answer)) = server.next_message()? {
            match answer {
                Answer::Reply { frame, code } => {
                    if let Some(code @ (-32700 | -32600)) = code {
                        eprintln!("faulty: {code}"); // a change may be lost with it
                    }
                    output.write_all(&reply(&server, &body, frame, code)?)?;
                }
                Answer::Refused(reason) => eprintln!("{} refused: {reason}", message_uri(&body)?.unwrap_or_default()),
                Answer::Exit(status) => return Ok(ExitCode::from(status)),
                _ => {} // changed, dropped or ignored
            }
        }
        output.flush()?;
    }
}

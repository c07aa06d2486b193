//! A server by lsp-server whose documents are laspidru's. Hover shows the document.
use laspidru::{Change, Document, Encoding};
use lsp_server::{Connection, ErrorCode, Message, Notification, Request, Response};
use lsp_types::notification::{DidChangeTextDocument, DidCloseTextDocument, DidOpenTextDocument, Notification as _, ShowMessage};
use lsp_types::request::{HoverRequest, Request as _};
use lsp_types::*;
use serde_json::{from_value, json};
use std::collections::HashMap;
use std::error::Error;

/// A document, and its version
struct Open {
    document: Document,
    version: i32,
}

struct Documents {
    encoding: Encoding,
    open: HashMap<Url, Open>,
}

impl Documents {
    fn open(&mut self, item: TextDocumentItem) -> Result<(), String> {
        let document = Document::new(&item.text, self.encoding).map_err(|error| error.to_string())?;
        self.open.insert(item.uri, Open { document, version: item.version });
        Ok(())
    }

    /// Makes all changes, or says why it makes none.
    fn change(&mut self, uri: &Url, version: i32, changes: Vec<TextDocumentContentChangeEvent>) -> Result<(), String> {
        let open = self.open.get_mut(uri).ok_or("not open")?;
        if version <= open.version {
            return Err(format!("version {version} was sent, and the current one is {}", open.version));
        }
        let changes: Vec<Change> = changes.into_iter().map(Change::from).collect();
        open.document.change(&changes).map_err(|error| error.to_string())?;
        open.version = version;
        Ok(())
    }

    /// Takes a notification. What is refused is for the user: from then on the editor's text may differ.
    fn notified(&mut self, Notification { method, params }: Notification) -> Result<Option<String>, serde_json::Error> {
        let (uri, done) = match method.as_str() {
            DidOpenTextDocument::METHOD => {
                let item = from_value::<DidOpenTextDocumentParams>(params)?.text_document;
                (item.uri.clone(), self.open(item))
            }
            DidChangeTextDocument::METHOD => {
                let DidChangeTextDocumentParams { text_document: it, content_changes } = from_value(params)?;
                let done = self.change(&it.uri, it.version, content_changes);
                (it.uri, done)
            }
            DidCloseTextDocument::METHOD => {
                self.open.remove(&from_value::<DidCloseTextDocumentParams>(params)?.text_document.uri);
                return Ok(None);
            }
            _ => return Ok(None),
        };
        Ok(done.err().map(|why| format!("{uri}: refused: {why}. Please reopen it.")))
    }

    fn answer(&self, Request { id, method, params }: Request) -> Result<Response, serde_json::Error> {
        if method != HoverRequest::METHOD {
            return Ok(Response::new_err(id, ErrorCode::MethodNotFound as i32, method));
        }
        let uri = from_value::<HoverParams>(params)?.text_document_position_params.text_document.uri;
        Ok(Response::new_ok(id, self.open.get(&uri).map(|open| json!({ "contents": open.document.text() }))))
    }
}

/// UTF-8 if the client offers it, else UTF-16, which each client has.
fn encoding_for(client: &ClientCapabilities) -> (Encoding, PositionEncodingKind) {
    let offered = client.general.as_ref().and_then(|it| it.position_encodings.as_deref()).unwrap_or_default();
    let is_utf8 = offered.contains(&PositionEncodingKind::UTF8);
    if is_utf8 { (Encoding::Utf8, PositionEncodingKind::UTF8) } else { (Encoding::Utf16, PositionEncodingKind::UTF16) }
}

fn main() -> Result<(), Box<dyn Error + Sync + Send>> {
    let (connection, threads) = Connection::stdio();
    let (id, params) = connection.initialize_start()?;
    let (encoding, kind) = encoding_for(&from_value::<InitializeParams>(params)?.capabilities);
    let capabilities = json!({ "positionEncoding": kind, "textDocumentSync": 2 /* incremental */, "hoverProvider": true });
    connection.initialize_finish(id, json!({ "capabilities": capabilities }))?;
    let mut documents = Documents { encoding, open: HashMap::new() };
    for message in &connection.receiver {
        match message {
            Message::Request(request) if connection.handle_shutdown(&request)? => break,
            Message::Request(request) => connection.sender.send(documents.answer(request)?.into())?,
            Message::Notification(notification) => {
                if let Some(message) = documents.notified(notification)? {
                    let params = ShowMessageParams { typ: MessageType::ERROR, message };
                    connection.sender.send(Notification::new(ShowMessage::METHOD.into(), params).into())?;
                }
            }
            Message::Response(_) => {}
        }
    }
    drop(connection);
    Ok(threads.join()?)
}

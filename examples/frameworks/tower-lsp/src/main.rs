//! A server by tower-lsp whose documents are laspidru's. Hover shows the document.
use laspidru::{Change, Document, Encoding};
use std::collections::HashMap;
use std::sync::{Mutex, OnceLock};
use tower_lsp::jsonrpc::Result;
use tower_lsp::lsp_types::*;
use tower_lsp::{Client, LanguageServer, LspService, Server};

/// A document, and its version
struct Open {
    document: Document,
    version: i32,
}

struct Backend {
    client: Client,
    encoding: OnceLock<Encoding>,
    documents: Mutex<HashMap<Url, Open>>,
}

impl Backend {
    fn open(&self, item: TextDocumentItem) -> std::result::Result<(), laspidru::Error> {
        let document = Document::new(&item.text, *self.encoding.get_or_init(|| Encoding::Utf16))?;
        self.documents.lock().unwrap().insert(item.uri, Open { document, version: item.version });
        Ok(())
    }

    /// Makes all changes, or says why it makes none.
    fn change(&self, uri: &Url, version: i32, changes: &[Change]) -> std::result::Result<(), String> {
        let mut documents = self.documents.lock().unwrap();
        let open = documents.get_mut(uri).ok_or("not open")?;
        if version <= open.version {
            return Err(format!("version {version} was sent, and the current one is {}", open.version));
        }
        open.document.change(changes).map_err(|error| error.to_string())?;
        open.version = version;
        Ok(())
    }

    /// Warns the user: from now on the editor's text may differ.
    async fn warn(&self, uri: &Url, why: impl std::fmt::Display) {
        self.client.show_message(MessageType::ERROR, format!("{uri}: refused: {why}. Please reopen it.")).await;
    }
}

#[tower_lsp::async_trait]
impl LanguageServer for Backend {
    async fn initialize(&self, params: InitializeParams) -> Result<InitializeResult> {
        // UTF-8 if the client offers it, else UTF-16, which each client has
        let offered = params.capabilities.general.and_then(|it| it.position_encodings).unwrap_or_default();
        let is_utf8 = offered.contains(&PositionEncodingKind::UTF8);
        self.encoding.get_or_init(|| if is_utf8 { Encoding::Utf8 } else { Encoding::Utf16 });
        let capabilities = ServerCapabilities {
            position_encoding: is_utf8.then_some(PositionEncodingKind::UTF8),
            text_document_sync: Some(TextDocumentSyncCapability::Kind(TextDocumentSyncKind::INCREMENTAL)),
            hover_provider: Some(HoverProviderCapability::Simple(true)),
            ..Default::default()
        };
        Ok(InitializeResult { capabilities, ..Default::default() })
    }

    async fn did_open(&self, params: DidOpenTextDocumentParams) {
        let uri = params.text_document.uri.clone();
        if let Err(why) = self.open(params.text_document) {
            self.warn(&uri, why).await;
        }
    }

    async fn did_change(&self, params: DidChangeTextDocumentParams) {
        let VersionedTextDocumentIdentifier { uri, version } = params.text_document;
        let changes: Vec<Change> = params.content_changes.into_iter().map(Change::from).collect();
        if let Err(why) = self.change(&uri, version, &changes) {
            self.warn(&uri, why).await;
        }
    }

    async fn did_close(&self, params: DidCloseTextDocumentParams) {
        self.documents.lock().unwrap().remove(&params.text_document.uri);
    }

    async fn hover(&self, params: HoverParams) -> Result<Option<Hover>> {
        let uri = params.text_document_position_params.text_document.uri;
        let text = self.documents.lock().unwrap().get(&uri).map(|open| open.document.text().to_owned());
        Ok(text.map(|text| Hover { contents: HoverContents::Scalar(MarkedString::String(text)), range: None }))
    }

    async fn shutdown(&self) -> Result<()> {
        Ok(())
    }
}

#[tokio::main(flavor = "current_thread")]
async fn main() {
    let (service, socket) = LspService::new(|client| Backend { client, encoding: OnceLock::new(), documents: Mutex::default() });
    // one message at a time, in their order
    Server::new(tokio::io::stdin(), tokio::io::stdout(), socket).concurrency_level(1).serve(service).await;
}

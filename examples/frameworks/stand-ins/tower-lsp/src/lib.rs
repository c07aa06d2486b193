//! A small stand-in of tower-lsp 0.20, for the test alone: the calls and types of the server beside it, written after that crate's
//! interface. It reads lines and no messages: the words of each are between tabs, and `\\`, `\n`, `\r` stand for what they escape.
//!
//!     open URI TEXT                                                 (its version is 0)
//!     change URI VERSION [LINE CHARACTER LINE CHARACTER TEXT ..]    (four times `-` before the text of a whole text)
//!     hover URI                                                     (the answer is a line with the text)
//!     close URI
//!
//! The first line that it prints is the encoding of positions. With the word `utf-8` the client offers UTF-8 too.
//! What the user is shown is a line on standard error.
pub use attributes::async_trait;
use jsonrpc::Result;
use lsp_types::*;
use std::io::{stdin, BufRead};

pub mod jsonrpc {
    #[derive(Debug)]
    pub struct Error;
    pub type Result<T> = std::result::Result<T, Error>;
}

pub mod lsp_types {
    pub use ::lsp_types::{Position, Range, TextDocumentContentChangeEvent};

    #[derive(Clone, Debug, PartialEq, Eq, Hash)]
    pub struct Url(pub String);

    impl std::fmt::Display for Url {
        fn fmt(&self, f: &mut std::fmt::Formatter<'_>) -> std::fmt::Result {
            f.write_str(&self.0)
        }
    }

    pub struct TextDocumentItem {
        pub uri: Url,
        pub language_id: String,
        pub version: i32,
        pub text: String,
    }

    pub struct TextDocumentIdentifier {
        pub uri: Url,
    }

    pub struct VersionedTextDocumentIdentifier {
        pub uri: Url,
        pub version: i32,
    }

    pub struct DidOpenTextDocumentParams {
        pub text_document: TextDocumentItem,
    }

    pub struct DidChangeTextDocumentParams {
        pub text_document: VersionedTextDocumentIdentifier,
        pub content_changes: Vec<TextDocumentContentChangeEvent>,
    }

    pub struct DidCloseTextDocumentParams {
        pub text_document: TextDocumentIdentifier,
    }

    pub struct TextDocumentPositionParams {
        pub text_document: TextDocumentIdentifier,
        pub position: Position,
    }

    pub struct HoverParams {
        pub text_document_position_params: TextDocumentPositionParams,
    }

    pub enum MarkedString {
        String(String),
    }

    pub enum HoverContents {
        Scalar(MarkedString),
    }

    pub struct Hover {
        pub contents: HoverContents,
        pub range: Option<Range>,
    }

    #[derive(Clone, PartialEq, Eq)]
    pub struct PositionEncodingKind(pub &'static str);

    impl PositionEncodingKind {
        pub const UTF8: Self = PositionEncodingKind("utf-8");
        pub const UTF16: Self = PositionEncodingKind("utf-16");
    }

    pub struct GeneralClientCapabilities {
        pub position_encodings: Option<Vec<PositionEncodingKind>>,
    }

    pub struct ClientCapabilities {
        pub general: Option<GeneralClientCapabilities>,
    }

    pub struct InitializeParams {
        pub capabilities: ClientCapabilities,
    }

    #[derive(Default)]
    pub struct InitializeResult {
        pub capabilities: ServerCapabilities,
        pub server_info: Option<()>,
    }

    #[derive(Default)]
    pub struct ServerCapabilities {
        pub position_encoding: Option<PositionEncodingKind>,
        pub text_document_sync: Option<TextDocumentSyncCapability>,
        pub hover_provider: Option<HoverProviderCapability>,
    }

    pub enum TextDocumentSyncCapability {
        Kind(TextDocumentSyncKind),
    }

    pub struct MessageType(#[allow(dead_code)] i32);

    impl MessageType {
        pub const ERROR: Self = MessageType(1);
    }

    #[derive(PartialEq, Eq)]
    pub struct TextDocumentSyncKind(i32);

    impl TextDocumentSyncKind {
        pub const INCREMENTAL: Self = TextDocumentSyncKind(2);
    }

    pub enum HoverProviderCapability {
        Simple(bool),
    }
}

#[allow(async_fn_in_trait)]
pub trait LanguageServer: Send + Sync + 'static {
    async fn initialize(&self, params: InitializeParams) -> Result<InitializeResult>;
    async fn did_open(&self, params: DidOpenTextDocumentParams);
    async fn did_change(&self, params: DidChangeTextDocumentParams);
    async fn did_close(&self, params: DidCloseTextDocumentParams);
    async fn hover(&self, params: HoverParams) -> Result<Option<Hover>>;
    async fn shutdown(&self) -> Result<()>;
}

pub struct Client;

impl Client {
    pub async fn show_message<M: std::fmt::Display>(&self, _: MessageType, message: M) {
        eprintln!("{message}");
    }
}

pub struct ClientSocket;

pub struct LspService<S>(S);

impl<S: LanguageServer> LspService<S> {
    pub fn new(init: impl FnOnce(Client) -> S) -> (Self, ClientSocket) {
        (LspService(init(Client)), ClientSocket)
    }
}

pub struct Server;

impl Server {
    pub fn new<I, O>(_: I, _: O, _: ClientSocket) -> Self {
        Server
    }

    pub fn concurrency_level(self, _: usize) -> Self {
        self
    }

    pub async fn serve<S: LanguageServer>(self, service: LspService<S>) {
        let server = service.0;
        let encodings = std::env::args().any(|word| word == "utf-8").then(|| vec![PositionEncodingKind::UTF16, PositionEncodingKind::UTF8]);
        let general = Some(GeneralClientCapabilities { position_encodings: encodings });
        let initialized = server.initialize(InitializeParams { capabilities: ClientCapabilities { general } }).await.unwrap();
        println!("{}", initialized.capabilities.position_encoding.map_or("utf-16", |kind| kind.0));
        for line in stdin().lock().split(b'\n') {
            handle(&server, &String::from_utf8(line.unwrap()).unwrap()).await;
        }
        server.shutdown().await.unwrap();
    }
}

async fn handle<S: LanguageServer>(server: &S, line: &str) {
    let words: Vec<&str> = line.split('\t').collect();
    let uri = Url(words[1].into());
    match words[0] {
        "open" => {
            let text_document = TextDocumentItem { uri, language_id: "plain".into(), version: 0, text: plain(words[2]) };
            server.did_open(DidOpenTextDocumentParams { text_document }).await;
        }
        "change" => {
            let text_document = VersionedTextDocumentIdentifier { uri, version: words[2].parse().unwrap() };
            let content_changes = words[3..].chunks(5).map(change).collect();
            server.did_change(DidChangeTextDocumentParams { text_document, content_changes }).await;
        }
        "hover" => {
            let (text_document, position) = (TextDocumentIdentifier { uri }, Position { line: 0, character: 0 });
            let text_document_position_params = TextDocumentPositionParams { text_document, position };
            let hover = server.hover(HoverParams { text_document_position_params }).await.unwrap();
            println!("{}", hover.map_or("none".into(), |it| escaped(&it)));
        }
        "close" => server.did_close(DidCloseTextDocumentParams { text_document: TextDocumentIdentifier { uri } }).await,
        word => panic!("{word} is no message"),
    }
}

fn change(words: &[&str]) -> TextDocumentContentChangeEvent {
    let position = |at: usize| Some(Position { line: words[at].parse().ok()?, character: words[at + 1].parse().ok()? });
    let range = position(0).zip(position(2)).map(|(start, end)| Range { start, end });
    TextDocumentContentChangeEvent { range, range_length: None, text: plain(words[4]) }
}

fn plain(text: &str) -> String {
    text.split("\\\\").map(|part| part.replace("\\n", "\n").replace("\\r", "\r")).collect::<Vec<_>>().join("\\")
}

fn escaped(hover: &Hover) -> String {
    let HoverContents::Scalar(MarkedString::String(text)) = &hover.contents;
    text.replace('\\', "\\\\").replace('\n', "\\n").replace('\r', "\\r")
}

// Texts that are kept as LSP 3.17 says, and both ends of a session, by a library that is proved (docs/node.md).

/** A position: a line, counted from 0, and the UTF-16 units before it in that line. Both are integers from 0 to 2^32 - 1. */
export interface Position {
  line: number;
  character: number;
}

export interface Range {
  start: Position;
  end: Position;
}

/** A change of a didChange: a text in place of a range, or of the whole text. A `rangeLength` is ignored. */
export type TextDocumentContentChangeEvent = { range: Range; rangeLength?: number; text: string } | { text: string };

/** A text edit, as a formatter returns it. */
export interface TextEdit {
  range: Range;
  newText: string;
}

/**
 * What a refused call throws; it changed nothing. Its message says what the code means, as `WHY` does. A value of another type is a TypeError without a code.
 *
 * - `INSIDE_CHARACTER`: a position or an offset lies inside a surrogate pair; a byte offset also inside a CRLF or past the end.
 * - `REVERSED_RANGE`: a range of a change or a text edit starts after its end.
 * - `OVERLAP`: two text edits overlap.
 * - `OUT_OF_RANGE`: no such line, or a number that is no integer from 0 to 2^32 - 1.
 * - `EMPTY`: the document is closed.
 * - `TOO_LONG`: a text has more than 1,073,741,824 bytes of UTF-8.
 * - `OUT_OF_MEMORY`
 * - `BAD_MAX_BODY` to `BAD_MAX_CHANGES`, `BAD_ENCODING`: of the ends, and of the commands on logs.
 * - `WRONG_PHASE`, `ENDED`: of an end that is not, or no more, in the phase for the call; `FAILED`: after a faulty frame.
 * - `NOT_OPEN` to `STALE_VERSION`: of a client's calls on documents.
 */
export interface Refusal extends RangeError {
  code:
    | 'INSIDE_CHARACTER'
    | 'REVERSED_RANGE'
    | 'OVERLAP'
    | 'OUT_OF_RANGE'
    | 'EMPTY'
    | 'TOO_LONG'
    | 'OUT_OF_MEMORY'
    | 'BAD_MAX_BODY'
    | 'BAD_MAX_TEXT'
    | 'BAD_MAX_DOCS'
    | 'BAD_MAX_CHANGES'
    | 'BAD_ENCODING'
    | 'WRONG_PHASE'
    | 'ENDED'
    | 'FAILED'
    | 'NOT_OPEN'
    | 'ALREADY_OPEN'
    | 'TOO_MANY_DOCUMENTS'
    | 'TOO_MANY_CHANGES'
    | 'STALE_VERSION';
  /** The faulty change, counted from 0, of `update` and `canonical`. */
  change?: number;
  /** The faulty text edit, counted from 0, of `applyEdits` and `batchOfEdits`. */
  edit?: number;
  /** `OVERLAP`: the other text edit. */
  other?: number;
  /** Is the fault in the end of the range? */
  atEnd?: boolean;
}

/** A document with the members of vscode-languageserver-textdocument's. */
export class TextDocument {
  private constructor();

  /** A document of a text. A lone surrogate in it becomes U+FFFD. */
  static create(uri: string, languageId: string, version: number, content: string): TextDocument;

  /** Makes the changes of a didChange, in order, or throws and makes none of them. Returns `document`. */
  static update(document: TextDocument, changes: TextDocumentContentChangeEvent[], version: number): TextDocument;

  /** The text that text edits leave. All count in the text as it is, and `document` stays as it is. */
  static applyEdits(document: TextDocument, edits: TextEdit[]): string;

  /** The one canonical batch that means the same as these changes. `document` stays as it is. */
  static canonical(document: TextDocument, changes: TextDocumentContentChangeEvent[]): TextDocumentContentChangeEvent[];

  /** The canonical batch of what text edits mean: the changes of the didChange that reports them. */
  static batchOfEdits(document: TextDocument, edits: TextEdit[]): TextDocumentContentChangeEvent[];

  readonly uri: string;
  readonly languageId: string;
  readonly version: number;
  readonly lineCount: number;

  /** A line, counted from 0, without its line end. The rest of the text is not read. */
  lineAt(line: number): string;

  /** The text, or the part in a range. The ends of a reversed range are swapped. */
  getText(range?: Range): string;

  /** The index in the text of a position. One after the line's end is the line's end. The first call after a change reads the text. */
  offsetAt(position: Position): number;

  /** The position of an index in the text. One before the start is the start, one past the end the end, one inside a CRLF the end of its line. */
  positionAt(offset: number): Position;

  /** Frees the text at once; else the collector does. Each later call that needs it throws, with the code `EMPTY`. */
  close(): void;
}

export interface Limits {
  /** 4,096 to 1,073,741,824 bytes of a message; 16,777,216 where it isn't given. */
  maxBody?: number;
  /** Up to 1,073,741,824 bytes of a document; 16,777,216 where it isn't given. */
  maxText?: number;
  /** 1 to 65,536 documents; 1,024 where it isn't given. */
  maxDocs?: number;
  /** 1 to 1,048,576 changes in a message; 65,536 where it isn't given. */
  maxChanges?: number;
  /** Whether a change of any version is taken, and an open document may be opened again. */
  lenient?: boolean;
}

/** A faulty frame. No more of its stream is taken; `events` has what `receive` had before it. */
export class FrameFault<Event = unknown> extends Error {
  private constructor();
  readonly code: 'BAD_FRAME';
  /** The byte offset in the stream on which the fault was decided. */
  readonly offset: number;
  /** 1 to 7, for F1 to F7 of docs/PROTOCOL.md. */
  readonly frame: number;
  readonly events: Event[];
}

/** Takes a stream apart into the bodies of its messages, in whatever pieces it comes. */
export class Framer {
  constructor(options?: { maxBody?: number });

  /** The bodies of the messages that end in these bytes. A faulty frame throws FrameFault. */
  receive(bytes: Uint8Array): Buffer[];

  /** May the stream end here? */
  readonly isAtRest: boolean;
}

export type Encoding = 'utf-8' | 'utf-16' | 'utf-32';

/** What an end did with a message: its body, and the document that it opens, changes or closes. `why` says what `reason` means. */
export interface MessageEvent {
  /** A Buffer; of `handle` and `deliver` the bytes that they were passed. */
  body: Uint8Array;
  readonly uri: string | undefined;
}

/** What a server did with a message. */
export type ServerEvent = MessageEvent & (
  /** `frame` is to be sent. A request that the server doesn't handle has the error -32601: it is yours, and your answer goes in its place. */
  | { kind: 'replied'; frame: Buffer; error: number }
  | { kind: 'changed' | 'dropped' | 'ignored' }
  | { kind: 'refused'; reason: string; why: string }
  | { kind: 'exited'; status: 0 | 1 }
);

/** What a client did with a message of the server. */
export type ClientEvent = MessageEvent & (
  | { kind: 'send'; frame: Buffer }
  | { kind: 'noted' | 'ignored' }
  | { kind: 'bad-server'; reason: 'NOT_AN_ANSWER' | 'ERROR_ANSWER' | 'NO_SYNC' | 'BAD_ENCODING'; why: string }
);

/** What both ends have. What is asked of open documents is undefined where no document of the URI is open. */
export interface End<Event> {
  /**
   * What the end does with each message that ends in these bytes. Each is handled at its own step: until the next one the documents
   * are those that a request speaks of. A faulty frame throws FrameFault at its step, with no `events`. A loop that ends early leaves the
   * rest to the next call.
   */
  messages(bytes: Uint8Array): IterableIterator<Event & { body: Buffer }>;

  /**
   * The same as an array, once all of these messages are handled: a server's documents are then those after the last one. So answer
   * requests by `messages`. A faulty frame throws FrameFault.
   */
  receive(bytes: Uint8Array): (Event & { body: Buffer })[];

  /** What the end does with the body of a message. */
  handle(body: Uint8Array): Event;

  /** Of a server `new`, `ready`, `closed` or `done`. */
  readonly phase: 'new' | 'asked' | 'ready' | 'closing' | 'closed' | 'done' | 'failed';
  /** The encoding of positions that was agreed on. */
  readonly encoding: Encoding | undefined;
  readonly documentCount: number;

  version(uri: string): number | undefined;
  text(uri: string): string | undefined;

  /** A line, counted from 0, without its line end. The rest of the text is not read. */
  lineAt(uri: string, line: number): string | undefined;

  /**
   * The byte offset of a position, in the UTF-8 of the text. One after the line's end is the line's end. Positions count units of the
   * session's encoding, or of this one.
   */
  byteOffset(uri: string, position: Position, encoding?: Encoding): number | undefined;

  /** The exact position of a byte offset, in the session's encoding or in this one. */
  position(uri: string, byteOffset: number, encoding?: Encoding): Position | undefined;

  /** A position of the session's encoding in another one. In `utf-16` its character is an index in `lineAt(uri, ..)`. */
  positionIn(uri: string, position: Position, encoding: Encoding): Position | undefined;

  /** The canonical batch of what text edits mean on the open document of a URI: the changes of the didChange that reports them. */
  batchOfEdits(uri: string, edits: TextEdit[]): TextDocumentContentChangeEvent[];

  /** The frame of the one canonical didChange that means the same as these changes of the open document of a URI. */
  canonicalMessage(uri: string, version: number, changes: TextDocumentContentChangeEvent[]): Buffer;
}

export interface Server extends End<ServerEvent> {}

/** A server's end of a session, without input and output of its own. */
export class Server {
  /**
   * `encoding`, by default utf-16, is taken where the client offers it, else utf-16. With `isFixed` it is taken whatever is offered. LSP
   * 3.17 allows one that was offered, or utf-16: fix another only for logs, or where you write the editor too. `wholeTexts` asks for whole
   * texts.
   */
  constructor(options?: Limits & { encoding?: Encoding; isFixed?: boolean; wholeTexts?: boolean });
}

export interface Client extends End<ClientEvent> {}

/**
 * A client's end of a session: it keeps an editor's documents, and each call returns the bytes to send. UTF-16 is always offered, after
 * UTF-8 and before UTF-32: an order that LSP reads as a preference. What it receives changes no document: its own calls do.
 */
export class Client {
  constructor(options?: Limits & { utf8?: boolean; utf32?: boolean });

  start(): Buffer;
  open(uri: string, languageId: string, version: number, text: string): Buffer;
  /** One `textDocument/didChange`, with the canonical batch, or where the server asked for it with the whole text. */
  edit(uri: string, version: number, changes: TextDocumentContentChangeEvent[]): Buffer;
  close(uri: string): Buffer;
  shutdown(): Buffer;
  exit(): Buffer;

  /** The same as `handle`. */
  deliver(body: Uint8Array): ClientEvent;
}

export interface LogOptions extends Limits {
  /** What positions of a log of version 1 count; `utf-16` where it isn't given. */
  encoding?: Encoding;
}

/** A log: its bytes, or in Node the path or the URL of a file, or the number of one that is open. */
export type Log = Uint8Array | string | URL | number;

export interface LogOutput {
  output: Buffer;
  /** 1 where something was refused, or of `compare` where the texts differ; else 0. */
  status: number;
  messages: number;
  refused: number;
  /** The objects of the lines of JSON that `trace` and `replay` write. */
  readonly records: any[];
}

/** A fault of a log. `output` is what was written up to it. */
export class LogFault extends Error {
  private constructor();
  readonly code: 'CUT' | 'BAD_FRAME' | 'BODY_TOO_LONG' | 'BAD_LOG';
  /** A byte offset in the log. */
  readonly offset: number;
  /** `BAD_FRAME`: 1 to 7, for F1 to F7 of docs/PROTOCOL.md; else 0. */
  readonly frame: number;
  readonly output: Buffer;
}

/**
 * What a server answers to each record of a log, a line for each; with `explain` why, and what is suspicious; with
 * `brief` only lines that have that, with `all` each note on its line. Both mean `explain` too.
 */
export function check(log: Log, options?: LogOptions & { explain?: boolean; brief?: boolean; all?: boolean }): LogOutput;

/** All that is known of each record of a log, a line of JSON for each, also with its document's text and its body. */
export function trace(log: Log, options?: LogOptions & { texts?: boolean; bodies?: boolean }): LogOutput;

/**
 * The documents that are open at the end of a log, or after the record `at`, a line of JSON for each; with `uri` the text of one. It throws
 * with the code `OUT_OF_RANGE` where there is no such record, and with `NOT_OPEN` where the document was never open.
 */
export function replay(log: Log, options?: LogOptions & { at?: number; uri?: string }): LogOutput;

/**
 * Whether the last text of a document is `saved`, as its editor saved it, and else which message made each line that
 * differs. The document is the one whose URI ends as `uri`; without it as the path of `saved`, or else the only one. It
 * throws with the code `NOT_OPEN` where there is none, and with `NOT_UTF8` where `saved` isn't UTF-8.
 */
export function compare(log: Log, saved: Log, options?: LogOptions & { uri?: string }): LogOutput;

/**
 * The log with each accepted change as its canonical message; with `squash` each run of changes of one document as one, with `documents`
 * without the records that are neither about the session nor about a text.
 */
export function normalise(log: Log, options?: LogOptions & { squash?: boolean; documents?: boolean }): LogOutput;

/** A log of version 1 in version 2, with the replies that a server gives. */
export function convert(log: Log, options?: LogOptions): LogOutput;

export interface LogFrom {
  log: Buffer;
  /** The form that was known, in words. */
  form: string;
  /** Which session the log is of, from 1, and all that there are; `root` is '' where it isn't known. */
  session: number;
  sessions: { line: number; messages: number; documents: number; root: string }[];
  /** What can't be known of the session, in sentences. */
  doubts: string[];
  /** What ended the reading, with its line, or ''. The log is of what comes before it. */
  fault: string;
}

/**
 * A log of what an editor or a server wrote by itself, as `bin/log-from` makes it; of several sessions the one of this number, or the last. It
 * throws with the code `UNKNOWN_FORM` where it knows no such form, and with `BAD_LOG` where there is no message.
 */
export function logFrom(log: Log, options?: { session?: number }): LogFrom;

/** What each code means, by its name. */
export const WHY: Record<string, string>;

/** The version of the library. */
export const version: string;

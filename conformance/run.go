// Answers the vectors by laspidru, for ask.py: a vector on each line of standard input, and a line of JSON for it.
//
// Copy this file, and replace answer by what asks your library. In this folder, once `make library` has made the library:
//
//	./ask.py go run run.go
package main

/*
#cgo CFLAGS: -I${SRCDIR}/../crates/laspidru/include
#cgo LDFLAGS: ${SRCDIR}/../build/liblaspidru.a
#include "laspidru.h"

static laspidru_settings defaults(void) {
	laspidru_settings settings = LASPIDRU_SETTINGS_DEFAULT;
	return settings;
}
*/
import "C"

import (
	"bufio"
	"encoding/json"
	"errors"
	"fmt"
	"os"
)

type position struct{ Line, Character int64 }

// edit is a change of a didChange, or a text edit.
type edit struct {
	Range   *struct{ Start, End position }
	Text    string
	NewText string
}

type message struct {
	Method string          `json:"method"`
	Params json.RawMessage `json:"params"`
}

type vector struct {
	Encoding, Text string
	Changes, Edits []edit
	Messages       []message
	Pieces         []string
}

type object = map[string]any

var errNotAsked = errors.New("a number doesn't fit into a position")

var units = map[string]C.laspidru_u32{"utf-8": C.LASPIDRU_UTF8, "utf-16": C.LASPIDRU_UTF16, "utf-32": C.LASPIDRU_UTF32}

var refusals = map[C.laspidru_u32]string{
	C.LASPIDRU_INSIDE_CHARACTER: "inside-character", C.LASPIDRU_REVERSED_RANGE: "reversed-range", C.LASPIDRU_OVERLAP: "overlap",
	C.LASPIDRU_INVALID_PARAMS: "invalid-params", C.LASPIDRU_ALREADY_OPEN: "already-open", C.LASPIDRU_NOT_OPEN: "not-open",
	C.LASPIDRU_STALE_VERSION: "stale-version",
}

var faults = []string{"", "bad-header", "header-too-long", "missing-length", "repeated-header", "bad-length", "body-too-long", "bad-charset"}

// passed returns bytes as the library takes them: a pointer that isn't nil, also where there are none.
func passed(bytes []byte) (*C.uchar, C.laspidru_size) {
	room := make([]byte, len(bytes)+1)
	copy(room, bytes)
	return (*C.uchar)(&room[0]), C.laspidru_size(len(bytes))
}

// copied returns bytes that a call copies out.
func copied(count C.laspidru_size, call func(out *C.uchar, room C.laspidru_size, copied *C.laspidru_size) C.laspidru_u32) ([]byte, error) {
	out, found := make([]byte, count+1), C.laspidru_size(0)
	err := demand(call((*C.uchar)(&out[0]), count, &found))
	return out[:found], err
}

func demand(code C.laspidru_u32) error {
	if code == C.LASPIDRU_OK {
		return nil
	}
	return fmt.Errorf("code %d", code)
}

func (p position) passed() (C.laspidru_position, bool) {
	found := C.laspidru_position{line: C.laspidru_u32(p.Line), character: C.laspidru_u32(p.Character)}
	return found, int64(found.line) == p.Line && int64(found.character) == p.Character
}

// passedEdits returns edits, with one more that isn't counted, and their texts.
func passedEdits(edits []edit) ([]C.laspidru_edit, []byte, error) {
	found, texts, fits := make([]C.laspidru_edit, len(edits)+1), []byte{}, true
	for index, it := range edits {
		text := it.Text + it.NewText
		found[index].len, found[index].is_whole = C.laspidru_size(len(text)), it.Range == nil
		texts = append(texts, text...)
		if it.Range != nil {
			start, first := it.Range.Start.passed()
			end, second := it.Range.End.passed()
			found[index].start, found[index].end, fits = start, end, fits && first && second
		}
	}
	if !fits {
		return nil, nil, errNotAsked
	}
	return found, texts, nil
}

// refused is a refusal of the library, and no other error.
func refused(code C.laspidru_u32, noun string, index, other C.laspidru_size, atEnd C.laspidru_bool) (object, error) {
	word, isRefusal := refusals[code]
	if !isRefusal {
		return nil, demand(code)
	}
	found := object{"refused": word, noun: index}
	switch code {
	case C.LASPIDRU_INSIDE_CHARACTER:
		found["end"] = map[bool]string{false: "start", true: "end"}[bool(atEnd)]
	case C.LASPIDRU_OVERLAP:
		found["other"] = other
	}
	return found, nil
}

func textLeft(it vector) (object, error) {
	edits, newTexts, err := passedEdits(append(it.Changes, it.Edits...))
	if err != nil {
		return nil, err
	}
	var document C.laspidru_handle
	defer C.laspidru_handle_free(&document)
	text, textLen := passed([]byte(it.Text))
	if err := demand(C.laspidru_document_new(&document, text, textLen)); err != nil {
		return nil, err
	}
	count := C.laspidru_size(len(edits) - 1)
	texts, textsLen := passed(newTexts)
	if it.Edits != nil {
		var fault C.laspidru_edits_fault
		code := C.laspidru_document_apply_edits(&document, units[it.Encoding], &edits[0], count, texts, textsLen, &fault)
		if code != C.LASPIDRU_OK {
			return refused(code, "edit", fault.edit, fault.other, fault.at_end)
		}
	} else {
		var fault C.laspidru_fault
		code := C.laspidru_document_change(&document, units[it.Encoding], &edits[0], count, texts, textsLen, &fault)
		if code != C.LASPIDRU_OK {
			return refused(code, "change", fault.change, 0, fault.at_end)
		}
	}
	var length C.laspidru_length
	if err := demand(C.laspidru_document_size(&document, &length)); err != nil {
		return nil, err
	}
	left, err := copied(length.bytes, func(out *C.uchar, room C.laspidru_size, found *C.laspidru_size) C.laspidru_u32 {
		return C.laspidru_document_copy(&document, 0, out, room, found)
	})
	return object{"text": string(left)}, err
}

// handled hands a message to a server, and returns the word for what became of it.
func handled(server *C.laspidru_handle, it object) (string, error) {
	it["jsonrpc"] = "2.0"
	written, err := json.Marshal(it)
	if err != nil {
		return "", err
	}
	body, bodyLen := passed(written)
	var answer C.laspidru_answer
	if err := demand(C.laspidru_session_deliver(server, body, bodyLen, &answer)); err != nil {
		return "", err
	}
	switch answer.kind {
	case C.LASPIDRU_REFUSED:
		return refusals[answer.reason], nil
	case C.LASPIDRU_CHANGED:
		return "changed", nil
	}
	return fmt.Sprintf("kind %d", answer.kind), nil
}

// documentOf returns the document of a URI, or nil where none is open.
func documentOf(server *C.laspidru_handle, uri string) (object, error) {
	var opened C.laspidru_opened
	name, nameLen := passed([]byte(uri))
	switch code := C.laspidru_session_document_state(server, name, nameLen, &opened); code {
	case C.LASPIDRU_OK:
	case C.LASPIDRU_NOT_OPEN:
		return nil, nil
	default:
		return nil, demand(code)
	}
	text, err := copied(opened.bytes, func(out *C.uchar, room C.laspidru_size, found *C.laspidru_size) C.laspidru_u32 {
		return C.laspidru_session_document_text(server, name, nameLen, 0, out, room, found)
	})
	return object{"uri": uri, "version": opened.version, "text": string(text)}, err
}

func session(it vector) (object, error) {
	var server C.laspidru_handle
	defer C.laspidru_handle_free(&server)
	settings := C.defaults()
	settings.encoding, settings.is_fixed = units[it.Encoding], true
	if err := demand(C.laspidru_server_new(&server, &settings)); err != nil {
		return nil, err
	}
	if _, err := handled(&server, object{"id": 1, "method": "initialize", "params": object{"capabilities": object{}}}); err != nil {
		return nil, err
	}
	answers, documents, seen := []string{}, []object{}, map[string]bool{}
	for _, it := range it.Messages {
		word, err := handled(&server, object{"method": it.Method, "params": it.Params})
		if err != nil {
			return nil, err
		}
		var params struct{ TextDocument struct{ URI string } }
		if err := json.Unmarshal(it.Params, &params); err != nil {
			return nil, err
		}
		answers, seen[params.TextDocument.URI] = append(answers, word), true
	}
	for uri := range seen {
		document, err := documentOf(&server, uri)
		if err != nil {
			return nil, err
		}
		if document != nil {
			documents = append(documents, document)
		}
	}
	return object{"answers": answers, "documents": documents}, nil
}

// textOf returns the text whose characters are these bytes, and bytesOf the way back.
func textOf(bytes []byte) string {
	runes := make([]rune, len(bytes))
	for index, it := range bytes {
		runes[index] = rune(it)
	}
	return string(runes)
}

func bytesOf(text string) (bytes []byte) {
	for _, it := range text {
		bytes = append(bytes, byte(it))
	}
	return bytes
}

// take hands a piece of a stream to a framer, and returns the bodies that end in it.
func take(framer *C.laspidru_handle, piece []byte, taken *C.laspidru_taken) (bodies []string, code C.laspidru_u32) {
	for code == C.LASPIDRU_OK && len(piece) > 0 {
		rest, restLen := passed(piece)
		if code = C.laspidru_framer_feed(framer, rest, restLen, taken); code != C.LASPIDRU_OK {
			return bodies, code
		}
		piece = piece[taken.bytes:]
		if !taken.is_whole {
			continue
		}
		body, err := copied(taken.body_len, func(out *C.uchar, room C.laspidru_size, found *C.laspidru_size) C.laspidru_u32 {
			return C.laspidru_framer_body(framer, 0, out, room, found)
		})
		if err != nil {
			return bodies, C.LASPIDRU_FAILED
		}
		bodies = append(bodies, textOf(body))
		code = C.laspidru_framer_next(framer)
	}
	return bodies, code
}

func stream(pieces []string) (object, error) {
	var framer C.laspidru_handle
	defer C.laspidru_handle_free(&framer)
	if err := demand(C.laspidru_framer_new(&framer, 16777216)); err != nil {
		return nil, err
	}
	var taken C.laspidru_taken
	bodies := []string{}
	for _, piece := range pieces {
		found, code := take(&framer, bytesOf(piece), &taken)
		bodies = append(bodies, found...)
		if code == C.LASPIDRU_BAD_FRAME {
			return object{"bodies": bodies, "fault": object{"why": faults[taken.frame], "offset": taken.offset}}, nil
		}
		if err := demand(code); err != nil {
			return nil, err
		}
	}
	return object{"bodies": bodies, "fault": nil}, nil
}

func answer(line []byte) (object, error) {
	var it vector
	if err := json.Unmarshal(line, &it); err != nil {
		return nil, err
	}
	switch {
	case it.Messages != nil:
		return session(it)
	case it.Pieces != nil:
		return stream(it.Pieces)
	}
	return textLeft(it)
}

func main() {
	lines := bufio.NewScanner(os.Stdin)
	lines.Buffer(nil, 1<<24)
	output := json.NewEncoder(os.Stdout) // it ends each value with a line end
	for lines.Scan() {
		found, err := answer(lines.Bytes())
		if errors.Is(err, errNotAsked) {
			found, err = nil, nil
		}
		if err != nil {
			found = object{"error": err.Error()}
		}
		if err := output.Encode(found); err != nil {
			fmt.Fprintln(os.Stderr, err)
			os.Exit(1)
		}
	}
}

//! Reads a vector from each line of its input, and writes what a rope has after its changes. Lines end where Helix's do
//! (LF, CRLF). As Helix does, it takes a character past a line's end for that end, and a line past the last one for the
//! text's end.
use ropey::Rope;
use serde_json::{json, Value};

/// The end of a line, without what ends it, in characters of the rope.
fn line_end(rope: &Rope, line: usize) -> usize {
    let text = rope.line(line);
    let ending = text.chars_at(text.len_chars()).reversed().take(2).collect::<Vec<char>>();
    let ending_length = match ending[..] {
        ['\n', '\r'] => 2,
        ['\n', ..] => 1,
        _ => 0,
    };
    rope.line_to_char(line) + text.len_chars() - ending_length
}

/// A position as an index of the rope, or none where it is inside a character.
fn index(rope: &Rope, position: &Value, encoding: &str) -> Option<usize> {
    let line = usize::try_from(position["line"].as_u64()?).ok()?;
    if line >= rope.len_lines() {
        return Some(rope.len_chars());
    }
    let character = usize::try_from(position["character"].as_u64()?).ok()?;
    let (start, end) = (rope.line_to_char(line), line_end(rope, line));
    match encoding {
        "utf-8" => {
            let (start, end) = (rope.char_to_byte(start), rope.char_to_byte(end));
            let offset = start.saturating_add(character).min(end);
            let found = rope.byte_to_char(offset);
            Some(found).filter(|found| rope.char_to_byte(*found) == offset)
        }
        "utf-16" => {
            let (start, end) = (rope.char_to_utf16_cu(start), rope.char_to_utf16_cu(end));
            let offset = start.saturating_add(character).min(end);
            let found = rope.utf16_cu_to_char(offset);
            Some(found).filter(|found| rope.char_to_utf16_cu(*found) == offset)
        }
        _ => Some(start.saturating_add(character).min(end)),
    }
}

/// Makes a list of edits, all of which are of the rope as it comes.
fn make(rope: &mut Rope, edits: &[Value], text: &str, encoding: &str) -> Option<()> {
    let mut found = Vec::new();
    for edit in edits {
        let new = edit[text].as_str()?;
        if edit["range"].is_null() {
            found.push((0, rope.len_chars(), new));
            continue;
        }
        let start = index(rope, &edit["range"]["start"], encoding)?;
        let end = index(rope, &edit["range"]["end"], encoding)?;
        found.push((start, end, new));
    }
    found.sort_by_key(|(start, end, _)| (*start, *end));
    for (start, end, new) in found.into_iter().rev() {
        rope.try_remove(start..end).ok()?;
        rope.try_insert(start, new).ok()?;
    }
    Some(())
}

fn main() {
    for line in std::io::stdin().lines() {
        let vector: Value = serde_json::from_str(&line.expect("a line")).expect("JSON");
        let encoding = vector["encoding"].as_str().expect("an encoding");
        let mut rope = Rope::from_str(vector["text"].as_str().expect("a text"));
        let done = match (vector["changes"].as_array(), vector["edits"].as_array()) {
            (Some(changes), _) => changes.chunks(1).try_for_each(|change| make(&mut rope, change, "text", encoding)),
            (_, edits) => make(&mut rope, edits.expect("edits"), "newText", encoding),
        };
        let answer = done.map_or(json!({ "refused": "a position" }), |()| json!({ "text": rope.to_string() }));
        println!("{answer}");
    }
}

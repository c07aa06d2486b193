//! letter LINES: what one inserted letter costs through the binding for Rust, in nanoseconds of the processor: the least of many short rounds.
use laspidru::{Change, Document, Encoding, Error, Position, Range};
use std::ffi::c_long;

extern "C" {
    /// The processor's time of this process, in microseconds.
    fn clock() -> c_long;
}

const LINE: &str = "    let answer = question.map(|x| x+1);\n";
const COUNT: u32 = 200;

fn round(lines: u32) -> Result<f64, Error> {
    let mut document = Document::new(&LINE.repeat(lines as usize), Encoding::Utf16)?;
    let start = unsafe { clock() };
    for number in 0..COUNT {
        let at = Position { line: number * 7919 % lines, character: 8 };
        document.change(&[Change { range: Some(Range { start: at, end: at }), text: "x".into() }])?;
    }
    Ok((unsafe { clock() } - start) as f64 * 1000.0 / f64::from(COUNT))
}

fn main() -> Result<(), Error> {
    let lines = std::env::args().nth(1).and_then(|word| word.parse().ok()).unwrap_or(1000);
    let mut least = f64::MAX;
    for _ in 0..60 {
        least = least.min(round(lines)?);
    }
    println!("{least:.0}");
    Ok(())
}

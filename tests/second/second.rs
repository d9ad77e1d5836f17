//! second.rs: a second interpreter of the machine of document 01, written
//! apart from the engine, to compare with it. This file holds the program:
//! its modes, the streams they read and the lines they print. See README.md.

mod cases;
mod compile;
mod gen_book;
mod gen_damage;
mod gen_edge;
mod gen_prog;
mod machine;
mod plain;
mod reading;
mod rows;
mod shelf;
mod store;

use shelf::{Limits, Outcome, Way};
use std::fmt::Write as _;
use std::io::{self, BufWriter, Read, Write};
use std::process::exit;

fn main() {
    let words: Vec<String> = std::env::args().skip(1).collect();
    let words: Vec<&str> = words.iter().map(String::as_str).collect();
    let good = match words[..] {
        ["check"] => stream(check_case),
        ["compile"] => stream(compile_case),
        ["shelf"] => stream(|input| shelf_case(input, Way::Plain)),
        ["shelf", "machine"] => stream(|input| shelf_case(input, Way::Machine)),
        ["gen", what, seed, count] => match (seed.parse(), count.parse()) {
            (Ok(seed), Ok(count)) => cases::write_stream(what, seed, count),
            _ => usage(),
        },
        ["ask"] => ask(),
        ["vectors", file] => rows::vectors(file),
        ["vectors", file, "stream"] => rows::vector_stream(file),
        ["vectors", file, "lines"] => rows::vector_lines(file),
        ["rows"] => rows::rows(),
        ["rows", "stream"] => rows::stream(),
        ["rows", "shelved", file] => rows::shelved(file),
        ["rows", "ask", folder] => rows::ask_files(folder),
        ["rows", "asked", folder] => rows::asked(folder),
        _ => usage(),
    };
    exit(if good { 0 } else { 1 });
}

fn usage() -> bool {
    eprintln!("second check | compile | shelf [machine] | ask | rows | vectors FILE");
    eprintln!("second gen check|compile|shelf|long|ask SEED COUNT | gen chosen 0 0");
    eprintln!("second rows stream | rows shelved FILE | rows ask FOLDER | rows asked FOLDER | vectors FILE stream|lines");
    false
}

/// The bytes of standard input not yet used.
struct Input {
    bytes: Vec<u8>,
    at: usize,
}

impl Input {
    fn number(&mut self) -> Option<u32> {
        let four = self.take(4)?;
        Some(u32::from_le_bytes([four[0], four[1], four[2], four[3]]))
    }

    fn take(&mut self, count: usize) -> Option<&[u8]> {
        let from = self.at;
        let part = self.bytes.get(from..from.checked_add(count)?)?;
        self.at += count;
        Some(part)
    }
}

/// Reads case after case until the end; a case cut in the middle gives the
/// line that `case` prints for it (answer 14) and ends the stream.
fn stream(case: impl Fn(&mut Input) -> (String, bool)) -> bool {
    let mut bytes = Vec::new();
    if io::stdin().lock().read_to_end(&mut bytes).is_err() {
        return false;
    }
    let mut input = Input { bytes, at: 0 };
    let mut out = BufWriter::new(io::stdout().lock());
    while input.at < input.bytes.len() {
        let (line, whole) = case(&mut input);
        if writeln!(out, "{line}").is_err() {
            return false;
        }
        if !whole {
            break;
        }
    }
    out.flush().is_ok()
}

fn read_two(input: &mut Input) -> Option<(Vec<u8>, Vec<u8>)> {
    let (book, question) = (input.number()?, input.number()?);
    Some((input.take(book as usize)?.to_vec(), input.take(question as usize)?.to_vec()))
}

/// `A P S B Q T`: the book check's answer, place and sort, then those of the
/// question check, which judges the book first.
fn check_case(input: &mut Input) -> (String, bool) {
    let Some((book, question)) = read_two(input) else { return ("14 0 0 14 0 0".into(), false) };
    let line = match shelf::check(&book, &question) {
        Ok(_) => "0 0 0 0 0 0".into(),
        Err((11, f)) => format!("11 {} {} 11 {} {}", f.place, f.sort, f.place, f.sort),
        Err((answer, f)) => format!("0 0 0 {answer} {} {}", f.place, f.sort),
    };
    (line, true)
}

/// `A P L HEX`: answer, place, length of the code, the code. Code longer than
/// the largest code room is not printed.
fn compile_case(input: &mut Input) -> (String, bool) {
    let book = input.number().and_then(|n| input.take(n as usize));
    let Some(book) = book else { return ("14 0 0 -".into(), false) };
    let line = match reading::read_book(book) {
        Ok(book) => {
            let code = compile::compile(&book).bytes;
            let shown = if code.len() > 262_144 { &[][..] } else { &code };
            format!("0 0 {} {}", code.len(), hex_or_dash(shown))
        }
        Err(f) => format!("11 {} 0 -", f.place),
    };
    (line, true)
}

fn read_shelf(input: &mut Input) -> Option<(Limits, Vec<u8>, Vec<u8>)> {
    let limits = Limits {
        nodes: input.number()?,
        pool: input.number()?,
        budget: input.number()?,
        results: input.number()?,
        code: input.number()?,
    };
    let (book, question) = read_two(input)?;
    Some((limits, book, question))
}

fn shelf_case(input: &mut Input, way: Way) -> (String, bool) {
    match read_shelf(input) {
        Some((limits, book, question)) => (shelf_line(&shelf::run(&limits, &book, &question, way)), true),
        None => (shelf_line(&Outcome { answer: 14, ..Outcome::default() }), false),
    }
}

/// Document 01's program: 2 bytes of book length, book, question; two lines.
fn ask() -> bool {
    let mut bytes = Vec::new();
    if io::stdin().lock().read_to_end(&mut bytes).is_err() {
        return false;
    }
    let outcome = match &bytes[..] {
        [low, high, rest @ ..] if bytes.len() <= 33_282 && rest.len() >= u16::from_le_bytes([*low, *high]) as usize => {
            let (book, question) = rest.split_at(u16::from_le_bytes([*low, *high]) as usize);
            shelf::run(&shelf::PROGRAM, book, question, Way::Plain)
        }
        _ => Outcome { answer: 14, ..Outcome::default() },
    };
    println!("{}\n{}", told(&outcome), hex(&outcome.results));
    true
}

/// Answer, place, the seven counts.
fn told(outcome: &Outcome) -> String {
    let mut line = format!("{} {}", outcome.answer, outcome.place);
    for count in outcome.counts.list() {
        let _ = write!(line, " {count}");
    }
    line
}

/// Answer, place, the seven counts, the results in hex or `-`.
pub fn shelf_line(outcome: &Outcome) -> String {
    told(outcome) + " " + &hex_or_dash(&outcome.results)
}

fn hex_or_dash(bytes: &[u8]) -> String {
    if bytes.is_empty() { "-".into() } else { hex(bytes) }
}

pub fn hex(bytes: &[u8]) -> String {
    const DIGITS: &[u8; 16] = b"0123456789abcdef";
    let mut text = String::with_capacity(2 * bytes.len());
    for b in bytes {
        text.push(DIGITS[(b >> 4) as usize] as char);
        text.push(DIGITS[(b & 15) as usize] as char);
    }
    text
}

/// The bytes of a hex text, spaces between allowed.
pub fn from_hex(text: &str) -> Vec<u8> {
    let digits: Vec<u8> = text.chars().filter_map(|c| c.to_digit(16)).map(|d| d as u8).collect();
    digits.chunks(2).map(|pair| pair.iter().fold(0, |n, d| n * 16 + d)).collect()
}

//! gen_edge.rs: books and questions at the limits of document 01 and just
//! beyond, misplaced records, the longest books and the longest code.

use crate::cases::Rng;
use crate::gen_prog::{asm, FULL};
use crate::reading::{read_book, MAX_BOOK};
use crate::shelf::Limits;

pub fn edge(r: &mut Rng) -> (Vec<u8>, Vec<u8>) {
    // the long ones seldom
    let book = match r.below(400) {
        0 => exact_length(MAX_BOOK - 1 + r.below(3)),
        1 => {
            let mut book = exact_length(MAX_BOOK);
            book.extend((0..r.between(1, 40)).map(|_| r.next() as u8));
            book
        }
        2 => long_code(262_143 + r.below(3)),
        3 => long_code(r.between(200_000, 480_000)),
        4 => (0..r.between(32_760, 32_800)).map(|_| r.between(1, 11) as u8).collect(),
        _ => asm(&book_text(r)),
    };
    let question = question(r, &book);
    (book, question)
}

/// Short books, most of them at fault.
const SHORT: [&str; 14] = [
    "",
    "1",
    "type 0",
    "type 1",
    "type 1 cons 9",
    "3 9 255",
    "type 0 255",
    "func 1 split 0 0 type 1 cons 0 none",
    "func 0 rule 1 right 0 call 1 con 0 func 1",
    "func 0",
    "func 0 rule 1",
    "func 0 rule 1 right 0",
    "none",
    "func 1 rule 1 right 0 slot 0",
];

/// Books in words, at a limit or one beyond.
fn book_text(r: &mut Rng) -> String {
    let d = r.below(3); // mostly used as: limit - 1, limit, limit + 1
    let over = r.below(2);
    let two = "type 2 cons 0 cons 1 ";
    match r.below(24) {
        0 => "type 1 cons 0 ".repeat(63 + d) + r.pick(&["", "func 0 none", "func 1 split 0 63 none"]),
        1 => many_cons(r, 255 + d),
        2 => "func 0 none ".repeat(255 + d),
        // a misplaced FUNC counts in the first pass
        3 => two.to_string() + &"func 0 none ".repeat(254 + d) + "func 0 func 0 none",
        4 => format!("type 2 cons 0 cons {} func 1 split 0 0 none none", 7 + d),
        5 => format!("{two} func {} none", r.pick(&[7, 8, 9, 10, 255])),
        6 => {
            let count = r.pick(&[0, 1, 31, 32, 33, 255]);
            format!("type {count} {} func 0 none", "cons 0 ".repeat(count))
        }
        7 => {
            let count = r.pick(&[0, 1, 2, 15, 16, 17, 255]);
            format!("{two} func 1 rule {count} {}", "right 0 slot 0 ".repeat(count))
        }
        8 => {
            let fresh = 7 + d;
            format!("{two} func 0 rule 1 right {fresh} fresh {}", fresh - 1 + over)
        }
        9 => format!("{two} func 0 rule 1 right 0 {}", term_of(r, 254 + d)),
        10 => format!("{two} type 1 cons 8 func 0 rule 2 right 0 con 0 right 0 {}", wide_term(254 + d)),
        // 8 + 7 x 8 slots = 64, then a type of arity 0 or 1
        11 => {
            let splits: String = (0..7).map(|i| format!("split {i} 0 ")).collect();
            let last = format!("split 7 {} rule 1 right 0 slot {}", 1 + over, 63 + r.below(2));
            format!("type 1 cons 8 type 1 cons 0 type 1 cons 1 func 8 {splits}{last}")
        }
        // only the second child has too many
        12 => {
            let splits: String = (0..7).map(|i| format!("split {i} 0 ")).collect();
            format!("type 1 cons 8 type 2 cons 0 cons {over} func 8 {splits} split 7 1 none none")
        }
        // positions of length 7, 8
        13 => {
            let splits: String = (0..6 + d).map(|i| format!("split {i} 0 ")).collect();
            let end = r.pick(&["none", "split 7 1 none", "rule 1 right 0 slot 7"]);
            format!("type 1 cons 1 type 1 cons 0 func 1 {splits} {end}")
        }
        14 => format!("{two} func 2 split 0 0 none split {} 0 none none", r.below(4)),
        // a slot of the second child, named in the first or in the second
        15 => {
            let rule = format!("rule 1 right 0 slot {}", r.below(3));
            let children = if over == 0 { rule + " none" } else { "none ".to_string() + &rule };
            format!("{two} func 1 split 0 0 {children}")
        }
        16 => format!("{two} func 1 split 0 {over} none none"),
        17 => format!("{two} func 0 rule 1 right 0 con {}", r.pick(&["0", "1 con 0", "2", "255"])),
        18 => format!("{two} func 1 rule 1 right 0 call {over} slot 0"),
        // TYPE after FUNC, FUNC among CONS, a stray record
        19 => {
            let stray = r.pick(&["type 1 cons 0", "type 0", "cons 0", "none", "slot 0", "right 0 con 0"]);
            format!("{two} func 0 none {stray} func 0 none")
        }
        20 => format!("type 2 cons 0 {} cons 0", r.pick(&["func 0 none", "type 1 cons 0", "func 9", "none", "12"])),
        // a CALL naming a misplaced FUNC
        21 => format!("{two} func 0 rule 1 right 0 call {} con {over} con 0 func {}", 1 + r.below(2), r.below(3)),
        // an early fault of the second reading and a late one of the first
        22 => format!("type 0 {two} func 0 none {}", r.pick(&["12", "3", "func 9", "func 8", "0", "split 0"])),
        _ => r.pick(&SHORT).to_string(),
    }
}

/// Types of several sizes with just so many constructors in all.
fn many_cons(r: &mut Rng, total: usize) -> String {
    let mut text = String::new();
    let mut made = 0;
    while made < total {
        let count = r.between(8, 32).min(total - made);
        // now and then more are announced than will come
        let announced = if made + count == total && r.chance(30) { 32 } else { count };
        text += &format!("type {announced} {}", "cons 0 ".repeat(count));
        made += count;
    }
    text + r.pick(&["", "func 0 rule 1 right 0 con 255", "none"])
}

/// A row of unary constructors (con 1) ended by con 0, or cut, of n records.
fn term_of(r: &mut Rng, n: usize) -> String {
    let end = r.pick(&["con 0", "con 0", "con 0", "con 2", "none", ""]);
    "con 1 ".repeat(n - 1) + end
}

/// n records of con 2 (arity 8) and con 0; the last open places by con 1.
fn wide_term(n: usize) -> String {
    // k wide ones and 7k+1 leaves; the rest lengthens one leaf
    let k = (n - 1) / 8;
    let longer = n - (8 * k + 1);
    "con 1 ".repeat(longer) + &"con 2 con 0 con 0 con 0 con 0 con 0 con 0 con 0 ".repeat(k) + "con 0"
}

/// A well-formed book of just this length.
fn exact_length(length: usize) -> Vec<u8> {
    let mut book = asm("type 2 cons 0 cons 1");
    if (length - book.len()) % 2 == 1 {
        book.extend(asm("func 0 none"));
    }
    while book.len() < length {
        let left = length - book.len();
        let records = if left <= 516 { (left - 6) / 2 } else { ((left - 14) / 2).min(255) };
        book.extend(row_func(records));
    }
    book
}

/// A function of one RIGHT with a row of n constructors: 6 + 2n bytes, and
/// 3n + 2 bytes of code.
fn row_func(n: usize) -> Vec<u8> {
    asm(&("func 0 rule 1 right 0 ".to_string() + &"con 1 ".repeat(n - 1) + "con 0"))
}

/// A book whose code has just this length. Its big functions split a type of
/// 32 constructors of arity 8, and split again under each: 18,546 bytes each.
fn long_code(length: usize) -> Vec<u8> {
    let mut text = "type 2 cons 0 cons 1 type 32 ".to_string() + &"cons 8 ".repeat(32);
    let mut left = length;
    let big = format!("func 2 split 0 1 {}", format!("split 1 1 {}", "none ".repeat(32)).repeat(32));
    while left > 20_000 {
        text += &big;
        left -= 33 * (10 + 2 + 33 * 5 + 32 * 11 + 1) + 1_024;
    }
    let mut book = asm(&text);
    while left >= 5 {
        let records = ((left - 2) / 3).min(255);
        book.extend(row_func(records));
        left -= 3 * records + 2;
    }
    for _ in 0..left {
        book.extend(asm("func 0 none"));
    }
    book
}

/// Records of all kinds, as many bytes as asked, with a last record that may be longer.
pub fn filler(r: &mut Rng, from: usize, to: usize) -> Vec<u8> {
    let length = r.between(from, to);
    let mut bytes = Vec::with_capacity(length + 3);
    while bytes.len() < length {
        let kind = r.between(1, 11) as u8;
        bytes.push(kind);
        for _ in 0..crate::reading::body_length(kind).unwrap_or(0) {
            bytes.push(r.below(256) as u8);
        }
    }
    bytes
}

/// A question whose term has the 255 records that a term may have, for a book that begins with a constant and a unary constructor.
pub fn long_term() -> Vec<u8> {
    asm(&("right 0 ".to_string() + &"con 1 ".repeat(254) + "con 0"))
}

/// The lengths and the terms at their limits.
pub fn chosen() -> Vec<(Limits, Vec<u8>, Vec<u8>)> {
    let mut all = Vec::new();
    let question = asm("right 1 fresh 0");
    for length in [MAX_BOOK - 1, MAX_BOOK, MAX_BOOK + 1, MAX_BOOK + 2, 40_000, 70_000] {
        all.push((FULL, exact_length(length), question.clone()));
    }
    let book = asm("type 2 cons 0 cons 1");
    for records in [254, 255, 256] {
        all.push((FULL, book.clone(), asm(&("right 0 ".to_string() + &"con 1 ".repeat(records - 1) + "con 0"))));
    }
    for length in [262_143, 262_144, 262_145] {
        all.push((FULL, long_code(length), question.clone()));
    }
    all
}

/// A question for the book: its last function asked with variables, or one
/// of the questions at a limit.
fn question(r: &mut Rng, book: &[u8]) -> Vec<u8> {
    let arities = match read_book(book) {
        Ok(book) => book.funcs.iter().map(|f| f.arity).collect(),
        Err(_) => Vec::new(),
    };
    let good = match arities.last() {
        Some(arity) => {
            let vars: String = (0..*arity).map(|i| format!("fresh {i} ")).collect();
            format!("right {arity} call {} {vars}", arities.len() - 1)
        }
        None => "right 1 fresh 0".to_string(),
    };
    if r.chance(50) {
        return asm(&good);
    }
    let d = r.below(3);
    let text = match r.below(14) {
        0 => "right 0 slot 0".into(),
        1 => format!("right {} fresh {}", 7 + d, 6 + d),
        2 => format!("right {d} fresh 1"),
        3 => format!("{good} {}", r.pick(&["none", "right 0", "fresh 0", "func 9", "func 0", "12", "8", "type 0"])),
        4 => format!("right 1 con {}", r.pick(&["0", "1 fresh 0", "2", "255"])),
        5 => format!("right 1 call {}", r.pick(&["0", "1", "0 fresh 0", "255"])),
        6 => format!("right 0 {}", term_of(r, 254 + d)),
        7 => format!("right 1 {}", "con 1 ".repeat(254 + d) + r.pick(&["slot 0", "fresh 0", "con 255", "func 9"])),
        8 => r.pick(&["", "6", "right 9", "right 9 slot 0", "right 0", "8", "call 0", "none", "right 0 right 0 con 0"]).to_string(),
        9 => "func 9 ".repeat(1 + d) + &good,
        10 => good.replace("fresh", r.pick(&["slot", "fresh 0 fresh", "con"])),
        11 => format!("{good} {good}"),
        12 => format!("right 0 {}", "func 9 ".repeat(d)),
        _ => good.replace("right", r.pick(&["rule", "right 0", "con"])),
    };
    asm(&text)
}

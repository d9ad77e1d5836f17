//! gen_prog.rs: a small library of known functions (numbers, lists, choices,
//! sharing, loops) with questions about it, written in words; the book and
//! question of document 01; and the few large cases.

use crate::from_hex;
use crate::cases::Rng;
use crate::shelf::Limits;

/// Words to bytes: a kind's name, a library name, or a number in decimals.
pub fn asm(text: &str) -> Vec<u8> {
    let mut out = Vec::new();
    for word in text.split_whitespace() {
        match word {
            "type" => out.push(1),
            "cons" => out.push(2),
            "func" => out.push(3),
            "split" => out.push(4),
            "rule" => out.push(5),
            "right" => out.push(6),
            "con" => out.push(7),
            "call" => out.push(8),
            "slot" => out.push(9),
            "fresh" => out.push(10),
            "none" => out.push(11),
            _ => {
                if let Some(f) = FUNCS.iter().position(|(name, _)| *name == word) {
                    out.extend([8, f as u8]);
                } else if let Some(c) = CONS.iter().position(|name| *name == word) {
                    out.extend([7, c as u8]);
                } else {
                    out.push(word.parse().expect("a word of the library or a number"));
                }
            }
        }
    }
    out
}

const TYPES: &str = "type 2 cons 0 cons 0  type 2 cons 0 cons 1  type 2 cons 0 cons 2  type 1 cons 2";
const CONS: [&str; 7] = ["F", "T", "Z", "S", "N", "C", "P"];

/// The functions; SS stands for some S in a row.
const FUNCS: [(&str, &str); 27] = [
    ("add", "func 2 split 0 1 rule 1 right 0 slot 1 rule 1 right 0 S add slot 2 slot 1"),
    ("mul", "func 2 split 0 1 rule 1 right 0 Z rule 1 right 0 add slot 1 mul slot 2 slot 1"),
    ("dd", "func 2 split 0 1 rule 1 right 0 slot 1 rule 1 right 0 dd slot 2 P slot 1 slot 1"),
    ("app", "func 2 split 0 2 rule 1 right 0 slot 1 rule 1 right 0 C slot 2 app slot 3 slot 1"),
    ("rev", "func 1 split 0 2 rule 1 right 0 N rule 1 right 0 app rev slot 2 C slot 1 N"),
    ("ins", "func 2 split 1 2 rule 1 right 0 C slot 0 N rule 2 right 0 C slot 0 slot 1 right 0 C slot 2 ins slot 0 slot 3"),
    ("perm", "func 1 split 0 2 rule 1 right 0 N rule 1 right 0 ins slot 1 perm slot 2"),
    ("coin", "func 0 rule 2 right 0 F right 0 T"),
    ("anynat", "func 0 rule 2 right 0 Z right 0 S anynat"),
    ("grow", "func 0 rule 1 right 0 SS grow"),
    ("chunk", "func 1 split 0 1 rule 1 right 0 Z rule 1 right 0 SS chunk slot 1"),
    ("strict", "func 1 split 0 1 rule 1 right 0 Z rule 1 right 0 S slot 1"),
    ("sink", "func 0 rule 1 right 0 strict sink"),
    ("loop", "func 0 rule 1 right 0 loop"),
    (
        "eqn",
        "func 2 split 0 1 split 1 1 rule 1 right 0 T rule 1 right 0 F \
         split 1 1 rule 1 right 0 F rule 1 right 0 eqn slot 2 slot 3",
    ),
    ("given", "func 2 split 0 0 none rule 1 right 0 slot 1"),
    ("last", "func 1 split 0 2 none split 2 2 rule 1 right 0 slot 1 rule 1 right 0 last slot 2"),
    ("half", "func 1 rule 1 right 1 given eqn add fresh 0 fresh 0 slot 0 fresh 0"),
    ("some", "func 1 split 0 2 none rule 2 right 0 slot 1 right 0 some slot 2"),
    ("idd", "func 2 split 0 1 rule 1 right 0 slot 1 rule 1 right 0 idd slot 2 same slot 1"),
    ("same", "func 1 rule 1 right 0 slot 0"),
    ("dl", "func 1 split 0 1 rule 1 right 0 Z rule 1 right 0 add dl slot 1 Z"),
    ("coins", "func 1 split 0 1 rule 1 right 0 N rule 1 right 0 C coin coins slot 1"),
    ("wide", "func 0 rule 1 right 8 P fresh 7 fresh 0"),
    ("both", "func 1 rule 1 right 0 P same slot 0 slot 0"),
    ("swap", "func 1 split 0 3 rule 1 right 0 P slot 2 slot 1"),
    ("either", "func 0 rule 2 right 0 loop right 0 F"),
];

fn library(chunk: usize) -> Vec<u8> {
    let mut text = TYPES.to_string();
    for (_, body) in FUNCS {
        text.push(' ');
        text.push_str(&body.replace("SS", &"S ".repeat(chunk)));
    }
    asm(&text)
}

/// The number n.
fn nat(n: usize) -> String {
    "S ".repeat(n) + "Z"
}

fn list(items: &[&str]) -> String {
    items.iter().map(|i| format!("C {i} ")).collect::<String>() + "N"
}

/// A question about the library. The asker's variables are two.
fn ask(r: &mut Rng) -> String {
    let x = "fresh 0";
    let y = "fresh 1";
    let n = r.below(12);
    let (small, leaf) = (nat(r.below(5)), r.pick(&["F", "fresh 0", "coin", "P fresh 0 fresh 1", "wide", "loop"]));
    let items: Vec<&str> = (0..r.below(5)).map(|i| ["F", "T", "Z", "fresh 0", "coin"][(i + n) % 5]).collect();
    let items = list(&items);
    match r.below(28) {
        0 => format!("add {} {small}", nat(n)),
        1 => format!("add {x} {small}"),
        2 => format!("add {x} {y}"),
        3 => format!("mul {} {small}", nat(n / 2)),
        4 => format!("mul {x} {small}"),
        5 => format!("dd {} {leaf}", nat(n)),
        6 => format!("dd {} {leaf}", nat(r.pick(&[12, 13, 14, 15, 31, 32, 59, 60, 62, 63, 64, 65, 120, 240]))),
        7 => format!("perm {items}"),
        8 => format!("rev {items}"),
        9 => format!("rev {x}"),
        10 => format!("given eqn add {x} {y} {small} P {x} {y}"),
        11 => "anynat".into(),
        12 => "grow".into(),
        13 => format!("chunk {}", nat(n)),
        14 => "sink".into(),
        15 => format!("P {leaf} {leaf}"),
        16 => format!("last app {x} {items}"),
        17 => format!("half {}", nat(n)),
        18 => format!("some {items}"),
        19 => format!("idd {} {leaf}", nat(n)),
        20 => format!("dl {}", nat(n)),
        21 => format!("coins {}", nat(n / 2)),
        22 => format!("both {leaf}"),
        23 => format!("swap both {leaf}"),
        24 => "either".into(),
        25 => format!("P wide both P {x} {y}"),
        // a constructor of another type where one is looked at
        26 => format!("add {} {x}", r.pick(&["F", "N", "P fresh 0 Z", "swap fresh 1"])),
        _ => format!("app {x} app {y} {items}"),
    }
}

pub fn program(r: &mut Rng) -> (Vec<u8>, Vec<u8>) {
    let chunk = r.pick(&[1, 1, 2, 5, 30]);
    let question = format!("right {} {}", 2 + r.below(2), ask(r));
    (library(chunk), asm(&question))
}

/// Document 01's B and Q.
pub fn paper(r: &mut Rng) -> (Vec<u8>, Vec<u8>) {
    let book = "010202000200010302000200020003010400010501060007000501060007010501060007010302040000 0b05010600 0901";
    let question = r.pick(&["0601080108000a000a00", "060008000701", "06010a00", "06020801 0a010a00"]);
    (from_hex(book), from_hex(question))
}

/// The largest limits.
pub const FULL: Limits = Limits { nodes: 16_384, pool: 1_024, budget: 1_000_000, results: 65_536, code: 262_144 };

/// Chosen cases: each limit at both ends of its range and one beyond, alone and with the others; a value 15,000 deep; terms of 2^60 leaves; a full pool.
pub fn chosen() -> Vec<(Limits, Vec<u8>, Vec<u8>)> {
    let mut all = Vec::new();
    let library_book = library(1);
    let questions: Vec<Vec<u8>> = ["right 2 add S S Z fresh 0", "right 2 perm C F C T N", "right 0 coins S S S Z", "right 1 fresh 0"].map(asm).to_vec();
    // both ends of every range, together
    for which in 0..32 {
        let end = |bit: u32, low: u32, high: u32| if which >> bit & 1 == 0 { low } else { high };
        let l = Limits { nodes: end(0, 1, 16_384), pool: end(1, 1, 1_024), budget: end(2, 0, 1_000_000), results: end(3, 0, 65_536), code: end(4, 0, 262_144) };
        all.extend(questions.iter().map(|q| (l, library_book.clone(), q.clone())));
        // a book with no function has no code
        all.push((l, asm("type 2 cons 0 cons 1"), asm("right 1 con 1 fresh 0")));
    }
    // one beyond, alone
    for q in &questions {
        for l in [
            Limits { nodes: 0, ..FULL },
            Limits { nodes: 16_385, ..FULL },
            Limits { pool: 0, ..FULL },
            Limits { pool: 1_025, ..FULL },
            Limits { budget: 1_000_001, ..FULL },
            Limits { results: 65_537, ..FULL },
            Limits { code: 262_145, ..FULL },
            Limits { nodes: u32::MAX, pool: u32::MAX, budget: u32::MAX, results: u32::MAX, code: u32::MAX },
        ] {
            all.push((l, library_book.clone(), q.clone()));
        }
    }
    // 200 constructors a turn, 75 times
    all.push((FULL, library(200), asm(&format!("right 0 chunk {}", nat(75)))));
    all.push((FULL, library(200), asm(&format!("right 0 P chunk {} coin", nat(25)))));
    for leaf in ["F", "fresh 0", "coin", "P fresh 0 fresh 1"] {
        all.push((FULL, library_book.clone(), asm(&format!("right 2 dd {} {leaf}", nat(60)))));
    }
    for coins in [9, 10, 11] {
        all.push((FULL, library_book.clone(), asm(&format!("right 0 coins {}", nat(coins)))));
    }
    all
}

/// Large cases: values some 15,000 deep, 2^60 leaves, long stacks of calls,
/// long rows of forwards, a full pool.
pub fn large(r: &mut Rng) -> (Vec<u8>, Vec<u8>, Limits) {
    let (chunk, question) = match r.below(24) {
        // about 15,000 deep, with its result; then some that don't fit
        0..=4 => (200, format!("chunk {}", nat(r.between(70, 80)))),
        5 => (150, format!("P chunk {} fresh 0", nat(100))),
        6 => (250, format!("chunk P chunk {} coin", nat(60))),
        7 => (100, format!("strict chunk {}", nat(r.between(150, 165)))),
        // deep, then copied by a choice
        8 | 9 => (200, format!("P chunk {} coin", nat(25))),
        10 => (200, "grow".to_string()),
        // one deeper at each turn: these take the longest
        11 => (r.pick(&[1, 2, 3]), "grow".to_string()),
        12 => (1, "sink".to_string()),
        13 => (1, r.pick(&["loop", "P fresh 0 P fresh 1 loop", "either"]).to_string()),
        14..=16 => (1, format!("dd {} {}", nat(r.between(55, 64)), r.pick(&["F", "fresh 0", "coin"]))),
        17 | 18 => (1, format!("dd {} fresh 0", nat(r.between(10, 16)))),
        19 | 20 => (1, format!("coins {}", nat(r.between(7, 11)))),
        21 => (1, "add fresh 0 fresh 1".to_string()),
        _ => (1, format!("dl {}", nat(r.between(40, 240)))),
    };
    let question = format!("right 2 {question}");
    (library(chunk), asm(&question), FULL)
}

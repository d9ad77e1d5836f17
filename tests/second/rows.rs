//! rows.rs: the table "Worked on paper" of document 01, row by row, some
//! faults with their sorts, and the comparing with a file of expected
//! outcomes, by this interpreter both ways; and the same as input for other
//! programs, with what they should print.

use crate::shelf::{check, run, Counts, Limits, Outcome, Way, PROGRAM};
use crate::{from_hex, hex};
use std::io::Write;

const B: &str = "01 02 02 00 02 00 01 03 02 00 02 00 02 00 03 01 04 00 01 05 01 06 00 07 00 05 01 06 00 07 01 \
    05 01 06 00 07 01 03 02 04 00 00 0B 05 01 06 00 09 01";
const Q: &str = "06 01 08 01 08 00 0A 00 0A 00";

/// Types: no, yes; pair. Function 0: coin = no or yes. 1: twice x = pair x x.
/// 2: same x = x. 3: both x = pair (same x) x.
const COIN: &str = "01 02 02 00 02 00 01 01 02 02 03 00 05 02 06 00 07 00 06 00 07 01 \
    03 01 05 01 06 00 07 02 09 00 09 00 03 01 05 01 06 00 09 00 03 01 05 01 06 00 07 02 08 02 09 00 09 00";

/// Type: no. Function 0: loop = loop. Function 1: either = loop or no.
const LOOP: &str = "01 01 02 00 03 00 05 01 06 00 08 00 03 00 05 02 06 00 08 00 06 00 07 00";

/// What a row says; parts it doesn't tell are None.
#[derive(Default)]
struct Says<'a> {
    answer: u8,
    place: usize,
    counts: [Option<u64>; 7],
    results: Option<&'a str>,
    results_length: Option<usize>,
}

/// A row: what is run, and what is said of it.
struct Row {
    name: String,
    limits: Limits,
    book: Vec<u8>,
    question: Vec<u8>,
    says: Says<'static>,
}

#[derive(Default)]
struct Tally {
    passed: usize,
    failed: usize,
}

impl Tally {
    fn note(&mut self, good: bool) {
        if good {
            self.passed += 1;
        } else {
            self.failed += 1;
        }
    }

    fn end(&self) -> bool {
        println!("{} passed, {} failed", self.passed, self.failed);
        self.failed == 0
    }

    /// What was got for a row, by which way.
    fn got(&mut self, row: &Row, way: &str, got: &Outcome) {
        let good = row.says.hold(got);
        println!("{} {} ({way})", if good { "pass" } else { "FAIL" }, row.name);
        if !good {
            println!("     got {} {} {:?} {}", got.answer, got.place, got.counts.list(), hex(&got.results));
        }
        self.note(good);
    }
}

impl Says<'_> {
    fn hold(&self, got: &Outcome) -> bool {
        got.answer == self.answer
            && got.place == self.place
            && self.counts.iter().zip(got.counts.list()).all(|(want, got)| want.unwrap_or(got) == got)
            && self.results.is_none_or(|r| from_hex(r) == got.results)
            && self.results_length.is_none_or(|l| l == got.results.len())
            && sums_up(got)
    }
}

/// "always begun = waiting + split + values + failed + misfits": with answer
/// 0 nothing waits, otherwise something may.
fn sums_up(got: &Outcome) -> bool {
    let c = &got.counts;
    let ended = c.split + c.values + c.failed + c.misfits;
    if got.answer == 0 { c.begun == ended } else { c.begun >= ended }
}

fn all(counts: [u64; 7]) -> [Option<u64>; 7] {
    counts.map(Some)
}

fn turns(n: u64) -> [Option<u64>; 7] {
    [Some(n), None, None, None, None, None, None]
}

/// Document 01's table, with one row more (results room 18).
fn table() -> Vec<Row> {
    let mut t = Vec::new();
    let mut row = |name: &str, limits: Limits, book: &str, question: &str, says: Says<'static>| {
        t.push(Row { name: name.into(), limits, book: from_hex(book), question: from_hex(question), says });
    };
    let p = PROGRAM;
    let whole = "200800000007030703 200900000007040704";
    let first = "200800000007030703";
    let nine = all([9, 18, 4, 1, 2, 1, 0]);
    let none = all([0; 7]);
    row("B, Q", p, B, Q, Says { counts: nine, results: Some(whole), ..Says::default() });
    row("budget 8", Limits { budget: 8, ..p }, B, Q, Says { answer: 1, counts: turns(8), results: Some(first), ..Says::default() });
    row("nodes 14", Limits { nodes: 14, ..p }, B, Q, Says { answer: 2, counts: turns(0), ..Says::default() });
    row("nodes 15", Limits { nodes: 15, ..p }, B, Q, Says { answer: 2, counts: turns(1), ..Says::default() });
    row("pool 2", Limits { pool: 2, ..p }, B, Q, Says { answer: 3, ..Says::default() });
    row("pool 2, nodes 14", Limits { pool: 2, nodes: 14, ..p }, B, Q, Says { answer: 2, ..Says::default() });
    let short = Says { answer: 4, counts: turns(8), results: Some(first), results_length: Some(9), ..Says::default() };
    row("results room 17", Limits { results: 17, ..p }, B, Q, short);
    row("results room 18", Limits { results: 18, ..p }, B, Q, Says { counts: nine, results: Some(whole), ..Says::default() });
    row("code room 104", Limits { code: 104, ..p }, B, Q, Says { answer: 13, counts: none, ..Says::default() });
    row("code room 105", Limits { code: 105, ..p }, B, Q, Says { counts: nine, ..Says::default() });
    let misfit = [Some(1), Some(2), Some(1), Some(0), Some(0), Some(0), Some(1)];
    row("misfit", p, B, "06 00 08 00 07 01", Says { counts: misfit, results: Some(""), ..Says::default() });
    let open = Some("20 01 00 00 00 0C 00 00 0C 00 00");
    row("empty book", p, "", "06 01 0A 00", Says { results: open, ..Says::default() });
    for (question, place) in [("", 0), ("06 00", 2), ("06 00 09 00", 2)] {
        let name = format!("question '{question}'");
        row(&name, p, B, question, Says { answer: 12, place, counts: none, ..Says::default() });
    }
    for (book, place) in [("01", 0), ("01 00", 0), ("01 01", 2)] {
        let name = format!("book '{book}'");
        row(&name, p, book, Q, Says { answer: 11, place, counts: none, ..Says::default() });
    }
    let twice = [Some(4), Some(9), None, None, Some(2), None, None];
    let pairs = Some("2003000000 07020700 0700 2004000000 07020701 0701");
    row("twice coin", p, COIN, "06 00 08 01 08 00", Says { counts: twice, results: pairs, ..Says::default() });
    let both = [Some(5), Some(10), None, None, Some(2), None, None];
    let pairs = Some("2004000000 07020700 0700 2005000000 07020701 0701");
    row("both coin", p, COIN, "06 00 08 03 08 00", Says { counts: both, results: pairs, ..Says::default() });
    let either = [Some(10), Some(13), None, None, Some(1), None, None];
    let says = Says { answer: 1, counts: either, results: Some("2003000000 0700"), ..Says::default() };
    row("either", Limits { budget: 10, ..p }, LOOP, "06 00 08 01", says);
    t
}

/// The table by this interpreter, both ways, and the faults.
pub fn rows() -> bool {
    let mut t = Tally::default();
    for row in table() {
        t.got(&row, "plain", &run(&row.limits, &row.book, &row.question, Way::Plain));
        t.got(&row, "machine", &run(&row.limits, &row.book, &row.question, Way::Machine));
    }
    faults(&mut t);
    t.end()
}

/// The table as a stream for a shelf.
pub fn stream() -> bool {
    put(table().iter().flat_map(|r| shelf_bytes(&r.limits, &r.book, &r.question)).collect())
}

/// What a shelf printed for that stream, against the table.
pub fn shelved(file: &str) -> bool {
    let lines = read(file);
    let mut t = Tally::default();
    for (i, row) in table().iter().enumerate() {
        let got = lines.lines().nth(i).and_then(outcome_of);
        t.got(row, "shelf", &got.unwrap_or(Outcome { answer: 255, ..Outcome::default() }));
    }
    t.note(lines.lines().count() == table().len());
    t.end()
}

/// Inputs that are no case, and one of the greatest length that is: each with what the program prints.
fn inputs() -> Vec<(String, Vec<u8>, String)> {
    let refused = "14 0 0 0 0 0 0 0 0\n\n".to_string();
    let (b, q) = (from_hex(B), from_hex(Q));
    let whole = [&[b.len() as u8, 0][..], &b, &q].concat();
    let longest = [&whole[..], &vec![0; 33_282 - whole.len()]].concat();
    let longer = [&longest[..], &[0]].concat();
    let announced = [&[0x00, 0x80][..], &vec![0; 32_767]].concat();
    let most = [&[0xff, 0xff][..], &b, &q].concat();
    vec![
        ("no byte".into(), vec![], refused.clone()),
        ("one byte".into(), vec![0], refused.clone()),
        ("a book one byte short".into(), whole[..whole.len() - q.len() - 1].to_vec(), refused.clone()),
        ("a book of 32,768 one byte short".into(), announced, refused.clone()),
        ("a book of 65,535".into(), most, refused.clone()),
        ("33,282 bytes".into(), longest, format!("12 {} 0 0 0 0 0 0 0\n\n", q.len())),
        ("33,283 bytes".into(), longer, refused),
        ("no book, no question".into(), vec![0, 0], "12 0 0 0 0 0 0 0 0\n\n".into()),
        ("B, Q, whole".into(), whole, "0 0 9 18 4 1 2 1 0\n200800000007030703200900000007040704\n".into()),
    ]
}

/// The rows at the program's own limits, and the inputs above, as files N.in of a folder.
pub fn ask_files(folder: &str) -> bool {
    let rows = table().into_iter().filter(at_program).map(|r| ask_bytes(&r.book, &r.question));
    let all = rows.chain(inputs().into_iter().map(|i| i.1));
    all.enumerate().all(|(i, bytes)| std::fs::write(format!("{folder}/{i}.in"), bytes).is_ok())
}

/// What the program printed for those, in files N.out.
pub fn asked(folder: &str) -> bool {
    let mut t = Tally::default();
    let rows: Vec<Row> = table().into_iter().filter(at_program).collect();
    for (i, row) in rows.iter().enumerate() {
        let text = read(&format!("{folder}/{i}.out"));
        let got = text.split_once('\n').and_then(|(told, results)| {
            let hex = results.strip_suffix('\n')?;
            outcome_of(&format!("{told} {}", if hex.is_empty() { "-" } else { hex }))
        });
        t.got(row, "ask", &got.unwrap_or(Outcome { answer: 255, ..Outcome::default() }));
    }
    for (i, (name, _, says)) in inputs().iter().enumerate() {
        let good = read(&format!("{folder}/{}.out", rows.len() + i)) == *says;
        println!("{} {name} (ask)", if good { "pass" } else { "FAIL" });
        t.note(good);
    }
    t.end()
}

fn at_program(row: &Row) -> bool {
    let l = &row.limits;
    let p = &PROGRAM;
    [l.nodes, l.pool, l.budget, l.results, l.code] == [p.nodes, p.pool, p.budget, p.results, p.code]
}

/// The program's input: 2 bytes of book length, book, question.
pub fn ask_bytes(book: &[u8], question: &[u8]) -> Vec<u8> {
    [&(book.len() as u16).to_le_bytes()[..], book, question].concat()
}

/// A case of a shelf's stream.
pub fn shelf_bytes(l: &Limits, book: &[u8], question: &[u8]) -> Vec<u8> {
    let numbers = [l.nodes, l.pool, l.budget, l.results, l.code, book.len() as u32, question.len() as u32];
    let head: Vec<u8> = numbers.iter().flat_map(|n| n.to_le_bytes()).collect();
    [&head, book, question].concat()
}

/// A shelf's line, taken apart.
fn outcome_of(line: &str) -> Option<Outcome> {
    let words: Vec<&str> = line.split(' ').collect();
    let [answer, place, turns, nodes, begun, split, values, failed, misfits, results] = words[..] else { return None };
    let n = |word: &str| word.parse::<u64>().ok();
    let counts = Counts {
        turns: n(turns)?,
        nodes: n(nodes)?,
        begun: n(begun)?,
        split: n(split)?,
        values: n(values)?,
        failed: n(failed)?,
        misfits: n(misfits)?,
    };
    let results = if results == "-" { Vec::new() } else { from_hex(results) };
    Some(Outcome { answer: answer.parse().ok()?, place: place.parse().ok()?, counts, results, peak: 0 })
}

fn read(file: &str) -> String {
    std::fs::read_to_string(file).unwrap_or_default()
}

fn put(bytes: Vec<u8>) -> bool {
    std::io::stdout().write_all(&bytes).is_ok()
}

/// Places and sorts that the readings of document 01 and request A1 tell:
/// book, question, answer of the question check, place, sort.
const FAULTS: [(&str, &str, u8, usize, u8); 22] = [
    ("03 09 FF", Q, 11, 0, 3),
    ("01 00 FF", Q, 11, 2, 1),
    ("01 00 03", Q, 11, 2, 2),
    ("0C", Q, 11, 0, 1),
    ("01 21", Q, 11, 0, 3),
    ("01 01 02 09", Q, 11, 2, 3),
    ("01 01 03 00 0B", Q, 11, 2, 4),
    ("01 01", Q, 11, 2, 5),
    ("03 00", Q, 11, 2, 5),
    ("03 00 0B 01 00", Q, 11, 3, 4),
    ("03 00 0B 09 00", Q, 11, 3, 4),
    ("03 01 04 00 00 01 01 02 00 0B", Q, 11, 2, 3),
    ("03 00 05 01 06 00 08 01 07 00 03 01", Q, 11, 8, 3),
    (B, "", 12, 0, 5),
    (B, "06", 12, 0, 2),
    (B, "06 09", 12, 0, 3),
    (B, "06 00 09 00", 12, 2, 4),
    (B, "06 00 07 00 07 00", 12, 4, 5),
    (B, "06 00 07 00 03 09", 12, 4, 5),
    (B, "06 00 07 00 30", 12, 4, 1),
    (B, "06 00 07 05", 12, 2, 3),
    (B, "03 09 06 00 07 00", 12, 0, 4),
];

fn faults(t: &mut Tally) {
    for (book, question, answer, place, sort) in FAULTS {
        let good = match check(&from_hex(book), &from_hex(question)) {
            Err((a, f)) => (a, f.place, f.sort) == (answer, place, sort),
            Ok(_) => false,
        };
        let (name, bytes) = if answer == 11 { ("book", book) } else { ("question", question) };
        println!("{} fault of {name} '{bytes}'", if good { "pass" } else { "FAIL" });
        t.note(good);
    }
}

/// The text after `"key":` in a line of plain json.
fn field<'a>(line: &'a str, key: &str) -> &'a str {
    let name = format!("\"{key}\":");
    let from = line.find(&name).map_or(line.len(), |at| at + name.len());
    let rest = line[from..].trim_start();
    let stop = match rest.chars().next() {
        Some('"') => rest[1..].find('"').map(|at| at + 2),
        Some('[') => rest.find(']').map(|at| at + 1),
        _ => rest.find([',', '}']),
    };
    rest[..stop.unwrap_or(rest.len())].trim_matches('"')
}

fn number(line: &str, key: &str) -> u32 {
    field(line, key).trim().parse().unwrap_or(u32::MAX)
}

/// The limits, the book and the question of a vector.
fn vector(line: &str) -> (Limits, Vec<u8>, Vec<u8>) {
    let limits = Limits {
        nodes: number(line, "nodes"),
        pool: number(line, "pool"),
        budget: number(line, "budget"),
        results: number(line, "results"),
        code: number(line, "code"),
    };
    (limits, from_hex(field(line, "book")), from_hex(field(line, "question")))
}

/// The line that a shelf should print for it.
fn expected(line: &str) -> String {
    let counts: Vec<&str> = field(line, "counts").split(|c: char| !c.is_ascii_digit()).filter(|n| !n.is_empty()).collect();
    let bytes = field(line, "bytes");
    let bytes = if bytes.is_empty() { "-" } else { bytes };
    format!("{} {} {} {bytes}", number(line, "answer"), number(line, "place"), counts.join(" "))
}

/// A file of vectors as a stream for a shelf, and the lines that it should print.
pub fn vector_stream(file: &str) -> bool {
    let text = read(file);
    put(text.lines().filter(|l| !l.trim().is_empty()).map(vector).flat_map(|(l, b, q)| shelf_bytes(&l, &b, &q)).collect())
}

pub fn vector_lines(file: &str) -> bool {
    let text = read(file);
    put(text.lines().filter(|l| !l.trim().is_empty()).flat_map(|l| (expected(l) + "\n").into_bytes()).collect())
}

pub fn vectors(file: &str) -> bool {
    let Ok(text) = std::fs::read_to_string(file) else {
        eprintln!("cannot read {file}");
        return false;
    };
    let mut t = Tally::default();
    for (i, line) in text.lines().enumerate().filter(|(_, l)| !l.trim().is_empty()) {
        let (limits, book, question) = vector(line);
        let want = expected(line);
        let mut good = true;
        for way in [Way::Plain, Way::Machine] {
            let got = crate::shelf_line(&run(&limits, &book, &question, way));
            if got != want {
                println!("line {}: got {got}", i + 1);
                good = false;
            }
        }
        t.note(good);
    }
    t.end()
}

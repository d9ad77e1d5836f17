//! cases.rs: streams of cases made from a seed. Holds the small random source,
//! the mixing of the sorts of case, and the choice of limits.

use crate::compile::compile;
use crate::gen_book::{self, Sketch};
use crate::gen_damage::damage;
use crate::reading::read_book;
use crate::rows::{ask_bytes, shelf_bytes};
use crate::shelf::{run, Limits, Way, PROGRAM};
use crate::{gen_edge, gen_prog};
use std::io::{self, BufWriter, Write};

/// splitmix64
pub struct Rng(u64);

impl Rng {
    /// Each case has a source of its own, so that a case doesn't depend on
    /// those before it.
    fn for_case(seed: u64, case: u64) -> Rng {
        let mut rng = Rng(seed);
        let mixed = rng.next();
        Rng(mixed ^ case.wrapping_mul(0x9E37_79B9_7F4A_7C15))
    }

    pub fn next(&mut self) -> u64 {
        self.0 = self.0.wrapping_add(0x9E37_79B9_7F4A_7C15);
        let mut z = self.0;
        z = (z ^ (z >> 30)).wrapping_mul(0xBF58_476D_1CE4_E5B9);
        z = (z ^ (z >> 27)).wrapping_mul(0x94D0_49BB_1331_11EB);
        z ^ (z >> 31)
    }

    /// 0 to n-1
    pub fn below(&mut self, n: usize) -> usize {
        (self.next() % n.max(1) as u64) as usize
    }

    /// a to b, both included
    pub fn between(&mut self, a: usize, b: usize) -> usize {
        a + self.below(b - a + 1)
    }

    pub fn chance(&mut self, percent: usize) -> bool {
        self.below(100) < percent
    }

    pub fn pick<T: Copy>(&mut self, list: &[T]) -> T {
        list[self.below(list.len())]
    }
}

pub fn write_stream(what: &str, seed: u64, count: u64) -> bool {
    let mut out = BufWriter::new(io::stdout().lock());
    match what {
        "check" | "compile" | "shelf" | "long" => {}
        "chosen" => {
            let all = gen_prog::chosen().into_iter().chain(gen_edge::chosen());
            let bytes: Vec<u8> = all.flat_map(|(l, b, q)| shelf_bytes(&l, &b, &q)).collect();
            return out.write_all(&bytes).is_ok();
        }
        // one input, the case of that number
        "ask" => return out.write_all(&ask_case(&mut Rng::for_case(seed, count))).is_ok(),
        _ => return crate::usage(),
    }
    for case in 0..count {
        let r = &mut Rng::for_case(seed, case);
        let mut bytes = Vec::new();
        let mut number = |n: usize| bytes.extend((n as u32).to_le_bytes());
        let parts = match what {
            "check" => {
                let (book, question) = check_case(r);
                number(book.len());
                number(question.len());
                [book, question]
            }
            "compile" => {
                let book = compile_case(r);
                number(book.len());
                [book, Vec::new()]
            }
            _ => {
                let (l, book, question) = if what == "long" { long_case(r) } else { shelf_case(r) };
                [shelf_bytes(&l, &book, &question), Vec::new()]
            }
        };
        bytes.extend(parts.concat());
        if out.write_all(&bytes).is_err() {
            return false;
        }
    }
    out.flush().is_ok()
}

/// A well-formed book with a question for it.
fn well_formed(r: &mut Rng, big: bool) -> (Vec<u8>, Vec<u8>) {
    if r.chance(15) {
        return gen_prog::program(r);
    }
    let sketch = Sketch::new(r, big);
    (gen_book::book(r, &sketch), gen_book::question(r, &sketch))
}

fn check_case(r: &mut Rng) -> (Vec<u8>, Vec<u8>) {
    let (mut book, mut question) = match r.below(100) {
        0..=24 => gen_edge::edge(r),
        25..=34 => gen_prog::paper(r),
        _ => {
            let big = r.chance(5);
            well_formed(r, big)
        }
    };
    match r.below(100) {
        0..=39 => book = damage(r, &book),
        40..=69 => question = damage(r, &question),
        70..=74 => {
            book = damage(r, &book);
            question = damage(r, &question);
        }
        _ => {}
    }
    (book, question)
}

fn compile_case(r: &mut Rng) -> Vec<u8> {
    let book = match r.below(100) {
        0..=14 => gen_edge::edge(r).0,
        15..=19 => gen_prog::paper(r).0,
        _ => {
            let big = r.chance(15);
            well_formed(r, big).0
        }
    };
    if r.chance(12) { damage(r, &book) } else { book }
}

fn shelf_case(r: &mut Rng) -> (Limits, Vec<u8>, Vec<u8>) {
    // the few that are deep, widely shared or long, with room for them
    if r.below(1000) < 5 {
        let (book, question, limits) = gen_prog::large(r);
        return (limits, book, question);
    }
    let (mut book, mut question) = match r.below(100) {
        0..=9 => gen_edge::edge(r),
        10..=44 => gen_prog::program(r),
        45..=47 => gen_prog::paper(r),
        _ => well_formed(r, false),
    };
    match r.below(100) {
        0..=6 => book = damage(r, &book),
        7..=14 => question = damage(r, &question),
        _ => {}
    }
    let mut limits = some_limits(r);
    if r.chance(45) {
        limits = fitted(r, limits, &book, &question);
    }
    if r.chance(5) {
        put_out_of_range(r, &mut limits);
    }
    (limits, book, question)
}

/// A question, and now and then a book, that is longer than any that is accepted: some 1,048,576 bytes, which is as much as our shelf keeps of one.
fn long_case(r: &mut Rng) -> (Limits, Vec<u8>, Vec<u8>) {
    let (_, mut book, mut question) = shelf_case(r);
    if r.chance(10) {
        book = gen_edge::filler(r, 33_000, 90_000);
    }
    if r.chance(20) {
        question = gen_edge::long_term();
    }
    let most = 1_048_576;
    let length = match r.below(4) {
        0 => r.between(most - 3, most + 4),
        1 => r.between(most + 4_080, most + 4_110),
        2 => r.between(most, most + 20_000),
        _ => r.between(most + 1, 2 * most),
    };
    let start = question.len();
    question.extend(gen_edge::filler(r, length, length + 2));
    question.truncate(if r.chance(50) { length } else { question.len() });
    // an unknown kind: most often around where the kept part ends, or the first chunk behind it, or the whole
    if r.chance(60) {
        let from = r.pick(&[start, most - 8, most, most + 4_090, question.len() - 6, start + 700]);
        let at = (from + r.below(8)).min(question.len() - 1);
        question[at] = r.pick(&[0x00, 0x0C, 0x20, 0x30, 0xFF]);
    }
    let mut limits = some_limits(r);
    if r.chance(5) {
        put_out_of_range(r, &mut limits);
    }
    (limits, book, question)
}

/// An input of document 01's program.
fn ask_case(r: &mut Rng) -> Vec<u8> {
    let (_, book, question) = shelf_case(r);
    let mut bytes = ask_bytes(&book, &question);
    match r.below(20) {
        0 => bytes.truncate(r.below(bytes.len() + 1)),
        1 => bytes.truncate(r.below(3)),
        2 => bytes[r.below(2)] ^= 1 << r.below(8),
        3 => bytes.resize(r.between(33_280, 33_285), r.pick(&[0, 11, 6])),
        _ => {}
    }
    bytes
}

/// Limits in range, mostly small.
fn some_limits(r: &mut Rng) -> Limits {
    if r.chance(10) {
        return PROGRAM;
    }
    let nodes = match r.below(100) {
        0..=14 => r.between(1, 20),
        15..=59 => r.between(20, 200),
        60..=98 => r.between(200, 1600),
        _ => r.pick(&[3_000, 5_000, 16_384]),
    };
    let pool = match r.below(100) {
        0..=9 => 1,
        10..=49 => r.between(1, 12),
        50..=79 => r.between(12, 200),
        _ => 1_024,
    };
    let budget = match r.below(100) {
        0..=3 => 0,
        4..=39 => r.between(0, 30),
        40..=69 => r.between(10, 400),
        70..=84 => 10_000,
        _ => 1_000_000,
    };
    let results = match r.below(100) {
        0..=4 => 0,
        5..=24 => r.between(0, 60),
        25..=59 => 4_096,
        _ => 65_536,
    };
    let code = match r.below(100) {
        0..=1 => 0,
        2..=5 => r.between(0, 300),
        6..=39 => 16_384,
        _ => 262_144,
    };
    let [nodes, pool, budget, results, code] = [nodes, pool, budget, results, code].map(|n| n as u32);
    Limits { nodes, pool, budget, results, code }
}

/// Runs the case and sets one limit, or all of them, to just what the run
/// used or one less: the places where an answer changes.
fn fitted(r: &mut Rng, limits: Limits, book: &[u8], question: &[u8]) -> Limits {
    let wide = Limits { nodes: limits.nodes.max(300), pool: 1_024, budget: limits.budget.max(50), results: 65_536, code: 262_144 };
    let Ok(read) = read_book(book) else { return limits };
    let code = compile(&read).bytes.len() as u32;
    let got = run(&wide, book, question, Way::Plain);
    if got.answer > 4 {
        return limits;
    }
    let mut fit = wide;
    let which = r.below(6);
    let less = r.chance(60) as u32;
    let room = |used: u32, max: u32, less: u32| used.saturating_sub(less).min(max);
    if which == 0 || which == 5 {
        fit.nodes = room(got.counts.nodes as u32, 16_384, less).max(1);
    }
    if which == 1 || which == 5 {
        fit.pool = room(got.peak as u32, 1_024, less).max(1);
    }
    if which == 2 || which == 5 {
        fit.budget = room(got.counts.turns as u32, 1_000_000, less);
    }
    if which == 3 || which == 5 {
        fit.results = room(got.results.len() as u32, 65_536, less);
    }
    if which == 4 || r.chance(5) {
        fit.code = room(code, 262_144, less);
    }
    fit
}

fn put_out_of_range(r: &mut Rng, l: &mut Limits) {
    let far = r.pick(&[1, 2, 1_000, 4_000_000_000, u32::MAX]);
    let over = |max: u32| max.saturating_add(far);
    match r.below(7) {
        0 => l.nodes = over(16_384),
        1 => l.pool = over(1_024),
        2 => l.budget = over(1_000_000),
        3 => l.results = over(65_536),
        4 => l.code = over(262_144),
        5 => l.nodes = 0,
        _ => l.pool = 0,
    }
}

//! shelf.rs: one whole run: limits, the order of the answers 10 to 13, and
//! then the plain reading or the compiled machine.

use crate::compile::{compile, Code};
use crate::reading::{read_book, read_question, Book, Fault, Right};
use crate::store::Arities;
use crate::{machine, plain};

#[derive(Clone, Copy, Debug)]
pub struct Limits {
    pub nodes: u32,
    pub pool: u32,
    pub budget: u32,
    pub results: u32,
    pub code: u32,
}

/// The limits of the program of document 01.
pub const PROGRAM: Limits = Limits { nodes: 1_600, pool: 64, budget: 10_000, results: 4_096, code: 16_384 };

#[derive(Clone, Copy, PartialEq)]
pub enum Way {
    Plain,
    Machine,
}

/// "turns, nodes made, begun, split, values, failed, misfits"
#[derive(Default, Clone, Debug, PartialEq)]
pub struct Counts {
    pub turns: u64,
    pub nodes: u64,
    pub begun: u64,
    pub split: u64,
    pub values: u64,
    pub failed: u64,
    pub misfits: u64,
}

impl Counts {
    pub fn list(&self) -> [u64; 7] {
        [self.turns, self.nodes, self.begun, self.split, self.values, self.failed, self.misfits]
    }
}

#[derive(Default, Clone, Debug, PartialEq)]
pub struct Outcome {
    pub answer: u8,
    pub place: usize,
    pub counts: Counts,
    pub results: Vec<u8>,
    /// the most computations that ever waited at once (for the generator)
    pub peak: usize,
}

/// "Ranges: nodes 1..16,384, pool 1..1,024, budget 0..1,000,000, results room
/// 0..65,536 bytes, code room 0..262,144."
fn in_range(l: &Limits) -> bool {
    (1..=16_384).contains(&l.nodes)
        && (1..=1_024).contains(&l.pool)
        && l.budget <= 1_000_000
        && l.results <= 65_536
        && l.code <= 262_144
}

/// The question check: "the question's takes the book and judges it first".
pub fn check(book: &[u8], question: &[u8]) -> Result<(Book, Right), (u8, Fault)> {
    let book = read_book(book).map_err(|f| (11, f))?;
    let question = read_question(&book, question).map_err(|f| (12, f))?;
    Ok((book, question))
}

/// "Order: 10, 11, 12, 13. These four ... give all counts as 0."
pub fn run(limits: &Limits, book: &[u8], question: &[u8], way: Way) -> Outcome {
    let refused = |answer, place| Outcome { answer, place, ..Outcome::default() };
    if !in_range(limits) {
        return refused(10, 0);
    }
    let (book, question) = match check(book, question) {
        Ok(both) => both,
        Err((answer, fault)) => return refused(answer, fault.place),
    };
    let code: Code = compile(&book);
    if code.bytes.len() > limits.code as usize {
        return refused(13, 0);
    }
    let arities = Arities {
        cons: book.cons.iter().map(|c| c.arity).collect(),
        funcs: book.funcs.iter().map(|f| f.arity).collect(),
    };
    // "Then the question's term is built, or answer 2 with no turn taken, no
    // node made and every count 0."
    let mut run = Run::new(limits);
    let (value, askers) = run.store.build(&question, &[], &arities);
    if run.over_nodes() {
        return refused(2, 0);
    }
    run.counts.begun = 1;
    let mut roots = vec![value];
    roots.extend(askers);
    let answer = match way {
        Way::Plain => plain::run(&book, &arities, roots, &mut run),
        Way::Machine => {
            let program = machine::Program {
                code: &code.bytes,
                starts: &code.starts,
                arities: &arities,
                types: &book.types,
                cons: &book.cons,
            };
            machine::run(&program, roots, &mut run)
        }
    };
    Outcome { answer, place: 0, counts: run.counts, results: run.results, peak: run.peak }
}

/// What a run holds apart from its pool. The node list may hold nodes of a
/// turn that couldn't be taken; `counts.nodes` tells the nodes made.
pub struct Run {
    pub store: crate::store::Store,
    pub counts: Counts,
    pub results: Vec<u8>,
    pub limits: Limits,
    pub peak: usize,
}

impl Run {
    fn new(limits: &Limits) -> Run {
        Run { store: Default::default(), counts: Counts::default(), results: Vec::new(), limits: *limits, peak: 1 }
    }

    pub fn over_nodes(&self) -> bool {
        self.store.nodes.len() > self.limits.nodes as usize
    }

    /// A turn has been taken.
    pub fn count_turn(&mut self, waiting: usize) {
        self.counts.turns += 1;
        self.counts.nodes = self.store.nodes.len() as u64;
        self.peak = self.peak.max(waiting);
    }
}

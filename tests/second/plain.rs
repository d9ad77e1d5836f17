//! plain.rs: "A turn, read plainly from the book": every turn starts at the
//! top of the value term and walks the trees.

use crate::reading::{Book, Right, Tree};
use crate::shelf::Run;
use crate::store::{Args, Arities, Node};
use std::collections::VecDeque;

/// "A computation holds a value term and one term for each asker's variable":
/// the value is the first root.
type Computation = Vec<u32>;

/// What the walk from a call comes to.
enum Found<'a> {
    /// a variable to be narrowed, and the type
    Variable(u32, usize),
    /// a call to be rewritten by these RIGHTs, its slots filled so
    Rule(u32, &'a [Right], Vec<u32>),
    Failure,
    Misfit,
}

pub fn run(book: &Book, arities: &Arities, first: Computation, run: &mut Run) -> u8 {
    run.counts.nodes = run.store.nodes.len() as u64;
    let mut pool = VecDeque::from([first]);
    loop {
        // "Before each turn: pool empty gives 0, else budget used gives 1,
        // else the front computation takes its turn."
        let Some(front) = pool.front() else { return 0 };
        if run.counts.turns == run.limits.budget as u64 {
            return 1;
        }
        let front = front.clone();
        let Some(call) = run.store.first_call(front[0]) else {
            // "None: the result is written, values plus one."
            let turn = run.counts.turns + 1;
            let room = run.limits.results as usize;
            if !run.store.write_result(turn, &front, room, &mut run.results) {
                return 4;
            }
            pool.pop_front();
            run.counts.values += 1;
            run.count_turn(pool.len());
            continue;
        };
        let (old, terms) = match walk(book, run, call) {
            Found::Failure => {
                pool.pop_front();
                run.counts.failed += 1;
                run.count_turn(pool.len());
                continue;
            }
            Found::Misfit => {
                pool.pop_front();
                run.counts.misfits += 1;
                run.count_turn(pool.len());
                continue;
            }
            // "At RULE with one RIGHT the term is built and the call becomes
            // a forward to it."
            Found::Rule(call, [right], slots) => {
                let (term, _) = run.store.build(right, &slots, arities);
                if run.over_nodes() {
                    return 2;
                }
                run.store.nodes[call as usize] = Node::Forward(term);
                // "A computation still going after its turn joins the back"
                pool.rotate_left(1);
                run.count_turn(pool.len());
                continue;
            }
            // "Choice builds every RIGHT, in order."
            Found::Rule(call, rights, slots) => {
                let build = |right| run.store.build(right, &slots, arities).0;
                (call, rights.iter().map(build).collect())
            }
            Found::Variable(var, ty) => (var, instances(book, run, ty)),
        };
        let limit = run.limits.nodes as usize;
        // "nodes are tested before pool"
        let Some(alternatives) = run.store.alternatives(old, &terms, &front, limit) else { return 2 };
        // "Answer 3: waiting, less one, plus alternatives is above the limit."
        if pool.len() - 1 + alternatives.len() > run.limits.pool as usize {
            return 3;
        }
        pool.pop_front();
        run.counts.split += 1;
        run.counts.begun += alternatives.len() as u64;
        pool.extend(alternatives);
        run.count_turn(pool.len());
    }
}

/// Walks the call's tree; "a call is walked instead, from its own tree".
fn walk<'a>(book: &'a Book, run: &Run, first: u32) -> Found<'a> {
    let mut call = first;
    'calls: loop {
        let Node::Call(f, args) = run.store.nodes[call as usize] else { unreachable!("only calls are walked") };
        let mut slots: Vec<u32> = args.list().to_vec();
        let mut tree = &book.funcs[f].tree;
        loop {
            match tree {
                Tree::None => return Found::Failure,
                Tree::Rule(rights) => return Found::Rule(call, rights, slots),
                Tree::Split { slot, ty, children } => {
                    let n = run.store.follow(slots[*slot]);
                    match run.store.nodes[n as usize] {
                        Node::Call(..) => {
                            call = n;
                            continue 'calls;
                        }
                        // "a constructor of another type ends the computation
                        // as misfit"
                        Node::Con(c, _) if book.cons[c].ty != *ty => return Found::Misfit,
                        // "a constructor of the type leads to its child"
                        Node::Con(c, args) => {
                            slots.extend(args.list());
                            tree = &children[book.cons[c].index];
                        }
                        _ => return Found::Variable(n, *ty),
                    }
                }
            }
        }
    }
}

/// "Narrowing makes one term for every constructor, in order, each argument a
/// new variable."
fn instances(book: &Book, run: &mut Run, ty: usize) -> Vec<u32> {
    let first = book.types[ty].first;
    let mut terms = Vec::new();
    for c in first..first + book.types[ty].count {
        let vars: Vec<u32> = (0..book.cons[c].arity).map(|_| run.store.make(Node::Var)).collect();
        terms.push(run.store.make(Node::Con(c, Args::from(&vars))));
    }
    terms
}

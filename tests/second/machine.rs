//! machine.rs: the compiled machine, instruction by instruction (Figure 1 of
//! document 003), with its pre-narrex stack kept between turns. It gets the
//! code, each function's start and arity, the TYPE and CONS records and the
//! question's term, "never a tree".

use crate::compile::*;
use crate::reading::{Cons, Type};
use crate::shelf::Run;
use crate::store::{take_args, Arities, Node};
use std::collections::VecDeque;

pub struct Program<'a> {
    pub code: &'a [u8],
    pub starts: &'a [usize],
    pub arities: &'a Arities,
    pub types: &'a [Type],
    pub cons: &'a [Cons],
}

struct Computation {
    /// the value term, then one term for each asker's variable
    roots: Vec<u32>,
    /// the pre-narrex stack, its top last
    stack: Vec<u32>,
}

/// How the code that a turn runs can end.
enum Done {
    Replaced { term: u32 },
    Narrow { var: u32, terms: Vec<u32> },
    Choice { terms: Vec<u32> },
    Failed,
    Misfit,
}

pub fn run(program: &Program, first: Vec<u32>, run: &mut Run) -> u8 {
    run.counts.nodes = run.store.nodes.len() as u64;
    let mut pool = VecDeque::from([Computation { roots: first, stack: Vec::new() }]);
    loop {
        let Some(mut front) = pool.pop_front() else { return 0 };
        if run.counts.turns == run.limits.budget as u64 {
            return 1;
        }
        // "If the top of the pre-narrex stack represents a constructor-rooted
        // term or a variable, the stack is simply popped" (003, 3.6)
        while let Some(top) = front.stack.last() {
            if let Node::Call(..) = run.store.read(*top) {
                break;
            }
            front.stack.pop();
        }
        // "looking for a call in the value only where it is empty"
        if front.stack.is_empty() {
            match run.store.first_call(front.roots[0]) {
                Some(call) => front.stack.push(call),
                None => {
                    let turn = run.counts.turns + 1;
                    let room = run.limits.results as usize;
                    if !run.store.write_result(turn, &front.roots, room, &mut run.results) {
                        return 4;
                    }
                    run.counts.values += 1;
                    run.count_turn(pool.len());
                    continue;
                }
            }
        }
        let done = execute(program, run, &mut front.stack);
        if run.over_nodes() {
            return 2;
        }
        let top = *front.stack.last().expect("REPLACE and CHOICE have their call on the stack");
        let (old, terms) = match done {
            Done::Failed => {
                run.counts.failed += 1;
                run.count_turn(pool.len());
                continue;
            }
            Done::Misfit => {
                run.counts.misfits += 1;
                run.count_turn(pool.len());
                continue;
            }
            Done::Replaced { term } => {
                // a forward, never a copy of the content; the handle stays
                let call = run.store.follow(top);
                run.store.nodes[call as usize] = Node::Forward(term);
                pool.push_back(front);
                run.count_turn(pool.len());
                continue;
            }
            Done::Narrow { var, terms } => (var, terms),
            Done::Choice { terms } => (top, terms),
        };
        let limit = run.limits.nodes as usize;
        let Some(copies) = run.store.alternatives(old, &terms, &front.roots, limit) else { return 2 };
        if pool.len() + copies.len() > run.limits.pool as usize {
            return 3;
        }
        run.counts.split += 1;
        run.counts.begun += copies.len() as u64;
        // "NARROW and CHOICE start alternatives with it empty"
        pool.extend(copies.into_iter().map(|roots| Computation { roots, stack: Vec::new() }));
        run.count_turn(pool.len());
    }
}

/// Runs the code of the call on top of the stack, "pushing each call that a
/// BRANCH meets", until one step is done.
fn execute(program: &Program, run: &mut Run, stack: &mut Vec<u32>) -> Done {
    let code = program.code;
    let mut at = start(program, run, stack);
    // "Current register", "Pre-term stack", "Free variable registers"
    let mut register = 0u32;
    let mut terms: Vec<u32> = Vec::new();
    let mut free = [0u32; 8];
    loop {
        match code[at] {
            LOAD => {
                let length = code[at + 1] as usize;
                register = stack[stack.len() - 1];
                for step in &code[at + 2..at + 2 + length] {
                    let (Node::Call(_, args) | Node::Con(_, args)) = run.store.read(register) else {
                        unreachable!("LOAD goes through constructors that were branched on")
                    };
                    register = args.list()[*step as usize - 1];
                }
                at += 10;
            }
            BRANCH => {
                register = run.store.follow(register);
                let ty = code[at + 1] as usize;
                let arm = match run.store.nodes[register as usize] {
                    Node::Call(..) => {
                        stack.push(register);
                        at = start(program, run, stack);
                        terms.clear();
                        continue;
                    }
                    Node::Con(c, _) => {
                        let first = program.types[ty].first;
                        if !(first..first + program.types[ty].count).contains(&c) {
                            return Done::Misfit;
                        }
                        1 + program.cons[c].index
                    }
                    _ => 0,
                };
                at = go_target(code, at + 2 + 5 * arm);
            }
            PUSH => {
                terms.push(register);
                at += 1;
            }
            POP => {
                register = terms.pop().expect("POP finds a term");
                at += 1;
            }
            MAKEANON => {
                terms.push(run.store.make(Node::Var));
                at += 1;
            }
            STOREVAR => {
                free[code[at + 1] as usize] = run.store.make(Node::Var);
                at += 2;
            }
            MAKEVAR => {
                terms.push(free[code[at + 1] as usize]);
                at += 2;
            }
            MAKETERM => {
                let symbol = code[at + 2] as usize;
                let node = if code[at + 1] == 0 {
                    Node::Con(symbol, take_args(&mut terms, program.arities.cons[symbol]))
                } else {
                    Node::Call(symbol, take_args(&mut terms, program.arities.funcs[symbol]))
                };
                terms.push(run.store.make(node));
                at += 3;
            }
            REPLACE => return Done::Replaced { term: register },
            // "At NARROW and CHOICE the first alternative lies deepest."
            NARROW => return Done::Narrow { var: register, terms },
            CHOICE => return Done::Choice { terms },
            FAIL => return Done::Failed,
            other => unreachable!("no instruction {:02x}", other),
        }
    }
}

/// Where the code of the call on top of the stack starts.
fn start(program: &Program, run: &Run, stack: &[u32]) -> usize {
    let Node::Call(f, _) = run.store.read(stack[stack.len() - 1]) else { unreachable!("the top is a call") };
    program.starts[f]
}

/// The offset that a GO record gives.
fn go_target(code: &[u8], at: usize) -> usize {
    assert_eq!(code[at], GO);
    u32::from_le_bytes([code[at + 1], code[at + 2], code[at + 3], code[at + 4]]) as usize
}

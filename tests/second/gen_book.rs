//! gen_book.rs: random well-formed books and questions. Terms mostly keep to
//! the types that the sketch gives to arguments, so that runs go on for a
//! while; now and then they don't, so that misfits occur.

use crate::cases::Rng;
use crate::reading::{CALL, CON, CONS, FRESH, FUNC, NONE, RIGHT, RULE, SLOT, SPLIT, TYPE};

/// What stands fixed before the trees are made. A type is its number.
pub struct Sketch {
    /// each type's constructors
    types: Vec<Vec<usize>>,
    /// each constructor's type and its arguments' types
    cons: Vec<(usize, Vec<usize>)>,
    /// each function's result type and its arguments' types
    funcs: Vec<(usize, Vec<usize>)>,
    big: bool,
}

impl Sketch {
    pub fn new(r: &mut Rng, big: bool) -> Sketch {
        let mut s = Sketch { types: Vec::new(), cons: Vec::new(), funcs: Vec::new(), big };
        let types = match r.below(100) {
            0..=2 => 0,
            _ => r.between(1, if big { 8 } else { 4 }),
        };
        for ty in 0..types {
            let count = match r.below(100) {
                0..=1 => r.between(6, 32),
                2..=9 => 1,
                _ => r.between(1, 4),
            };
            let mut members = Vec::new();
            for i in 0..count {
                let arity = match r.below(100) {
                    _ if i == 0 && r.chance(80) => 0,
                    0..=2 if big => r.between(4, 8),
                    0..=1 => r.between(3, 8),
                    _ => r.below(3),
                };
                members.push(s.cons.len());
                s.cons.push((ty, (0..arity).map(|_| r.below(types)).collect()));
            }
            s.types.push(members);
        }
        let funcs = match r.below(100) {
            0..=2 => 0,
            _ => r.between(1, if big { 24 } else { 5 }),
        };
        for _ in 0..funcs {
            let arity = match r.below(100) {
                0..=2 => r.between(4, 8),
                _ => r.below(4),
            };
            let args = (0..arity).map(|_| r.below(types)).collect();
            s.funcs.push((r.below(types), args));
        }
        s
    }
}

/// A slot in scope: its type, its position's length, whether it is split.
#[derive(Clone, Copy)]
struct Slot {
    ty: usize,
    length: usize,
    split: bool,
}

/// What a term may use.
struct Scope<'a> {
    sketch: &'a Sketch,
    slots: &'a [Slot],
    /// the types of the fresh variables
    fresh: Vec<usize>,
    /// records that may still be made
    left: usize,
}

pub fn book(r: &mut Rng, s: &Sketch) -> Vec<u8> {
    let mut out = Vec::new();
    for members in &s.types {
        out.extend([TYPE, members.len() as u8]);
        for c in members {
            out.extend([CONS, s.cons[*c].1.len() as u8]);
        }
    }
    for (result, args) in &s.funcs {
        out.extend([FUNC, args.len() as u8]);
        let slots: Vec<Slot> = args.iter().map(|ty| Slot { ty: *ty, length: 1, split: false }).collect();
        let depth = if r.chance(10) { 7 } else { r.below(4) };
        tree(r, s, &slots, *result, depth, &mut out);
    }
    out
}

fn tree(r: &mut Rng, s: &Sketch, slots: &[Slot], result: usize, depth: usize, out: &mut Vec<u8>) {
    // a book stays well under its longest
    let depth = if out.len() > if s.big { 12_000 } else { 1_200 } { 0 } else { depth };
    let open: Vec<usize> = (0..slots.len()).filter(|i| !slots[*i].split && slots[*i].length < 8).collect();
    if depth > 0 && !open.is_empty() && !s.types.is_empty() && r.chance(75) {
        // late slots more often, so that patterns become deep
        let slot = if r.chance(40) { open[open.len() - 1] } else { r.pick(&open) };
        let ty = if r.chance(96) { slots[slot].ty } else { r.below(s.types.len()) };
        let widest = s.types[ty].iter().map(|c| s.cons[*c].1.len()).max().unwrap_or(0);
        if slots.len() + widest <= 64 {
            out.extend([SPLIT, slot as u8, ty as u8]);
            for c in &s.types[ty] {
                let mut below = slots.to_vec();
                below[slot].split = true;
                let length = slots[slot].length + 1;
                below.extend(s.cons[*c].1.iter().map(|ty| Slot { ty: *ty, length, split: false }));
                tree(r, s, &below, result, depth - 1, out);
            }
            return;
        }
    }
    if r.chance(10) {
        out.push(NONE);
        return;
    }
    let rights = match r.below(100) {
        0..=69 => 1,
        70..=87 => 2,
        88..=96 => 3,
        _ => r.between(4, 16),
    };
    out.extend([RULE, rights as u8]);
    for _ in 0..rights {
        let fresh = match r.below(100) {
            0..=69 => 0,
            70..=94 => r.between(1, 2),
            _ => r.between(3, 8),
        };
        let depth = r.pick(&[0, 1, 1, 2, 2, 3]);
        right(r, s, slots, fresh, result, depth, out);
    }
}

/// A RIGHT and its term. Where nothing at all could end a term, a fresh
/// variable is declared.
fn right(r: &mut Rng, s: &Sketch, slots: &[Slot], fresh: usize, ty: usize, depth: usize, out: &mut Vec<u8>) {
    let has_leaf = !slots.is_empty()
        || s.cons.iter().any(|(_, args)| args.is_empty())
        || s.funcs.iter().any(|(_, args)| args.is_empty());
    let fresh = if has_leaf { fresh } else { fresh.max(1) };
    let fresh: Vec<usize> = (0..fresh).map(|_| r.below(s.types.len())).collect();
    out.extend([RIGHT, fresh.len() as u8]);
    let left = if r.chance(5) { 60 } else { 14 };
    let mut scope = Scope { sketch: s, slots, fresh, left };
    term(r, &mut scope, ty, depth, out);
}

fn term(r: &mut Rng, scope: &mut Scope, ty: usize, depth: usize, out: &mut Vec<u8>) {
    let s = scope.sketch;
    scope.left = scope.left.saturating_sub(1);
    let loose = r.chance(3);
    let leaf_only = depth == 0 || scope.left == 0;
    let fits = |t: usize, arity: usize| (loose || t == ty) && (!leaf_only || arity == 0);
    let slots: Vec<usize> = (0..scope.slots.len()).filter(|i| fits(scope.slots[*i].ty, 0)).collect();
    let fresh: Vec<usize> = (0..scope.fresh.len()).filter(|i| fits(scope.fresh[*i], 0)).collect();
    let cons: Vec<usize> = (0..s.cons.len()).filter(|c| fits(s.cons[*c].0, s.cons[*c].1.len())).collect();
    let funcs: Vec<usize> = (0..s.funcs.len()).filter(|f| fits(s.funcs[*f].0, s.funcs[*f].1.len())).collect();
    for _ in 0..6 {
        let (kind, list) = match r.below(100) {
            0..=29 => (SLOT, &slots),
            30..=39 => (FRESH, &fresh),
            40..=69 => (CON, &cons),
            _ => (CALL, &funcs),
        };
        if !list.is_empty() {
            let number = r.pick(list);
            out.extend([kind, number as u8]);
            let args: &[usize] = match kind {
                CON => &s.cons[number].1,
                CALL => &s.funcs[number].1,
                _ => &[],
            };
            for arg in args {
                term(r, scope, *arg, depth.saturating_sub(1), out);
            }
            return;
        }
    }
    any_leaf(r, scope, ty, out);
}

/// A term of one record: of the type if there is one, else any at all.
fn any_leaf(r: &mut Rng, scope: &Scope, ty: usize, out: &mut Vec<u8>) {
    let s = scope.sketch;
    let mut leaves: Vec<(u8, usize, usize)> = Vec::new();
    leaves.extend(scope.slots.iter().enumerate().map(|(i, slot)| (SLOT, i, slot.ty)));
    leaves.extend(scope.fresh.iter().enumerate().map(|(i, t)| (FRESH, i, *t)));
    let nullary = |list: &[(usize, Vec<usize>)], kind: u8| -> Vec<(u8, usize, usize)> {
        let leaf = list.iter().enumerate().filter(|(_, (_, args))| args.is_empty());
        leaf.map(|(i, (t, _))| (kind, i, *t)).collect()
    };
    leaves.extend(nullary(&s.cons, CON));
    leaves.extend(nullary(&s.funcs, CALL));
    let typed: Vec<(u8, usize, usize)> = leaves.iter().copied().filter(|leaf| leaf.2 == ty).collect();
    let (kind, number, _) = r.pick(if typed.is_empty() { &leaves } else { &typed });
    out.extend([kind, number as u8]);
}

/// A question, mostly a call with the asker's variables in it.
pub fn question(r: &mut Rng, s: &Sketch) -> Vec<u8> {
    let mut out = Vec::new();
    let fresh = match r.below(100) {
        0..=24 => 0,
        25..=94 => r.between(1, 3),
        _ => 8,
    };
    if s.funcs.is_empty() || r.chance(8) {
        let depth = r.below(4);
        let ty = r.below(s.types.len());
        right(r, s, &[], fresh, ty, depth, &mut out);
        return out;
    }
    let f = r.below(s.funcs.len());
    let has_leaf = fresh > 0 || s.cons.iter().any(|(_, a)| a.is_empty()) || s.funcs.iter().any(|(_, a)| a.is_empty());
    let fresh = if has_leaf { fresh } else { 1 };
    let mut types: Vec<usize> = s.funcs[f].1.iter().copied().take(fresh).collect();
    while types.len() < fresh {
        types.push(r.below(s.types.len()));
    }
    out.extend([RIGHT, fresh as u8, CALL, f as u8]);
    let mut scope = Scope { sketch: s, slots: &[], fresh: types, left: 20 };
    for arg in &s.funcs[f].1 {
        let depth = r.below(3);
        term(r, &mut scope, *arg, depth, &mut out);
    }
    out
}

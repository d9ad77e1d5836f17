//! compile.rs: the compile scheme of Figure 4 of document 003, without its
//! optional improvements, to the code records of document 01.

use crate::reading::{Book, Item, Right, Tree};

pub const LOAD: u8 = 0x30;
pub const BRANCH: u8 = 0x31;
pub const GO: u8 = 0x32;
pub const PUSH: u8 = 0x33;
pub const POP: u8 = 0x34;
pub const MAKEANON: u8 = 0x35;
pub const STOREVAR: u8 = 0x36;
pub const MAKEVAR: u8 = 0x37;
pub const MAKETERM: u8 = 0x38;
pub const REPLACE: u8 = 0x39;
pub const NARROW: u8 = 0x3A;
pub const CHOICE: u8 = 0x3B;
pub const FAIL: u8 = 0x3C;

pub struct Code {
    pub bytes: Vec<u8>,
    /// where each function's code starts
    pub starts: Vec<usize>,
}

/// A place in the pattern: argument steps counted from 1.
type Position = Vec<u8>;

/// "Functions in book order". A book of 32,768 bytes gives well under 1 MB.
pub fn compile(book: &Book) -> Code {
    let mut code = Code { bytes: Vec::new(), starts: Vec::new() };
    for func in &book.funcs {
        code.starts.push(code.bytes.len());
        let slots: Vec<Position> = (1..=func.arity as u8).map(|i| vec![i]).collect();
        tree(book, &func.tree, &slots, &mut code.bytes);
    }
    code
}

fn tree(book: &Book, t: &Tree, slots: &[Position], out: &mut Vec<u8>) {
    match t {
        // "NONE compiles to FAIL"
        Tree::None => out.push(FAIL),
        Tree::Rule(rights) => {
            for right in rights {
                rhs(right, slots, out);
            }
            if rights.len() == 1 {
                out.extend([POP, REPLACE]);
            } else {
                out.push(CHOICE);
            }
        }
        Tree::Split { slot, ty, children } => {
            load(&slots[*slot], out);
            out.extend([BRANCH, *ty as u8]);
            // "then GO (4-byte offset from the code's start) for the
            // variable arm and each constructor"
            let gos = out.len();
            for _ in 0..children.len() + 1 {
                out.extend([GO, 0, 0, 0, 0]);
            }
            // "after the GOs the variable arm, then the children"
            set_go(out, gos, 0);
            let first = book.types[*ty].first;
            for c in first..first + children.len() {
                out.extend(std::iter::repeat(MAKEANON).take(book.cons[c].arity));
                out.extend([MAKETERM, 0, c as u8]);
            }
            out.push(NARROW);
            for (i, child) in children.iter().enumerate() {
                set_go(out, gos, i + 1);
                let mut below = slots.to_vec();
                for step in 1..=book.cons[first + i].arity as u8 {
                    let mut position = slots[*slot].clone();
                    position.push(step);
                    below.push(position);
                }
                tree(book, child, &below, out);
            }
        }
    }
}

/// Lets the i-th GO of a BRANCH lead to here, the end of the code so far.
fn set_go(out: &mut [u8], gos: usize, i: usize) {
    let here = (out.len() as u32).to_le_bytes();
    out[gos + 5 * i + 1..gos + 5 * i + 5].copy_from_slice(&here);
}

/// "LOAD (length, 8 steps counted from 1, rest 0)"
fn load(position: &[u8], out: &mut Vec<u8>) {
    out.extend([LOAD, position.len() as u8]);
    out.extend(position);
    out.extend(std::iter::repeat(0).take(8 - position.len()));
}

fn rhs(right: &Right, slots: &[Position], out: &mut Vec<u8>) {
    for v in 0..right.fresh as u8 {
        out.extend([STOREVAR, v]);
    }
    // compileTerm takes the last argument first and the symbol after all its
    // arguments: the records of the term from the last to the first.
    for item in right.term.iter().rev() {
        match *item {
            Item::Fresh(v) => out.extend([MAKEVAR, v as u8]),
            Item::Slot(s) => {
                load(&slots[s], out);
                out.push(PUSH);
            }
            Item::Con(c) => out.extend([MAKETERM, 0, c as u8]),
            Item::Call(f) => out.extend([MAKETERM, 1, f as u8]),
        }
    }
}

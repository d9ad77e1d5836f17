//! reading.rs: the records of a book and of a question, read and judged.
//! Gives either the book (types, constructors, functions with their trees)
//! or the fault: its place and its sort (change request A1).

pub const TYPE: u8 = 0x01;
pub const CONS: u8 = 0x02;
pub const FUNC: u8 = 0x03;
pub const SPLIT: u8 = 0x04;
pub const RULE: u8 = 0x05;
pub const RIGHT: u8 = 0x06;
pub const CON: u8 = 0x07;
pub const CALL: u8 = 0x08;
pub const SLOT: u8 = 0x09;
pub const FRESH: u8 = 0x0A;
pub const NONE: u8 = 0x0B;

pub const MAX_BOOK: usize = 32_768;

/// The five sorts of A1, in the order named there.
pub const UNKNOWN_KIND: u8 = 1;
pub const CUT_SHORT: u8 = 2;
pub const NUMBER: u8 = 3;
pub const UNEXPECTED: u8 = 4;
pub const BYTES_AT_END: u8 = 5;

#[derive(Clone, Copy, Debug, PartialEq)]
pub struct Fault {
    pub place: usize,
    pub sort: u8,
}

/// One record of a term. A term is kept in preorder, as the book has it.
#[derive(Clone, Copy, Debug)]
pub enum Item {
    Con(usize),
    Call(usize),
    Slot(usize),
    Fresh(usize),
}

pub struct Right {
    pub fresh: usize,
    pub term: Vec<Item>,
}

pub enum Tree {
    Split { slot: usize, ty: usize, children: Vec<Tree> },
    Rule(Vec<Right>),
    None,
}

pub struct Type {
    pub first: usize,
    pub count: usize,
}

pub struct Cons {
    pub arity: usize,
    pub ty: usize,
    /// which one of its type's constructors, from 0
    pub index: usize,
}

pub struct Func {
    pub arity: usize,
    pub tree: Tree,
}

#[derive(Default)]
pub struct Book {
    pub types: Vec<Type>,
    pub cons: Vec<Cons>,
    pub funcs: Vec<Func>,
}

/// "one byte of kind, then a body whose length the kind fixes"
pub fn body_length(kind: u8) -> Option<usize> {
    match kind {
        SPLIT => Some(2),
        NONE => Some(0),
        TYPE..=FRESH => Some(1),
        _ => None,
    }
}

fn fault<T>(place: usize, sort: u8) -> Result<T, Fault> {
    Err(Fault { place, sort })
}

/// "a first pass over the records: unknown kind, body cut short, FUNC arity
/// above 8, 257th FUNC, at that record's offset"; "for a question the first
/// pass looks only for unknown kinds and cut bodies". Gives the FUNC arities.
fn first_pass(bytes: &[u8], is_book: bool) -> Result<Vec<usize>, Fault> {
    let mut arities = Vec::new();
    let mut at = 0;
    while at < bytes.len() {
        let Some(body) = body_length(bytes[at]) else { return fault(at, UNKNOWN_KIND) };
        if at + 1 + body > bytes.len() {
            return fault(at, CUT_SHORT);
        }
        if is_book && bytes[at] == FUNC {
            if bytes[at + 1] > 8 || arities.len() == 256 {
                return fault(at, NUMBER);
            }
            arities.push(bytes[at + 1] as usize);
        }
        at += 1 + body;
    }
    Ok(arities)
}

/// A place of the pattern, as the SPLIT rules need it.
#[derive(Clone, Copy)]
struct Slot {
    length: usize,
    split: bool,
}

/// The second reading, left to right. The first pass has been passed, so
/// every record here has a known kind and its whole body.
struct Reader<'a> {
    bytes: &'a [u8],
    at: usize,
    /// "a CALL may name any FUNC of the first pass"
    calls: &'a [usize],
}

impl Reader<'_> {
    /// The kind of the record that is due. "Bytes ending while a record is
    /// due: the length."
    fn due(&self) -> Result<u8, Fault> {
        match self.bytes.get(self.at) {
            Some(kind) => Ok(*kind),
            None => fault(self.bytes.len(), BYTES_AT_END),
        }
    }

    fn body(&self, i: usize) -> usize {
        self.bytes[self.at + 1 + i] as usize
    }

    fn next(&mut self) {
        self.at += 1 + body_length(self.bytes[self.at]).unwrap_or(0);
    }

    fn number_fault<T>(&self) -> Result<T, Fault> {
        fault(self.at, NUMBER)
    }

    fn unexpected<T>(&self) -> Result<T, Fault> {
        fault(self.at, UNEXPECTED)
    }

    fn book(&mut self) -> Result<Book, Fault> {
        let mut book = Book::default();
        while self.at < self.bytes.len() {
            match self.bytes[self.at] {
                // "All TYPEs come before the first FUNC."
                TYPE if book.funcs.is_empty() => self.type_and_its_cons(&mut book)?,
                FUNC => {
                    let arity = self.body(0);
                    self.next();
                    // "A function's arguments are slots 0 to arity-1,
                    // positions of length 1."
                    let slots = vec![Slot { length: 1, split: false }; arity];
                    let tree = self.tree(&book, &slots)?;
                    book.funcs.push(Func { arity, tree });
                }
                _ => return self.unexpected(),
            }
        }
        Ok(book)
    }

    fn type_and_its_cons(&mut self, book: &mut Book) -> Result<(), Fault> {
        let count = self.body(0);
        if book.types.len() == 64 || !(1..=32).contains(&count) {
            return self.number_fault();
        }
        self.next();
        let ty = book.types.len();
        book.types.push(Type { first: book.cons.len(), count });
        for index in 0..count {
            if self.due()? != CONS {
                return self.unexpected();
            }
            let arity = self.body(0);
            // "broken by the first record beyond it (the 257th CONS, not its TYPE)"
            if book.cons.len() == 256 || arity > 8 {
                return self.number_fault();
            }
            self.next();
            book.cons.push(Cons { arity, ty, index });
        }
        Ok(())
    }

    /// Trees nest at most 64 deep: every SPLIT uses up a slot.
    fn tree(&mut self, book: &Book, slots: &[Slot]) -> Result<Tree, Fault> {
        match self.due()? {
            SPLIT => self.split(book, slots),
            RULE => {
                let count = self.body(0);
                if !(1..=16).contains(&count) {
                    return self.number_fault();
                }
                self.next();
                let mut rights = Vec::new();
                for _ in 0..count {
                    rights.push(self.right(book, Some(slots.len()))?);
                }
                Ok(Tree::Rule(rights))
            }
            NONE => {
                self.next();
                Ok(Tree::None)
            }
            _ => self.unexpected(),
        }
    }

    fn split(&mut self, book: &Book, slots: &[Slot]) -> Result<Tree, Fault> {
        let (slot, ty) = (self.body(0), self.body(1));
        // "A SPLIT's slot must exist, not be split already on the path, and
        // have a position shorter than 8"
        if slot >= slots.len() || slots[slot].split || slots[slot].length >= 8 || ty >= book.types.len() {
            return self.number_fault();
        }
        let cons = &book.cons[book.types[ty].first..][..book.types[ty].count];
        // "no child may have more than 64 slots"; the 64 slots are broken by
        // the SPLIT
        if cons.iter().any(|c| slots.len() + c.arity > 64) {
            return self.number_fault();
        }
        self.next();
        let mut children = Vec::new();
        for c in cons {
            let mut below = slots.to_vec();
            below[slot].split = true;
            // "appends a slots, its arguments in order, one step longer"
            let argument = Slot { length: slots[slot].length + 1, split: false };
            below.extend(std::iter::repeat(argument).take(c.arity));
            children.push(self.tree(book, &below)?);
        }
        Ok(Tree::Split { slot, ty, children })
    }

    /// A RIGHT with its term. `slots` is their number, or None in a question,
    /// where there is "no SLOT".
    fn right(&mut self, book: &Book, slots: Option<usize>) -> Result<Right, Fault> {
        if self.due()? != RIGHT {
            return self.unexpected();
        }
        let fresh = self.body(0);
        if fresh > 8 {
            return self.number_fault();
        }
        self.next();
        let mut term = Vec::new();
        let mut due = 1;
        while due > 0 {
            let kind = self.due()?;
            // "an unexpected record is that sort before its numbers are
            // looked at"
            if !(CON..=FRESH).contains(&kind) || (kind == SLOT && slots.is_none()) {
                return self.unexpected();
            }
            let number = self.body(0);
            // "a RIGHT's term at most 255 records"
            if term.len() == 255 {
                return self.number_fault();
            }
            let (item, arity) = match kind {
                CON if number < book.cons.len() => (Item::Con(number), book.cons[number].arity),
                CALL if number < self.calls.len() => (Item::Call(number), self.calls[number]),
                SLOT if number < slots.unwrap_or(0) => (Item::Slot(number), 0),
                FRESH if number < fresh => (Item::Fresh(number), 0),
                _ => return self.number_fault(),
            };
            term.push(item);
            due = due - 1 + arity;
            self.next();
        }
        Ok(Right { fresh, term })
    }
}

pub fn read_book(bytes: &[u8]) -> Result<Book, Fault> {
    // "A book over 32,768 bytes: place 32,768."
    if bytes.len() > MAX_BOOK {
        return fault(MAX_BOOK, BYTES_AT_END);
    }
    let calls = first_pass(bytes, true)?;
    Reader { bytes, at: 0, calls: &calls }.book()
}

/// "A question is one RIGHT and its term, with no SLOT and nothing after it."
pub fn read_question(book: &Book, bytes: &[u8]) -> Result<Right, Fault> {
    first_pass(bytes, false)?;
    let calls: Vec<usize> = book.funcs.iter().map(|f| f.arity).collect();
    let mut reader = Reader { bytes, at: 0, calls: &calls };
    let right = reader.right(book, None)?;
    if reader.at < bytes.len() {
        return fault(reader.at, BYTES_AT_END);
    }
    Ok(right)
}

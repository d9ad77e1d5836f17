//! store.rs: the nodes, and what both ways of running do with them: follow
//! forwards, find the first call, copy, write a result.
//! The number of nodes made is the length of the node list: nodes are never
//! reused. No walk recurses, and none visits a shared node twice, except the
//! writing of a result whose length is known to fit.

use crate::reading::{Item, Right};

#[derive(Clone, Copy)]
pub struct Args {
    count: u8,
    nodes: [u32; 8],
}

impl Args {
    pub fn from(list: &[u32]) -> Args {
        let mut nodes = [0; 8];
        nodes[..list.len()].copy_from_slice(list);
        Args { count: list.len() as u8, nodes }
    }
    pub fn list(&self) -> &[u32] {
        &self.nodes[..self.count as usize]
    }
}

/// "A node is a call, a constructor, a variable or a forward to another node"
#[derive(Clone, Copy)]
pub enum Node {
    Call(usize, Args),
    Con(usize, Args),
    Var,
    Forward(u32),
}

#[derive(Default)]
pub struct Store {
    pub nodes: Vec<Node>,
    /// marks of the present walk: (number of the walk, a value it keeps)
    marks: Vec<(u32, u32)>,
    walk: u32,
}

impl Store {
    pub fn make(&mut self, node: Node) -> u32 {
        self.nodes.push(node);
        self.nodes.len() as u32 - 1
    }

    /// "a forward is followed wherever a node is read"
    pub fn follow(&self, mut n: u32) -> u32 {
        while let Node::Forward(to) = self.nodes[n as usize] {
            n = to;
        }
        n
    }

    pub fn read(&self, n: u32) -> Node {
        self.nodes[self.follow(n) as usize]
    }

    fn new_walk(&mut self) {
        self.walk += 1;
        self.marks.resize(self.nodes.len(), (0, 0));
    }

    fn mark(&self, n: u32) -> Option<u32> {
        let (walk, value) = self.marks[n as usize];
        (walk == self.walk).then_some(value)
    }

    fn set_mark(&mut self, n: u32, value: u32) {
        self.marks[n as usize] = (self.walk, value);
    }

    /// Makes a RIGHT's declared fresh variables, "used or not", and a node for
    /// each of its CON and CALL records. Gives the term and the variables.
    pub fn build(&mut self, right: &Right, slots: &[u32], arities: &Arities) -> (u32, Vec<u32>) {
        let vars: Vec<u32> = (0..right.fresh).map(|_| self.make(Node::Var)).collect();
        // From the last record to the first, every term's arguments are
        // ready on the stack when its symbol comes, the first one on top.
        let mut ready: Vec<u32> = Vec::new();
        for item in right.term.iter().rev() {
            let n = match *item {
                Item::Slot(s) => slots[s],
                Item::Fresh(v) => vars[v],
                Item::Con(c) => {
                    let args = take_args(&mut ready, arities.cons[c]);
                    self.make(Node::Con(c, args))
                }
                Item::Call(f) => {
                    let args = take_args(&mut ready, arities.funcs[f]);
                    self.make(Node::Call(f, args))
                }
            };
            ready.push(n);
        }
        (ready[0], vars)
    }

    /// "Take the first call of the value term in preorder, not looking inside
    /// calls." A node seen before had no call below it: it is passed over.
    pub fn first_call(&mut self, value: u32) -> Option<u32> {
        self.new_walk();
        let mut todo = vec![value];
        while let Some(n) = todo.pop() {
            let n = self.follow(n);
            if self.mark(n).is_some() {
                continue;
            }
            self.set_mark(n, 0);
            match self.nodes[n as usize] {
                Node::Call(..) => return Some(n),
                Node::Con(_, args) => todo.extend(args.list().iter().rev()),
                _ => {}
            }
        }
        None
    }

    /// "each reachable node copied once, shared nodes still shared, forwards
    /// left out": copies what is reachable from the roots, gives the new roots.
    pub fn copy(&mut self, roots: &[u32]) -> Vec<u32> {
        self.new_walk();
        let first_new = self.nodes.len();
        let new_roots = roots.iter().map(|r| self.copied(*r)).collect();
        // The new nodes still name old arguments; mend them one by one, each
        // old argument being copied when first met.
        let mut at = first_new;
        while at < self.nodes.len() {
            match self.nodes[at] {
                Node::Con(c, args) => self.nodes[at] = Node::Con(c, self.copied_args(args)),
                Node::Call(f, args) => self.nodes[at] = Node::Call(f, self.copied_args(args)),
                _ => {}
            }
            at += 1;
        }
        new_roots
    }

    fn copied_args(&mut self, args: Args) -> Args {
        let list: Vec<u32> = args.list().iter().map(|a| self.copied(*a)).collect();
        Args::from(&list)
    }

    fn copied(&mut self, old: u32) -> u32 {
        let old = self.follow(old);
        if let Some(new) = self.mark(old) {
            return new;
        }
        let new = self.make(self.nodes[old as usize]);
        self.set_mark(old, new);
        new
    }

    /// "alternative i is a copy of what the computation would be if the
    /// variable (or call) were a forward to term i". Stops early once the node
    /// limit is passed (the turn is then not taken): None.
    pub fn alternatives(&mut self, old: u32, terms: &[u32], roots: &[u32], limit: usize) -> Option<Vec<Vec<u32>>> {
        let old = self.follow(old);
        let before = self.nodes[old as usize];
        let mut all = Vec::new();
        for term in terms {
            self.nodes[old as usize] = Node::Forward(*term);
            all.push(self.copy(roots));
            self.nodes[old as usize] = before;
            if self.nodes.len() > limit {
                return None;
            }
        }
        Some(all)
    }

    /// The bytes that each of these call-free terms takes in a result: 2 for a
    /// constructor, 3 for a variable, counted once for each shared node.
    fn written_length(&mut self, roots: &[u32]) -> u64 {
        self.new_walk();
        let mut length = vec![0u64; self.nodes.len()];
        let mut total = 0u64;
        for root in roots {
            let mut todo = vec![(self.follow(*root), false)];
            while let Some((n, args_done)) = todo.pop() {
                if self.mark(n).is_some() {
                    continue;
                }
                match self.nodes[n as usize] {
                    Node::Con(_, args) if !args_done => {
                        todo.push((n, true));
                        todo.extend(args.list().iter().map(|a| (self.follow(*a), false)));
                        continue;
                    }
                    Node::Con(_, args) => {
                        let below = args.list().iter().map(|a| length[self.follow(*a) as usize]);
                        length[n as usize] = below.fold(2, |sum: u64, l| sum.saturating_add(l));
                    }
                    _ => length[n as usize] = 3,
                }
                self.set_mark(n, 0);
            }
            total = total.saturating_add(length[self.follow(*root) as usize]);
        }
        total
    }

    /// "A result: kind 20, body the turn's number (4 bytes), then the value
    /// and each asker's variable's term". False, and no byte, if it doesn't fit.
    pub fn write_result(&mut self, turn: u64, roots: &[u32], room: usize, out: &mut Vec<u8>) -> bool {
        let length = self.written_length(roots).saturating_add(5);
        if length > (room - out.len()) as u64 {
            return false;
        }
        out.push(0x20);
        out.extend((turn as u32).to_le_bytes());
        for root in roots {
            self.write_term(*root, out);
        }
        true
    }

    /// "variables are numbered from 0 in order of first sight, afresh in each
    /// term"
    fn write_term(&mut self, root: u32, out: &mut Vec<u8>) {
        self.new_walk();
        let mut seen = 0u32;
        let mut todo = vec![root];
        while let Some(n) = todo.pop() {
            let n = self.follow(n);
            match self.nodes[n as usize] {
                Node::Con(c, args) => {
                    out.extend([0x07, c as u8]);
                    todo.extend(args.list().iter().rev());
                }
                _ => {
                    if self.mark(n).is_none() {
                        self.set_mark(n, seen);
                        seen += 1;
                    }
                    out.push(0x0C);
                    out.extend((self.mark(n).unwrap_or(0) as u16).to_le_bytes());
                }
            }
        }
    }
}

/// What the building of a term needs to know of the book.
pub struct Arities {
    pub cons: Vec<usize>,
    pub funcs: Vec<usize>,
}

/// Takes arguments off a stack: "the top of the stack is the first argument".
pub fn take_args(stack: &mut Vec<u32>, count: usize) -> Args {
    let mut list = stack.split_off(stack.len() - count);
    list.reverse();
    Args::from(&list)
}

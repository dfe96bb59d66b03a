//! Translation, and sheets: written and opened.

use crate::table::{accept, encode, Node, Refusal};

#[derive(Clone, Copy)]
enum Op {
    Num = 1,
    Truth,
    Read,
    Look,
    Deref,
    Operate,
    JumpFalse,
    Jump,
    Call,
    Ret,
    IsLoc,
    Store,
    Put,
    Enter,
    Leave,
    Bind,
    New,
    Clos,
    Halt,
}

struct Word {
    op: Op,
    node: usize,
    operand: i32,
}

/// Code so far, and the names visible here, the newest last.
struct Translator<'a> {
    nodes: &'a [Node],
    code: Vec<Word>,
    visible: Vec<u8>,
}

impl Translator<'_> {
    fn emit(&mut self, op: Op, node: usize, operand: i32) -> usize {
        self.code.push(Word { op, node, operand });
        self.code.len() - 1
    }

    /// Lets the jump at `jump` go to the next word.
    fn land(&mut self, jump: usize) {
        self.code[jump].operand = self.code.len() as i32;
    }

    fn newer(&self, name: u8) -> i32 {
        self.visible.iter().rev().position(|visible| *visible == name).expect("a visible name") as i32
    }

    fn plain(&mut self, at: usize) {
        self.expression(at);
        self.emit(Op::Deref, at, 0);
    }

    fn call(&mut self, at: usize) {
        self.expression(self.nodes[at].child(0));
        self.emit(Op::Call, at, self.newer(self.nodes[at].tag));
    }

    /// A test, then one of two ways, each translated by `way`.
    fn branch(&mut self, at: usize, way: fn(&mut Self, usize)) {
        let node = self.nodes[at];
        self.plain(node.child(0));
        let otherwise = self.emit(Op::JumpFalse, at, 0);
        way(self, node.child(1));
        let over = self.emit(Op::Jump, at, 0);
        self.land(otherwise);
        way(self, node.child(2));
        self.land(over);
    }

    fn expression(&mut self, at: usize) {
        let node = self.nodes[at];
        match node.kind {
            20 => drop(self.emit(Op::Num, at, node.number())),
            21 => drop(self.emit(Op::Truth, at, i32::from(node.tag))),
            22 => drop(self.emit(Op::Read, at, 0)),
            23 => drop(self.emit(Op::Look, at, self.newer(node.tag))),
            24 => {
                self.plain(node.child(0));
                self.plain(node.child(1));
                self.emit(Op::Operate, at, i32::from(node.tag));
            }
            25 => self.call(at),
            26 => self.branch(at, Self::expression),
            kind => unreachable!("kind {kind} is no expression"),
        }
    }

    fn routine(&mut self, at: usize, body: fn(&mut Self, usize)) {
        let node = self.nodes[at];
        let start = self.code.len() as i32 + 2;
        self.emit(Op::Clos, at, start);
        let over = self.emit(Op::Jump, at, 0);
        self.visible.push(node.fields[2] as u8);
        body(self, node.child(0));
        self.visible.pop();
        self.emit(Op::Ret, at, 0);
        self.land(over);
        self.visible.push(node.tag);
    }

    fn declaration(&mut self, at: usize) {
        let node = self.nodes[at];
        match node.kind {
            10 | 11 => {
                self.plain(node.child(0));
                self.emit(if node.kind == 10 { Op::Bind } else { Op::New }, at, 0);
                self.visible.push(node.tag);
            }
            12 => self.routine(at, Self::command),
            13 => self.routine(at, Self::expression),
            14 => {
                self.declaration(node.child(0));
                self.declaration(node.child(1));
            }
            kind => unreachable!("kind {kind} is no declaration"),
        }
    }

    fn command(&mut self, at: usize) {
        let node = self.nodes[at];
        match node.kind {
            1 => {
                self.expression(node.child(0));
                self.emit(Op::IsLoc, at, 0);
                self.plain(node.child(1));
                self.emit(Op::Store, at, 0);
            }
            2 => {
                self.plain(node.child(0));
                self.emit(Op::Put, at, 0);
            }
            3 => self.branch(at, Self::command),
            4 => {
                let again = self.code.len() as i32;
                self.plain(node.child(0));
                let over = self.emit(Op::JumpFalse, at, 0);
                self.command(node.child(1));
                self.emit(Op::Jump, at, again);
                self.land(over);
            }
            5 => {
                self.emit(Op::Enter, at, 0);
                let outside = self.visible.len();
                self.declaration(node.child(0));
                self.command(node.child(1));
                self.visible.truncate(outside);
                self.emit(Op::Leave, at, 0);
            }
            6 => {
                self.command(node.child(0));
                self.command(node.child(1));
            }
            7 => self.call(at),
            kind => unreachable!("kind {kind} is no command"),
        }
    }
}

/// The code of accepted nodes, as a sheet has it.
fn code(nodes: &[Node]) -> Vec<u8> {
    let mut translator = Translator { nodes, code: Vec::new(), visible: Vec::new() };
    let root = nodes.len() - 1;
    translator.command(root);
    translator.emit(Op::Halt, root, 0);
    let bytes = |word: &Word| {
        let [low, high] = (word.node as u16).to_le_bytes();
        let [a, b, c, d] = word.operand.to_le_bytes();
        [word.op as u8, 0, low, high, a, b, c, d]
    };
    translator.code.iter().flat_map(bytes).collect()
}

/// The eight numbers of a header, by the counts of nodes and words.
fn header(nodes: usize, words: usize) -> [usize; 8] {
    let code_at = 16 + 8 * nodes;
    [1, nodes, words, 16, code_at, code_at + 8 * words, 0, 0]
}

fn header_bytes(numbers: [usize; 8]) -> Vec<u8> {
    numbers.iter().flat_map(|number| (*number as u16).to_le_bytes()).collect()
}

/// The sheet of accepted nodes.
pub fn write(nodes: &[Node]) -> Vec<u8> {
    let code = code(nodes);
    let header = header_bytes(header(nodes.len(), code.len() / 8));
    [header, encode(nodes), code].concat()
}

/// What `start` leaves of it.
pub fn write_half(nodes: &[Node]) -> Vec<u8> {
    [header_bytes([1, nodes.len(), 0, 16, 0, 0, 0, 0]), encode(nodes)].concat()
}

/// The first fault of a sheet, if it has one.
pub fn open(sheet: &[u8]) -> Result<(), Refusal> {
    let no_sheet = Err(Refusal { number: 14, node: 0 });
    if sheet.len() < 16 {
        return no_sheet;
    }
    let numbers: Vec<usize> = sheet[..16].chunks(2).map(|pair| usize::from(pair[0]) + 256 * usize::from(pair[1])).collect();
    let expected = header(numbers[1], numbers[2]);
    if numbers != expected || sheet.len() != expected[5] {
        return no_sheet;
    }
    let (table, words) = sheet[16..].split_at(8 * numbers[1]);
    let nodes = accept(table)?;
    if words == code(&nodes) {
        Ok(())
    } else {
        Err(Refusal { number: 15, node: 0 })
    }
}

//! Random programs, well formed by construction: each name is visible where it is used and stands for what is wanted. Most are
//! well typed too, so that they run on; some are not, so that they end with 31 to 33.

use crate::ours::Sample;
use crate::random::Random;
use crate::table::Node;

/// What an expression gives.
#[derive(Clone, Copy, PartialEq, Eq)]
enum Type {
    Number,
    Truth,
    /// A location, of a cell that holds a number or (true) a truth.
    Cell(bool),
}

#[derive(Clone, Copy)]
enum Role {
    Value(Type),
    Procedure(Type),
    Function(Type, Type),
}

pub struct Generator<'a> {
    random: &'a mut Random,
    nodes: Vec<Node>,
    visible: Vec<(u8, Role)>,
    /// In a hundred, how many expressions are of any type.
    loose: usize,
    /// How many names there are to choose from: few names hide one another often.
    names: usize,
}

impl Generator<'_> {
    /// A program of about `size` nodes, and never more than 512.
    pub fn program(random: &mut Random, size: usize) -> Vec<Node> {
        loop {
            let loose = random.pick(&[0, 0, 0, 1, 5]);
            let names = random.pick(&[2, 5, 20, 256]);
            let mut generator = Generator { random, nodes: Vec::new(), visible: Vec::new(), loose, names };
            generator.command(size);
            let nodes = generator.nodes;
            if nodes.len() <= 512 {
                return nodes;
            }
        }
    }

    fn node(&mut self, kind: u8, tag: u8, fields: [u16; 3]) -> u16 {
        self.nodes.push(Node { kind, tag, fields });
        (self.nodes.len() - 1) as u16
    }

    fn name(&mut self) -> u8 {
        let name = self.random.below(self.names);
        if self.random.chance(5) {
            255 - name as u8
        } else {
            name as u8
        }
    }

    /// Two parts of a size, at least 1 each; often very unlike, so that trees grow deep.
    fn split(&mut self, size: usize) -> (usize, usize) {
        let size = size.max(2);
        let first = match self.random.below(4) {
            0 => 1,
            1 => size - 1,
            _ => self.random.between(1, size - 1),
        };
        (first, size - first)
    }

    /// A visible entry that no newer one hides, and that suits.
    fn visible(&mut self, suits: impl Fn(Role) -> bool) -> Option<(u8, Role)> {
        let hidden = |at: usize| self.visible[at + 1..].iter().any(|(name, _)| *name == self.visible[at].0);
        let all: Vec<_> = (0..self.visible.len()).filter(|at| suits(self.visible[*at].1) && !hidden(*at)).collect();
        if all.is_empty() {
            None
        } else {
            Some(self.visible[self.random.pick(&all)])
        }
    }

    fn plain_type(&mut self) -> Type {
        self.random.pick(&[Type::Number, Type::Number, Type::Truth])
    }

    fn any_type(&mut self) -> Type {
        let cell = Type::Cell(self.random.chance(30));
        self.random.pick(&[Type::Number, Type::Truth, cell])
    }

    fn literal(&mut self, wanted: Type) -> u16 {
        if wanted == Type::Truth || wanted == Type::Cell(true) {
            let tag = self.random.below(2) as u8;
            return self.node(21, tag, [0, 0, 0]);
        }
        if self.random.chance(20) {
            return self.node(22, 0, [0, 0, 0]);
        }
        let number = self.random.number() as u32;
        self.node(20, 0, [0, number as u16, (number >> 16) as u16])
    }

    fn leaf(&mut self, wanted: Type) -> u16 {
        let gives = |given: Type| match (given, wanted) {
            (Type::Cell(truth), Type::Number) => !truth,
            (Type::Cell(truth), Type::Truth) => truth,
            _ => given == wanted,
        };
        let found = self.visible(|role| matches!(role, Role::Value(given) if gives(given)));
        match found {
            Some((name, _)) if matches!(wanted, Type::Cell(_)) || self.random.chance(60) => self.node(23, name, [0, 0, 0]),
            _ => self.literal(wanted),
        }
    }

    /// Two parts in either order, so that a lower number does not mean an earlier field.
    fn both(&mut self, size: usize, left: Type, right: Type) -> (u16, u16) {
        let (first, second) = self.split(size);
        if self.random.chance(70) {
            let a = self.expression(left, first);
            (a, self.expression(right, second))
        } else {
            let b = self.expression(right, second);
            (self.expression(left, first), b)
        }
    }

    fn call(&mut self, wanted: Type, size: usize) -> Option<u16> {
        let found = self.visible(|role| matches!(role, Role::Function(_, given) if given == wanted));
        let Some((name, Role::Function(parameter, _))) = found else { return None };
        let argument = self.expression(parameter, size);
        Some(self.node(25, name, [argument, 0, 0]))
    }

    fn expression(&mut self, wanted: Type, size: usize) -> u16 {
        let wanted = if self.random.chance(self.loose) { self.any_type() } else { wanted };
        if size <= 1 {
            return self.leaf(wanted);
        }
        if self.random.chance(25) {
            if let Some(call) = self.call(wanted, size - 1) {
                return call;
            }
        }
        if matches!(wanted, Type::Cell(_)) && self.random.chance(80) {
            return self.leaf(wanted);
        }
        if self.random.chance(20) || matches!(wanted, Type::Cell(_)) {
            let (test, ways) = self.split(size - 1);
            let test = self.expression(Type::Truth, test);
            let (yes, no) = self.both(ways, wanted, wanted);
            return self.node(26, 0, [test, yes, no]);
        }
        let operator = if wanted == Type::Truth { self.random.between(5, 6) } else { self.random.pick(&[1, 1, 1, 2, 2, 2, 3, 4]) };
        let (a, b) = self.both(size - 1, Type::Number, Type::Number);
        self.node(24, operator as u8, [a, b, 0])
    }

    fn declaration(&mut self, size: usize) -> u16 {
        if size > 3 && self.random.chance(50) {
            let (first, second) = self.split(size - 1);
            let a = self.declaration(first);
            let b = self.declaration(second);
            return self.node(14, 0, [a, b, 0]);
        }
        let name = self.name();
        match self.random.below(10) {
            0..=1 => {
                let given = self.plain_type();
                let value = self.expression(given, size - 1);
                self.visible.push((name, Role::Value(given)));
                self.node(10, name, [value, 0, 0])
            }
            2..=5 => self.variable(name, size),
            kind => {
                let parameter = self.name();
                let given = self.any_type();
                self.visible.push((parameter, Role::Value(given)));
                let outside = self.visible.len() - 1;
                if kind <= 7 {
                    let body = self.command(size - 1);
                    self.visible.truncate(outside);
                    self.visible.push((name, Role::Procedure(given)));
                    self.node(12, name, [body, 0, u16::from(parameter)])
                } else {
                    let wanted = self.any_type();
                    let body = self.expression(wanted, size - 1);
                    self.visible.truncate(outside);
                    self.visible.push((name, Role::Function(given, wanted)));
                    self.node(13, name, [body, 0, u16::from(parameter)])
                }
            }
        }
    }

    fn variable(&mut self, name: u8, size: usize) -> u16 {
        let given = self.plain_type();
        let value = self.expression(given, size.saturating_sub(1));
        self.visible.push((name, Role::Value(Type::Cell(given == Type::Truth))));
        self.node(11, name, [value, 0, 0])
    }

    fn number(&mut self, number: u16) -> u16 {
        self.node(20, 0, [0, number, 0])
    }

    /// A block whose loop counts a variable down, so that it ends, unless its body interferes.
    fn countdown(&mut self, size: usize) -> u16 {
        let outside = self.visible.len();
        let name = self.name();
        let turns = self.random.pick(&[1, 2, 3, 5, 8, 30, 1000]);
        let start = self.number(turns);
        let declaration = self.node(11, name, [start, 0, 0]);
        self.visible.push((name, Role::Value(Type::Cell(false))));
        let zero = self.number(0);
        let counter = self.node(23, name, [0, 0, 0]);
        let test = self.node(24, 6, [zero, counter, 0]);
        let body = self.command(size.saturating_sub(10));
        let cell = self.node(23, name, [0, 0, 0]);
        let before = self.node(23, name, [0, 0, 0]);
        let one = self.number(1);
        let less = self.node(24, 2, [before, one, 0]);
        let assign = self.node(1, 0, [cell, less, 0]);
        let sequence = self.node(6, 0, [body, assign, 0]);
        let repeat = self.node(4, 0, [test, sequence, 0]);
        self.visible.truncate(outside);
        self.node(5, 0, [declaration, repeat, 0])
    }

    fn output(&mut self, size: usize) -> u16 {
        let wanted = self.plain_type();
        let value = self.expression(wanted, size.saturating_sub(1));
        self.node(2, 0, [value, 0, 0])
    }

    fn assign(&mut self, size: usize) -> u16 {
        let truth = self.random.chance(30);
        let has_cell = self.visible(|role| matches!(role, Role::Value(Type::Cell(kind)) if kind == truth)).is_some();
        if !has_cell && !self.random.chance(self.loose) {
            return self.output(size);
        }
        let wanted = if truth { Type::Truth } else { Type::Number };
        let (a, b) = self.both(size.saturating_sub(1), Type::Cell(truth), wanted);
        self.node(1, 0, [a, b, 0])
    }

    fn command(&mut self, size: usize) -> u16 {
        if size <= 4 {
            return if self.random.chance(50) { self.output(size) } else { self.assign(size) };
        }
        match self.random.below(16) {
            0..=5 => {
                let (first, second) = self.split(size - 1);
                let a = self.command(first);
                let b = self.command(second);
                self.node(6, 0, [a, b, 0])
            }
            6..=8 => {
                let (first, second) = self.split(size - 1);
                let outside = self.visible.len();
                let declaration = self.declaration(first);
                let command = self.command(second);
                self.visible.truncate(outside);
                self.node(5, 0, [declaration, command, 0])
            }
            9 => {
                let (test, ways) = self.split(size - 1);
                let (yes, no) = self.split(ways);
                let test = self.expression(Type::Truth, test);
                let yes = self.command(yes);
                let no = self.command(no);
                self.node(3, 0, [test, yes, no])
            }
            10 => {
                let (test, body) = self.split(size - 1);
                let test = self.expression(Type::Truth, test.min(6));
                let body = self.command(body);
                self.node(4, 0, [test, body, 0])
            }
            11 if size > 10 => self.countdown(size),
            12..=13 => match self.visible(|role| matches!(role, Role::Procedure(_))) {
                Some((name, Role::Procedure(parameter))) => {
                    let argument = self.expression(parameter, size - 1);
                    self.node(7, name, [argument, 0, 0])
                }
                _ => self.output(size),
            },
            14 => self.assign(size),
            _ => self.output(size),
        }
    }
}

/// A feed: mostly readings, now and then a fault.
pub fn samples(random: &mut Random) -> Vec<Sample> {
    let faults = random.pick(&[0, 0, 5, 30]);
    let count = random.pick(&[0, 1, 2, 5, 20, 300]);
    let one = |random: &mut Random| Sample {
        code: if random.chance(faults) { random.between(1, 255) as u8 } else { 0 },
        reading: random.number(),
    };
    (0..count).map(|_| one(random)).collect()
}

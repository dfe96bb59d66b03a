//! What a tree means: an evaluator over the nodes, by names, with no stack of values, no code and no positions. Beside the
//! meaning it counts visits, and the instructions that the code of each form carries out; fuel is spent on the latter, just
//! before what the instruction does.

use crate::ours::Sample;
use crate::table::Node;
use std::rc::Rc;

#[derive(Clone, Copy, Debug, PartialEq, Eq)]
pub enum Plain {
    Number(i32),
    Truth(bool),
}

#[derive(Clone, Copy)]
enum Value {
    Plain(Plain),
    Location(usize),
}

/// What a name is bound to.
enum Bound {
    Value(Value),
    /// A body, with its parameter's name and the bindings that were present.
    Body(usize, u8, Scope),
}

/// The bindings present: the newest, and behind it the others.
type Scope = Option<Rc<Binding>>;

struct Binding {
    name: u8,
    bound: Bound,
    older: Scope,
}

fn bind(name: u8, bound: Bound, older: &Scope) -> Scope {
    Some(Rc::new(Binding { name, bound, older: older.clone() }))
}

fn newest(name: u8, scope: &Scope) -> &Binding {
    let mut at = scope.as_deref().expect("a visible name");
    while at.name != name {
        at = at.older.as_deref().expect("a visible name");
    }
    at
}

/// Why the meaning is not finished here.
#[derive(Clone, Copy, Debug, PartialEq, Eq)]
pub enum Stop {
    Fuel,
    End { number: u8, node: usize, code: u8 },
}

type Result<T> = std::result::Result<T, Stop>;

/// A strip: values that it holds, and its memory.
pub trait Strip {
    /// Whether there was room for the value.
    fn put(&mut self, value: Plain) -> bool;
}

pub struct Evaluator<'a, S: Strip> {
    nodes: &'a [Node],
    pub feed: &'a [Sample],
    pub strip: &'a mut S,
    cells: Vec<Plain>,
    fuel: u32,
    pub steps: u32,
    pub visits: u64,
}

impl<'a, S: Strip> Evaluator<'a, S> {
    pub fn new(nodes: &'a [Node], feed: &'a [Sample], strip: &'a mut S, fuel: u32) -> Self {
        Evaluator { nodes, feed, strip, cells: Vec::new(), fuel, steps: 0, visits: 0 }
    }

    /// The whole tree; it stops with end 0 where nothing else stops it.
    pub fn run(&mut self) -> Stop {
        let root = self.nodes.len() - 1;
        match self.command(root, &None).and_then(|()| self.spend(1)) {
            Ok(()) => Stop::End { number: 0, node: root, code: 0 },
            Err(stop) => stop,
        }
    }

    fn spend(&mut self, steps: u32) -> Result<()> {
        let spent = steps.min(self.fuel - self.steps);
        self.steps += spent;
        if spent == steps {
            Ok(())
        } else {
            Err(Stop::Fuel)
        }
    }

    fn end<T>(&self, number: u8, node: usize) -> Result<T> {
        Err(Stop::End { number, node, code: 0 })
    }

    /// The plain value of an expression.
    fn plain(&mut self, at: usize, scope: &Scope) -> Result<Plain> {
        let value = self.expression(at, scope)?;
        self.spend(1)?;
        Ok(match value {
            Value::Plain(plain) => plain,
            Value::Location(cell) => self.cells[cell],
        })
    }

    /// The test of the node `at`, which is its first child.
    fn test(&mut self, at: usize, scope: &Scope) -> Result<bool> {
        let test = self.plain(self.nodes[at].child(0), scope)?;
        self.spend(1)?;
        match test {
            Plain::Truth(truth) => Ok(truth),
            Plain::Number(_) => self.end(32, at),
        }
    }

    fn operate(&self, at: usize, left: Plain, right: Plain) -> Result<Plain> {
        let (Plain::Number(left), Plain::Number(right)) = (left, right) else { return self.end(33, at) };
        let (left, right) = (i64::from(left), i64::from(right));
        let result = match self.nodes[at].tag {
            1 => left + right,
            2 => left - right,
            3 => left * right,
            4 if right == 0 => return self.end(35, at),
            4 => left / right,
            5 => return Ok(Plain::Truth(left == right)),
            6 => return Ok(Plain::Truth(left < right)),
            tag => unreachable!("operator {tag}"),
        };
        match i32::try_from(result) {
            Ok(number) => Ok(Plain::Number(number)),
            Err(_) => self.end(34, at),
        }
    }

    fn read(&mut self, at: usize) -> Result<Plain> {
        let Some((first, rest)) = self.feed.split_first() else { return self.end(36, at) };
        self.feed = rest;
        match first.code {
            0 => Ok(Plain::Number(first.reading)),
            code => Err(Stop::End { number: 37, node: at, code }),
        }
    }

    /// The body that the call at `at` means, and what it sees.
    fn enter(&mut self, at: usize, scope: &Scope) -> Result<(usize, Scope)> {
        let node = self.nodes[at];
        let argument = self.expression(node.child(0), scope)?;
        self.spend(1)?;
        match &newest(node.tag, scope).bound {
            Bound::Body(body, parameter, own) => Ok((*body, bind(*parameter, Bound::Value(argument), own))),
            Bound::Value(_) => unreachable!("node {at} calls a value"),
        }
    }

    fn expression(&mut self, at: usize, scope: &Scope) -> Result<Value> {
        self.visits += 1;
        let node = self.nodes[at];
        match node.kind {
            20 => {
                self.spend(1)?;
                Ok(Value::Plain(Plain::Number(node.number())))
            }
            21 => {
                self.spend(1)?;
                Ok(Value::Plain(Plain::Truth(node.tag == 1)))
            }
            22 => {
                self.spend(1)?;
                self.read(at).map(Value::Plain)
            }
            23 => {
                self.spend(1)?;
                match newest(node.tag, scope).bound {
                    Bound::Value(value) => Ok(value),
                    Bound::Body(..) => unreachable!("node {at} names a routine"),
                }
            }
            24 => {
                let left = self.plain(node.child(0), scope)?;
                let right = self.plain(node.child(1), scope)?;
                self.spend(1)?;
                self.operate(at, left, right).map(Value::Plain)
            }
            25 => {
                let (body, own) = self.enter(at, scope)?;
                let value = self.expression(body, &own)?;
                self.spend(1)?;
                Ok(value)
            }
            26 => {
                if self.test(at, scope)? {
                    let value = self.expression(node.child(1), scope)?;
                    self.spend(1)?;
                    Ok(value)
                } else {
                    self.expression(node.child(2), scope)
                }
            }
            kind => unreachable!("kind {kind} is no expression"),
        }
    }

    /// The bindings after a declaration.
    fn declaration(&mut self, at: usize, scope: &Scope) -> Result<Scope> {
        self.visits += 1;
        let node = self.nodes[at];
        match node.kind {
            10 => {
                let value = self.plain(node.child(0), scope)?;
                self.spend(1)?;
                Ok(bind(node.tag, Bound::Value(Value::Plain(value)), scope))
            }
            11 => {
                let value = self.plain(node.child(0), scope)?;
                self.spend(1)?;
                self.cells.push(value);
                Ok(bind(node.tag, Bound::Value(Value::Location(self.cells.len() - 1)), scope))
            }
            12 | 13 => {
                self.spend(2)?;
                let body = Bound::Body(node.child(0), node.fields[2] as u8, scope.clone());
                Ok(bind(node.tag, body, scope))
            }
            14 => {
                let first = self.declaration(node.child(0), scope)?;
                self.declaration(node.child(1), &first)
            }
            kind => unreachable!("kind {kind} is no declaration"),
        }
    }

    fn command(&mut self, at: usize, scope: &Scope) -> Result<()> {
        let node = self.nodes[at];
        if node.kind == 4 {
            return self.repeat(at, scope);
        }
        self.visits += 1;
        match node.kind {
            1 => {
                let left = self.expression(node.child(0), scope)?;
                self.spend(1)?;
                let Value::Location(cell) = left else { return self.end(31, at) };
                let right = self.plain(node.child(1), scope)?;
                self.spend(1)?;
                self.cells[cell] = right;
                Ok(())
            }
            2 => {
                let value = self.plain(node.child(0), scope)?;
                self.spend(1)?;
                if self.strip.put(value) {
                    Ok(())
                } else {
                    self.end(38, at)
                }
            }
            3 => {
                if self.test(at, scope)? {
                    self.command(node.child(1), scope)?;
                    self.spend(1)
                } else {
                    self.command(node.child(2), scope)
                }
            }
            5 => {
                self.spend(1)?;
                let outside = self.cells.len();
                let inside = self.declaration(node.child(0), scope)?;
                self.command(node.child(1), &inside)?;
                self.spend(1)?;
                self.cells.truncate(outside);
                Ok(())
            }
            6 => {
                self.command(node.child(0), scope)?;
                self.command(node.child(1), scope)
            }
            7 => {
                let (body, own) = self.enter(at, scope)?;
                self.command(body, &own)?;
                self.spend(1)
            }
            kind => unreachable!("kind {kind} is no command"),
        }
    }

    /// A while: a visit is counted at each test.
    fn repeat(&mut self, at: usize, scope: &Scope) -> Result<()> {
        loop {
            self.visits += 1;
            if !self.test(at, scope)? {
                return Ok(());
            }
            self.command(self.nodes[at].child(1), scope)?;
            self.spend(1)?;
        }
    }
}

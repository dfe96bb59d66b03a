//! Tables: reading nodes, and the first fault of a table.

/// The first fault that is found, and the node at which it is.
#[derive(Clone, Copy, Debug, PartialEq, Eq)]
pub struct Refusal {
    pub number: u8,
    pub node: u16,
}

fn refusal(number: u8, node: usize) -> Refusal {
    Refusal { number, node: node as u16 }
}

#[derive(Clone, Copy, Debug, PartialEq, Eq)]
pub struct Node {
    pub kind: u8,
    pub tag: u8,
    pub fields: [u16; 3],
}

impl Node {
    pub fn read(bytes: &[u8]) -> Node {
        let field = |at: usize| u16::from_le_bytes([bytes[at], bytes[at + 1]]);
        Node { kind: bytes[0], tag: bytes[1], fields: [field(2), field(4), field(6)] }
    }

    pub fn bytes(&self) -> [u8; 8] {
        let mut bytes = [self.kind, self.tag, 0, 0, 0, 0, 0, 0];
        for (i, field) in self.fields.iter().enumerate() {
            bytes[2 + 2 * i..4 + 2 * i].copy_from_slice(&field.to_le_bytes());
        }
        bytes
    }

    /// The number of the child in field `i`.
    pub fn child(&self, i: usize) -> usize {
        usize::from(self.fields[i])
    }

    /// The number that a node of kind 20 stands for.
    pub fn number(&self) -> i32 {
        (u32::from(self.fields[1]) | u32::from(self.fields[2]) << 16) as i32
    }
}

pub fn encode(nodes: &[Node]) -> Vec<u8> {
    nodes.iter().flat_map(Node::bytes).collect()
}

#[derive(Clone, Copy, Debug, PartialEq, Eq)]
pub enum Sort {
    Command,
    Declaration,
    Expression,
}

fn sort(kind: u8) -> Option<Sort> {
    match kind {
        1..=7 => Some(Sort::Command),
        10..=14 => Some(Sort::Declaration),
        20..=26 => Some(Sort::Expression),
        _ => None,
    }
}

/// What a kind allows: which tags, and what each field is.
enum Field {
    Zero,
    Child(Sort),
    Half,
    Name,
}

fn form(kind: u8) -> Option<(std::ops::RangeInclusive<u8>, [Field; 3])> {
    use Field::{Child, Half, Name, Zero};
    use Sort::{Command, Declaration, Expression};
    let any = 0..=255;
    let none = 0..=0;
    Some(match kind {
        1 => (none, [Child(Expression), Child(Expression), Zero]),
        2 => (none, [Child(Expression), Zero, Zero]),
        3 => (none, [Child(Expression), Child(Command), Child(Command)]),
        4 => (none, [Child(Expression), Child(Command), Zero]),
        5 => (none, [Child(Declaration), Child(Command), Zero]),
        6 => (none, [Child(Command), Child(Command), Zero]),
        7 => (any, [Child(Expression), Zero, Zero]),
        10 | 11 => (any, [Child(Expression), Zero, Zero]),
        12 => (any, [Child(Command), Zero, Name]),
        13 => (any, [Child(Expression), Zero, Name]),
        14 => (none, [Child(Declaration), Child(Declaration), Zero]),
        20 => (none, [Zero, Half, Half]),
        21 => (0..=1, [Zero, Zero, Zero]),
        22 => (none, [Zero, Zero, Zero]),
        23 => (any, [Zero, Zero, Zero]),
        24 => (1..=6, [Child(Expression), Child(Expression), Zero]),
        25 => (any, [Child(Expression), Zero, Zero]),
        26 => (none, [Child(Expression), Child(Expression), Child(Expression)]),
        _ => return None,
    })
}

/// The fields that hold a child, and the sorts that are wanted there; the kind is a known one.
pub fn children(node: &Node) -> Vec<(usize, Sort)> {
    let Some((_, fields)) = form(node.kind) else { return Vec::new() };
    let wanted = |(i, field): (usize, &Field)| match field {
        Field::Child(sort) => Some((node.child(i), *sort)),
        _ => None,
    };
    fields.iter().enumerate().filter_map(wanted).collect()
}

fn follows_form(node: &Node) -> bool {
    let Some((tags, fields)) = form(node.kind) else { return false };
    let allowed = |(field, value): (&Field, &u16)| match field {
        Field::Zero => *value == 0,
        Field::Name => *value <= 255,
        Field::Child(_) | Field::Half => true,
    };
    tags.contains(&node.tag) && fields.iter().zip(&node.fields).all(allowed)
}

fn check_node(nodes: &[Node], at: usize) -> Result<(), Refusal> {
    if !follows_form(&nodes[at]) {
        return Err(refusal(3, at));
    }
    let children = children(&nodes[at]);
    if children.iter().any(|(child, _)| *child >= at) {
        return Err(refusal(4, at));
    }
    if children.iter().any(|(child, wanted)| sort(nodes[*child].kind) != Some(*wanted)) {
        return Err(refusal(5, at));
    }
    Ok(())
}

fn check_parents(nodes: &[Node]) -> Result<(), Refusal> {
    let mut parents = vec![0; nodes.len()];
    for node in nodes {
        for (child, _) in children(node) {
            parents[child] += 1;
        }
    }
    match parents[..nodes.len() - 1].iter().position(|count| *count != 1) {
        Some(node) => Err(refusal(6, node)),
        None => Ok(()),
    }
}

/// What a name stands for.
#[derive(Clone, Copy, PartialEq, Eq)]
enum Role {
    Value,
    Procedure,
    Function,
}

/// The walk over the names: `visible` has the newest last.
struct Names<'a> {
    nodes: &'a [Node],
    visible: Vec<(u8, Role)>,
}

impl Names<'_> {
    fn uses(&self, at: usize, wanted: Role) -> Result<(), Refusal> {
        let name = self.nodes[at].tag;
        match self.visible.iter().rev().find(|(visible, _)| *visible == name) {
            None => Err(refusal(8, at)),
            Some((_, role)) if *role != wanted => Err(refusal(9, at)),
            Some(_) => Ok(()),
        }
    }

    fn body(&mut self, at: usize) -> Result<(), Refusal> {
        let node = self.nodes[at];
        let outside = self.visible.len();
        self.visible.push((node.fields[2] as u8, Role::Value));
        self.walk(node.child(0))?;
        self.visible.truncate(outside);
        Ok(())
    }

    fn walk(&mut self, at: usize) -> Result<(), Refusal> {
        let node = self.nodes[at];
        match node.kind {
            7 => self.uses(at, Role::Procedure)?,
            23 => self.uses(at, Role::Value)?,
            25 => self.uses(at, Role::Function)?,
            _ => {}
        }
        match node.kind {
            5 => {
                let outside = self.visible.len();
                self.walk(node.child(0))?;
                self.walk(node.child(1))?;
                self.visible.truncate(outside);
            }
            10 | 11 => {
                self.walk(node.child(0))?;
                self.visible.push((node.tag, Role::Value));
            }
            12 => {
                self.body(at)?;
                self.visible.push((node.tag, Role::Procedure));
            }
            13 => {
                self.body(at)?;
                self.visible.push((node.tag, Role::Function));
            }
            _ => {
                for (child, _) in children(&node) {
                    self.walk(child)?;
                }
            }
        }
        Ok(())
    }
}

/// The nodes of an accepted table, or its first fault.
pub fn accept(table: &[u8]) -> Result<Vec<Node>, Refusal> {
    if table.is_empty() || table.len() % 8 != 0 || table.len() > 4096 {
        return Err(refusal(2, 0));
    }
    let nodes: Vec<Node> = table.chunks(8).map(Node::read).collect();
    for at in 0..nodes.len() {
        check_node(&nodes, at)?;
    }
    check_parents(&nodes)?;
    let root = nodes.len() - 1;
    if sort(nodes[root].kind) != Some(Sort::Command) {
        return Err(refusal(7, root));
    }
    Names { nodes: &nodes, visible: Vec::new() }.walk(root)?;
    Ok(nodes)
}

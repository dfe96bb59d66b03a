//! Damage to tables and sheets: by bytes, and by fields, so that every refusal comes up.

use crate::random::Random;
use crate::table::{encode, Node};

fn flip(random: &mut Random, bytes: &mut [u8]) {
    if !bytes.is_empty() {
        let at = random.below(bytes.len());
        bytes[at] ^= 1 << random.below(8);
    }
}

fn field(random: &mut Random, nodes: &[Node]) -> u16 {
    match random.below(6) {
        0 => random.below(65536) as u16,
        1 => nodes.len() as u16,
        2 => 255 + random.below(3) as u16,
        _ => random.below(nodes.len()) as u16,
    }
}

fn change_node(random: &mut Random, nodes: &mut Vec<Node>) {
    let at = random.below(nodes.len());
    let other = random.below(nodes.len());
    match random.below(16) {
        0 => nodes[at].kind = random.pick(&[0, 1, 2, 3, 4, 5, 6, 7, 8, 9, 10, 11, 12, 13, 14, 15, 19, 20, 21, 22, 23, 24, 25, 26, 27, 255]),
        1 => nodes[at].tag = random.byte(),
        2 => nodes[at].tag = nodes[other].tag,
        3 => nodes[at].fields[random.below(3)] = field(random, nodes),
        4 => nodes.swap(at, other),
        5 => nodes.truncate(at + 1),
        6 => drop(nodes.remove(at)),
        7 => nodes.insert(at, nodes[other]),
        _ => change_name(random, nodes),
    }
}

/// Another name where one is used or declared: what is wanted there may be hidden, or not there.
fn change_name(random: &mut Random, nodes: &mut [Node]) {
    let named: Vec<usize> = (0..nodes.len()).filter(|at| matches!(nodes[*at].kind, 7 | 10..=13 | 23 | 25)).collect();
    if !named.is_empty() {
        let other = nodes[random.pick(&named)].tag;
        nodes[random.pick(&named)].tag = if random.chance(70) { other } else { random.byte() };
    }
}

/// A table with a fault, most likely.
pub fn table(random: &mut Random, nodes: &[Node]) -> Vec<u8> {
    let mut nodes = nodes.to_vec();
    for _ in 0..random.pick(&[0, 1, 1, 1, 2, 4]) {
        if !nodes.is_empty() {
            change_node(random, &mut nodes);
        }
    }
    let mut bytes = encode(&nodes);
    match random.below(12) {
        0 => flip(random, &mut bytes),
        1 => bytes.truncate(random.below(bytes.len() + 1)),
        2 => bytes.push(random.byte()),
        3 if random.chance(20) => bytes.resize(random.pick(&[4088, 4096, 4097, 4104, 70000]), 0),
        _ => {}
    }
    bytes
}

/// Random nodes: known kinds, lower children.
pub fn soup(random: &mut Random) -> Vec<u8> {
    let count = random.pick(&[1, 1, 2, 2, 3, 3, 4, 6, 10]);
    let node = |random: &mut Random, at: usize| {
        let kind = random.pick(&[1, 2, 3, 4, 5, 6, 7, 10, 11, 12, 13, 14, 20, 21, 22, 23, 24, 25, 26]);
        let tag = if matches!(kind, 7 | 10..=13 | 23..=25) { random.between(1, 2) as u8 } else { 0 };
        let used = match kind {
            3 | 26 => 3,
            1 | 4 | 5 | 6 | 14 | 24 => 2,
            20..=23 => 0,
            _ => 1,
        };
        let mut fields = [0; 3];
        for field in &mut fields[..used] {
            *field = random.below(at + usize::from(at == 0)) as u16;
        }
        Node { kind, tag, fields }
    };
    encode(&(0..count).map(|at| node(random, at)).collect::<Vec<_>>())
}

/// A sheet with a fault, most likely.
pub fn sheet(random: &mut Random, sheet: &[u8]) -> Vec<u8> {
    let mut bytes = sheet.to_vec();
    let code_at = usize::from(sheet[8]) + 256 * usize::from(sheet[9]);
    match random.below(12) {
        0 => flip(random, &mut bytes[..16]),
        1..=3 => flip(random, &mut bytes[16..code_at]),
        4..=6 => flip(random, &mut bytes[code_at..]),
        7 => bytes.truncate(random.below(bytes.len())),
        8 => bytes.push(random.byte()),
        9 => {
            let (one, other) = (random.between(code_at / 8, bytes.len() / 8 - 1), random.between(code_at / 8, bytes.len() / 8 - 1));
            for i in 0..8 {
                bytes.swap(8 * one + i, 8 * other + i);
            }
        }
        10 => recount(random, &mut bytes),
        _ => flip(random, &mut bytes),
    }
    bytes
}

/// A header that fits the length, with another border between nodes and code.
fn recount(random: &mut Random, bytes: &mut [u8]) {
    let entries = bytes.len() / 8 - 2;
    let nodes = random.between(0, entries);
    let mut set = |at: usize, number: usize| bytes[at..at + 2].copy_from_slice(&(number as u16).to_le_bytes());
    set(2, nodes);
    set(4, entries - nodes);
    set(8, 16 + 8 * nodes);
}

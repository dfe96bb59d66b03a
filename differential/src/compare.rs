//! One case of each kind: the same input to the library and to the rules of this program, and what differs.

use crate::meaning::{Evaluator, Stop, Strip};
use crate::ours::{self, Checked, Datum, Outcome, Sample, Written};
use crate::sheet;
use crate::strips::{DataStrip, TextStrip};
use crate::table::{accept, Refusal};
use std::collections::BTreeMap;
use std::fmt::Write;

const TAKE_FUEL: u32 = 1_000_000_000;

/// Counts of what was compared, and of the differences.
#[derive(Default)]
pub struct Tally {
    pub compared: BTreeMap<&'static str, u64>,
    pub answers: BTreeMap<String, u64>,
    pub steps: u64,
    pub differences: u64,
}

/// How many differences are shown in full.
const SHOWN: u64 = 5;

pub fn hex(bytes: &[u8]) -> String {
    bytes.iter().fold(String::new(), |mut text, byte| {
        write!(text, "{byte:02x}").expect("a string takes all");
        text
    })
}

impl Tally {
    fn compare<T: PartialEq + std::fmt::Debug>(&mut self, kind: &'static str, ours: &T, other: &T, input: impl Fn() -> String) {
        *self.compared.entry(kind).or_default() += 1;
        if ours != other {
            self.differences += 1;
            if self.differences <= SHOWN {
                println!("DIFFERENCE ({kind})\n  library: {ours:?}\n  here:    {other:?}\n  {}", input());
            }
        }
    }

    fn count(&mut self, what: String) {
        *self.answers.entry(what).or_default() += 1;
    }

    pub fn check(&mut self, kind: &'static str, table: &[u8]) {
        let other = verdict(accept(table).map(drop));
        self.count(format!("table: refusal {:2}", other.refusal));
        self.compare(kind, &ours::check(table), &other, || format!("table {}", hex(table)));
    }

    pub fn open(&mut self, kind: &'static str, bytes: &[u8]) {
        let other = verdict(sheet::open(bytes));
        self.count(format!("sheet: refusal {:2}", other.refusal));
        self.compare(kind, &ours::open(bytes), &other, || format!("sheet {}", hex(bytes)));
    }

    /// Writes the table's sheet over `memory`, and compares answer and memory.
    pub fn sheet(&mut self, kind: &'static str, table: &[u8], memory: &[u8]) {
        let mut theirs = memory.to_vec();
        let answer = ours::sheet(table, &mut theirs);
        let mut here = memory.to_vec();
        let other = write_sheet(table, &mut here);
        self.count(format!("written: refusal {:2}", other.refusal));
        self.compare(kind, &(answer, theirs), &(other, here), || format!("table {} memory {}", hex(table), hex(memory)));
    }

    pub fn run_text(&mut self, kind: &'static str, table: &[u8], samples: &[Sample], memory: &[u8], fuel: u32) {
        let mut theirs = memory.to_vec();
        let answer = ours::run_text(table, samples, &mut theirs, fuel);
        let mut strip = TextStrip { memory: memory.to_vec(), filled: 0 };
        let mut other = run(table, samples, &mut strip, fuel);
        other.filled = strip.filled;
        self.ended(&other);
        let input = || format!("table {} samples {samples:?} room {} fuel {fuel}", hex(table), memory.len());
        self.compare(kind, &(answer, theirs), &(other, strip.memory), input);
    }

    pub fn run_data(&mut self, kind: &'static str, table: &[u8], samples: &[Sample], memory: &[Datum], fuel: u32) {
        let mut theirs = memory.to_vec();
        let answer = ours::run_data(table, samples, &mut theirs, fuel);
        let mut strip = DataStrip { memory: memory.to_vec(), filled: 0 };
        let mut other = run(table, samples, &mut strip, fuel);
        other.filled = strip.filled;
        self.ended(&other);
        let input = || format!("table {} samples {samples:?} room {} fuel {fuel}", hex(table), memory.len());
        self.compare(kind, &(answer, theirs), &(other, strip.memory), input);
    }

    fn ended(&mut self, outcome: &Outcome) {
        self.steps += u64::from(outcome.steps);
        self.count(match outcome {
            Outcome { refusal: 1.., .. } => format!("run: refusal {:2}", outcome.refusal),
            Outcome { ended: true, .. } => format!("run: end {:2}", outcome.end),
            _ => "run: fuel over".to_string(),
        });
    }
}

fn verdict(result: Result<(), Refusal>) -> Checked {
    match result {
        Ok(()) => Checked { refusal: 0, node: 0 },
        Err(refusal) => Checked { refusal: refusal.number, node: refusal.node },
    }
}

fn write_sheet(table: &[u8], memory: &mut [u8]) -> Written {
    let nodes = match accept(table) {
        Ok(nodes) => nodes,
        Err(refusal) => return Written { refusal: refusal.number, node: refusal.node, length: 0 },
    };
    let bytes = sheet::write(&nodes);
    match memory.get_mut(..bytes.len()) {
        Some(place) => {
            place.copy_from_slice(&bytes);
            Written { refusal: 0, node: 0, length: bytes.len() }
        }
        None => Written { refusal: 12, node: 0, length: 0 },
    }
}

fn run<S: Strip>(table: &[u8], samples: &[Sample], strip: &mut S, fuel: u32) -> Outcome {
    let blank = Outcome { refusal: 0, ended: false, end: 0, code: 0, node: 0, steps: 0, left: samples.len(), filled: 0 };
    let nodes = match accept(table) {
        Ok(nodes) => nodes,
        Err(refusal) => return Outcome { refusal: refusal.number, node: refusal.node, ..blank },
    };
    if fuel > TAKE_FUEL {
        return Outcome { refusal: 10, ..blank };
    }
    let mut evaluator = Evaluator::new(&nodes, samples, strip, fuel);
    let stop = evaluator.run();
    let stands = Outcome { steps: evaluator.steps, left: evaluator.feed.len(), ..blank };
    match stop {
        Stop::Fuel => stands,
        Stop::End { number, node, code } => {
            assert!(u64::from(stands.steps) <= 3 * evaluator.visits + 1, "more than three steps a visit: {}", hex(table));
            Outcome { ended: true, end: number, node: node as u16, code, ..stands }
        }
    }
}

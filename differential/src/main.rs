//! Compares the proved library with another reading of the same rules, on random inputs: `differential/run [SEED [COUNT]]`.

mod compare;
mod damage;
mod generate;
mod meaning;
mod ours;
mod random;
mod sheet;
mod strips;
mod table;

use compare::Tally;
use generate::{samples, Generator};
use ours::Datum;
use random::Random;
use std::process::ExitCode;

fn fuel(random: &mut Random) -> u32 {
    match random.below(400) {
        0..=99 => random.below(60) as u32,
        100..=379 => random.between(100, 20_000) as u32,
        380..=397 => random.between(20_000, 300_000) as u32,
        398 => random.between(999_990, 2_100_000) as u32,
        _ => 1_000_000_001,
    }
}

/// A program, whole and damaged, through all five calls.
fn case(random: &mut Random, tally: &mut Tally) {
    let size = random.pick(&[1, 5, 10, 20, 40, 80, 150, 300, 480]);
    let nodes = Generator::program(random, size);
    let whole = table::encode(&nodes);
    tally.check("check a program", &whole);
    run_both(random, tally, "run a program, text", "run a program, data", &whole);

    let damaged = damage::table(random, &nodes);
    tally.check("check a damaged table", &damaged);
    run_both(random, tally, "run a damaged table, text", "run a damaged table, data", &damaged);
    for _ in 0..4 {
        tally.check("check random nodes", &damage::soup(random));
    }

    let sheet = sheet::write(&nodes);
    let room = match random.below(4) {
        0 => random.below(sheet.len()),
        1 => sheet.len() - 1,
        2 => sheet.len(),
        _ => sheet.len() + random.below(40),
    };
    let memory: Vec<u8> = (0..room).map(|_| random.byte()).collect();
    tally.sheet("write a sheet", &whole, &memory);
    tally.sheet("write a damaged table's sheet", &damaged, &memory);

    tally.open("open a sheet", &sheet);
    tally.open("open a half sheet", &sheet::write_half(&nodes));
    for _ in 0..4 {
        tally.open("open a damaged sheet", &damage::sheet(random, &sheet));
    }
}

fn run_both(random: &mut Random, tally: &mut Tally, text: &'static str, data: &'static str, table: &[u8]) {
    let samples = samples(random);
    let fuel = fuel(random);
    let room = random.pick(&[0, 1, 2, 5, 30, 100, 100, 4000, 4000]);
    let memory: Vec<u8> = (0..room).map(|_| random.byte()).collect();
    tally.run_text(text, table, &samples, &memory, fuel);
    let room = random.pick(&[0, 1, 2, 5, 30, 1000, 1000]);
    let memory: Vec<Datum> = (0..room).map(|_| Datum { sort: random.byte(), number: random.number() }).collect();
    tally.run_data(data, table, &samples, &memory, fuel);
}

/// Every table of one node up to the fields' edges, and every length around the limits.
fn edges(tally: &mut Tally) {
    for kind in 0..=255 {
        for tag in [0, 1, 2, 6, 7, 255] {
            for field in 0..4 {
                for value in [0, 1, 255, 256, 65535] {
                    let mut node = table::Node { kind, tag, fields: [0; 3] };
                    if field < 3 {
                        node.fields[field] = value;
                    }
                    tally.check("check one node", &node.bytes());
                }
            }
        }
    }
    for length in (0..40).chain(4080..4112) {
        tally.check("check zeros", &vec![0; length]);
        tally.open("open zeros", &vec![0; length]);
    }
}

/// A countdown from `turns`, which takes 17 steps a turn.
fn long(tally: &mut Tally, turns: u32, fuel: u32) {
    let node = |kind, tag, fields| table::Node { kind, tag, fields };
    let number = |value: u32| node(20, 0, [0, value as u16, (value >> 16) as u16]);
    let nodes = [
        number(turns),
        node(11, 7, [0, 0, 0]),
        number(0),
        node(23, 7, [0, 0, 0]),
        node(24, 6, [2, 3, 0]),
        node(23, 7, [0, 0, 0]),
        node(23, 7, [0, 0, 0]),
        number(1),
        node(24, 2, [6, 7, 0]),
        node(1, 0, [5, 8, 0]),
        node(4, 0, [4, 9, 0]),
        node(5, 0, [1, 10, 0]),
    ];
    tally.run_text("run a long loop", &table::encode(&nodes), &[], &[1, 2, 3], fuel);
}

fn main() -> ExitCode {
    let numbers: Vec<u64> = std::env::args().skip(1).map(|word| word.parse().expect("SEED and COUNT are numbers")).collect();
    let seed = numbers.first().copied().unwrap_or(1);
    let count = numbers.get(1).copied().unwrap_or(100_000);
    let mut tally = Tally::default();
    edges(&mut tally);
    for (turns, fuel) in [(200_000, 3_000_000), (200_000, 2_000_000), (200_000, 1_000_000), (1_000_000, 1_000_000_000)] {
        long(&mut tally, turns, fuel);
    }
    for number in 0..count {
        case(&mut Random::new(seed.wrapping_mul(1_000_003).wrapping_add(number)), &mut tally);
    }
    println!("seed {seed}, {count} programs, {} steps", tally.steps);
    for (kind, compared) in &tally.compared {
        println!("{compared:10}  {kind}");
    }
    println!("answers:");
    for (answer, times) in &tally.answers {
        println!("{times:10}  {answer}");
    }
    println!("{} differences", tally.differences);
    ExitCode::from(u8::from(tally.differences > 0))
}

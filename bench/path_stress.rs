//! Threads make operations along a path on one node, on a board in plain Rust: the same work as that of the crate path_race, and what
//! they took down is printed in the same form, which tests/path_race.py checks.
//!
//!   path_stress THREADS OPERATIONS records|times [all|reads|changes|both] [FAULT]
//!
//! FAULT plants a fault in the protocol, with stalls between its steps: see `FAULTS`
#[allow(dead_code)]
mod exchange_board;
#[allow(dead_code)]
mod exchange_help;
#[allow(dead_code)]
mod exchange_pass;
#[allow(dead_code)]
mod exchange_words;
mod path_pass;
mod path_worker;

use exchange_board::{Board, Fault, Planted, Right, Variant};
use path_worker::{Ends, Entry, Hand, Mix, Worker, mix_named};
use std::io::{self, BufWriter, Write};
use std::process::ExitCode;
use std::thread;

/// How many operations are made on one board.
const ROUND: u64 = 100_000;

struct Plan {
    threads: u32,
    operations: u64,
    records: bool,
    mix: Mix,
    fault: Fault,
}

const FAULTS: [(&str, Fault); 6] = [
    ("none", Fault::None),
    ("reads-unchecked", Fault::ReadsUnchecked),
    ("stamp-last", Fault::StampLast),
    ("records-lost", Fault::RecordsLost),
    ("skips-status", Fault::SkipsStatus),
    ("holds-changed", Fault::HoldsChanged),
];

fn fault_named(name: &str) -> Option<Fault> {
    FAULTS.iter().find(|fault| fault.0 == name).map(|fault| fault.1)
}

fn plan_of(words: &[String]) -> Option<Plan> {
    let mix = words.get(3).map_or(Some(Mix::All), |word| mix_named(word))?;
    Some(Plan {
        threads: words.first()?.parse().ok().filter(|n| (1..=8).contains(n))?,
        operations: words.get(1)?.parse().ok()?,
        records: match words.get(2)?.as_str() {
            "records" => true,
            "times" => false,
            _ => return None,
        },
        mix,
        fault: words.get(4).map_or(Some(Fault::None), |word| fault_named(word))?,
    })
}

fn print_round<V: Variant>(out: &mut impl Write, board: &Board, workers: &[Worker<V>]) -> io::Result<()> {
    writeln!(out, "round")?;
    for worker in workers {
        worker.print(out)?;
    }
    let mut history: Vec<&Entry> = workers.iter().flat_map(|worker| &worker.entries).collect();
    history.sort_by_key(|entry| entry.stamp);
    for entry in history {
        writeln!(out, "{entry}")?;
    }
    for (word, raw) in board.words().iter().enumerate().take(16).skip(8) {
        writeln!(out, "cell {word} {}", raw / 4)?;
    }
    writeln!(out, "end")
}

fn run_round<V: Variant>(plan: &Plan, hands: &mut [Hand], operations: u64, out: &mut impl Write) -> io::Result<()> {
    let share = operations.div_ceil(u64::from(plan.threads));
    let board = Board::open_right(plan.threads);
    let worker = |seat| Worker::new(&board, hands[seat as usize], seat, share, plan.records);
    let mut workers: Vec<Worker<V>> = (0..plan.threads).map(worker).collect();
    workers.iter_mut().filter(|_| V::PLANTED).for_each(|worker| worker.plant(plan.fault));
    thread::scope(|scope| {
        for worker in &mut workers {
            scope.spawn(move || worker.run(share, plan.mix));
        }
    });
    hands.iter_mut().zip(&workers).for_each(|(hand, worker)| *hand = worker.hand);
    if plan.records { print_round(out, &board, &workers) } else { Ok(()) }
}

fn run<V: Variant>(plan: &Plan, out: &mut impl Write) -> io::Result<bool> {
    let mut hands: Vec<Hand> = (0..plan.threads).map(Hand::new).collect();
    let mut left = plan.operations;
    while left > 0 {
        let round = left.min(ROUND);
        run_round::<V>(plan, &mut hands, round, out)?;
        left -= round;
    }
    let mut ends = Ends::default();
    hands.iter().for_each(|hand| ends.add(&hand.ends));
    if !plan.records {
        writeln!(out, "{ends}")?;
    }
    Ok(hands.iter().all(|hand| !hand.stuck))
}

fn main() -> ExitCode {
    let words: Vec<String> = std::env::args().skip(1).collect();
    let Some(plan) = plan_of(&words) else {
        eprintln!("path_stress: see the head of bench/path_stress.rs");
        return ExitCode::from(2);
    };
    let mut out = BufWriter::new(io::stdout());
    let ran = if plan.fault == Fault::None { run::<Right>(&plan, &mut out) } else { run::<Planted>(&plan, &mut out) };
    match ran.and_then(|went_on| out.flush().map(|()| went_on)) {
        Ok(true) => ExitCode::SUCCESS,
        _ => ExitCode::FAILURE,
    }
}

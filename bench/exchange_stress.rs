//! Threads make exchanges of 2 to 6 words on few nodes, on a board in plain Rust, and what they took down is checked.
//!
//!   exchange_stress [--threads T] [--exchanges N] [--nodes K] [--stalls S] [--fault NAME] [--clock C] [--toggle] [--steps] [--unchecked]
//!
//! --nodes K    exchanges are of 1 to 3 of K nodes, K from 3 on; at 1 they are of one node, as those of the crate exchange_race
//! --stalls S   one step in S is followed by a stall, and some exchanges are left half done for a while, or given up
//! --fault NAME plants a fault in the protocol: see `FAULTS`
//! --clock C    the clock opens at C; 17179869183 is its end
//! --toggle     words go from 0 to 1 and back without versions, so an old value may come again
//! --steps      counts the steps of exchanges by one pass alone
//! --unchecked  checks nothing, so that the time of the whole run is that of its threads
//!
//! Prints one line, and ends with status 1 where the check fails.
#[allow(dead_code)]
mod exchange_board;
mod exchange_check;
#[allow(dead_code)]
mod exchange_help;
#[allow(dead_code)]
mod exchange_pass;
#[allow(dead_code)]
mod exchange_words;
mod exchange_worker;

use exchange_board::{Board, Counted, Fault, Planted, Right, Steps, Variant};
use exchange_check::{Raw, Record, check};
use exchange_help::Verdict;
use exchange_pass::{Change, Pass};
use exchange_worker::{Ends, Plan, Worker};
use std::process::ExitCode;
use std::sync::atomic::{AtomicBool, Ordering};
use std::thread;
use std::time::{Duration, Instant};

/// How many exchanges are made before what was taken down is checked: without a fault, and with one.
const ROUND: u64 = 500_000;
const FAULTY_ROUND: u64 = 1_000;

struct Report {
    ends: Ends,
    helps: u64,
    completions: u64,
    took: Duration,
    checked: Result<(), String>,
}

fn raw_of(board: &Board, plan: &Plan) -> Raw {
    let stride = board.own(1) - board.own(0);
    Raw { words: board.words(), cells: 8..8 * (plan.nodes as usize + 1), first_status: board.own(0), stride }
}

/// One round: each worker makes its share. False where a thread panicked.
fn run_round<V: Variant>(workers: &mut [Worker<V>], exchanges: u64, stuck: &AtomicBool) -> bool {
    let share = exchanges / workers.len() as u64;
    thread::scope(|scope| {
        let threads: Vec<_> = workers.iter_mut().map(|worker| scope.spawn(move || worker.run(share, stuck))).collect();
        threads.into_iter().map(|thread| thread.join().is_ok()).fold(true, |all, one| all && one)
    })
}

fn check_round<V: Variant>(workers: &mut [Worker<V>], cells: &mut [u64], raw: &Raw, unchecked: bool) -> Result<(), String> {
    let records: Vec<Record> = workers.iter_mut().map(|worker| std::mem::take(&mut worker.record)).collect();
    let checked = if unchecked { Ok(()) } else { check(cells, &records, raw) };
    for (worker, mut record) in workers.iter_mut().zip(records) {
        record.clear();
        worker.record = record;
    }
    checked
}

fn run<V: Variant>(plan: &Plan) -> Report {
    let board = Board::open(plan.threads, plan.nodes as usize - 1, plan.clock);
    let mut workers: Vec<Worker<V>> = (0..plan.threads).map(|seat| Worker::new(&board, plan, seat)).collect();
    let (mut cells, stuck) = (vec![0; 8 * (plan.nodes as usize + 1)], AtomicBool::new(false));
    let (mut left, mut took, mut checked) = (plan.exchanges, Duration::ZERO, Ok(()));
    while left > 0 && checked.is_ok() {
        let round = left.min(if plan.fault == Fault::None { ROUND } else { FAULTY_ROUND });
        let from = Instant::now();
        let returned = run_round(&mut workers, round.next_multiple_of(u64::from(plan.threads)), &stuck);
        took += from.elapsed();
        left -= round;
        checked = check_round(&mut workers, &mut cells, &raw_of(&board, plan), plan.unchecked);
        if !returned {
            checked = Err(String::from("a thread panicked"));
        } else if stuck.load(Ordering::Relaxed) && checked.is_ok() {
            checked = Err(String::from("no exchange comes through"));
        } else if ends_of(&workers).twice > 0 && checked.is_ok() {
            checked = Err(String::from("an exchange was blocked by one reference twice"));
        }
    }
    let (mut helps, mut completions) = (0, 0);
    for Worker { pass, .. } in &workers {
        helps += pass.helps;
        completions += pass.completions;
    }
    Report { ends: ends_of(&workers), helps, completions, took, checked }
}

fn ends_of<V: Variant>(workers: &[Worker<V>]) -> Ends {
    let mut ends = Ends::default();
    workers.iter().for_each(|worker| ends.add(&worker.ends));
    ends
}

/// The steps of one exchange of so many words, by a pass alone.
fn steps_of(words: usize) -> Steps {
    let board = Board::open(1, 11, 1);
    let mut pass = Pass::<Counted>::new(&board, 0);
    for i in 0..words {
        pass.word(Change { word: 8 + 4 * i, old: 0, new: 2 });
    }
    assert!(pass.publish().is_ok() && matches!(pass.finish(), Verdict::Won { .. }));
    pass.seat.steps
}

fn print_steps() {
    for words in [1, 2, 3, 4, 6, 12, 24] {
        let Steps { loads, stores, additions, exchanges } = steps_of(words);
        let all = loads + stores + additions + exchanges;
        println!("{words} words: {all} steps, {loads} loads, {stores} stores, {additions} additions, {exchanges} exchanges");
    }
}

const FAULTS: [(&str, Fault); 13] = [
    ("none", Fault::None),
    ("clears-to-new", Fault::ClearsToNew),
    ("draws-early", Fault::DrawsEarly),
    ("skips-status", Fault::SkipsStatus),
    ("status-before", Fault::StatusBefore),
    ("skips-installs", Fault::SkipsInstalls),
    ("number-last", Fault::NumberLast),
    ("skips-number", Fault::SkipsNumber),
    ("status-first", Fault::StatusFirst),
    ("holds-changed", Fault::HoldsChanged),
    ("idle-early", Fault::IdleEarly),
    ("leaves-last", Fault::LeavesLast),
    ("stops-unseen", Fault::StopsUnseen),
];

fn fault_named(name: &str) -> Option<Fault> {
    FAULTS.iter().find(|fault| fault.0 == name).map(|fault| fault.1)
}

fn plan_of(words: &[String]) -> Option<Plan> {
    let mut plan = Plan {
        threads: 4,
        exchanges: 20_000,
        nodes: 4,
        stalls: 0,
        clock: 1,
        fault: Fault::None,
        toggles: false,
        counts: false,
        unchecked: false,
    };
    let mut words = words.iter();
    while let Some(word) = words.next() {
        match word.as_str() {
            "--threads" => plan.threads = words.next()?.parse().ok().filter(|n| (1..=32).contains(n))?,
            "--exchanges" => plan.exchanges = words.next()?.parse().ok()?,
            "--nodes" => plan.nodes = words.next()?.parse().ok().filter(|n| *n == 1 || (3..=1000).contains(n))?,
            "--stalls" => plan.stalls = words.next()?.parse().ok()?,
            "--clock" => plan.clock = words.next()?.parse().ok()?,
            "--fault" => plan.fault = fault_named(words.next()?)?,
            "--toggle" => plan.toggles = true,
            "--steps" => plan.counts = true,
            "--unchecked" => plan.unchecked = true,
            _ => return None,
        }
    }
    Some(plan)
}

fn report_of(plan: &Plan) -> Report {
    if plan.fault == Fault::None && plan.stalls == 0 { run::<Right>(plan) } else { run::<Planted>(plan) }
}

fn print_report(plan: &Plan, report: &Report) {
    let Ends { won, changed, blocked, withdrawn, numbers, .. } = report.ends;
    let (all, seconds) = (report.ends.all(), report.took.as_secs_f64());
    let verdict = match &report.checked {
        Ok(()) if plan.unchecked => String::from("nothing is checked"),
        Ok(()) => String::from("the check holds"),
        Err(wrong) => format!("THE CHECK FAILS: {wrong}"),
    };
    println!(
        "{} threads, {all} exchanges: {won} won, {changed} changed, {blocked} blocked, {withdrawn} withdrawn, {numbers} out \
         of numbers; {} helps, {} installs met; {seconds:.3} s, {:.0} a second; {verdict}",
        plan.threads,
        report.helps,
        report.completions,
        all as f64 / seconds
    );
}

fn main() -> ExitCode {
    let words: Vec<String> = std::env::args().skip(1).collect();
    let Some(plan) = plan_of(&words) else {
        eprintln!("exchange_stress: see the head of bench/exchange_stress.rs");
        return ExitCode::from(2);
    };
    if plan.counts {
        print_steps();
        return ExitCode::SUCCESS;
    }
    let report = report_of(&plan);
    print_report(&plan, &report);
    ExitCode::from(u8::from(report.checked.is_err()))
}

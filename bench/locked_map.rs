//! The job of pathmap for several clients, over std's `BTreeMap`: a thread for each client, and one lock round the
//! map and its history.
#[allow(dead_code)]
mod ordered_map;
mod script;
mod std_map;

use ordered_map::{Entry, OrderedMap, print_history, print_pairs, reply_of, with_clients};
use script::Call;
use std::io::{self, Write};
use std::process::ExitCode;
use std::sync::{Mutex, PoisonError};
use std::thread;
use std_map::Std;

struct Shared {
    map: Std,
    history: Vec<Entry>,
}

impl Shared {
    /// Makes a call of a client, and enters it.
    fn apply(&mut self, client: u32, number: u32, call: Call) {
        let reply = reply_of(&mut self.map, call);
        let stamp = self.history.len() as u64 + 1;
        self.history.push(Entry { client, number, call, reply, stamp });
    }
}

fn run_client(shared: &Mutex<Shared>, client: u32, calls: &[Call]) {
    for (i, call) in calls.iter().enumerate() {
        let mut shared = shared.lock().unwrap_or_else(PoisonError::into_inner);
        shared.apply(client, i as u32 + 1, *call);
    }
}

fn run_clients(lists: &[Vec<Call>]) -> Shared {
    let calls = lists.iter().map(Vec::len).sum();
    let shared = Mutex::new(Shared { map: Std::with_room(calls), history: Vec::with_capacity(calls) });
    thread::scope(|scope| {
        for (client, calls) in (1..).zip(lists) {
            let shared = &shared;
            scope.spawn(move || run_client(shared, client, calls));
        }
    });
    shared.into_inner().unwrap_or_else(PoisonError::into_inner)
}

fn run(out: &mut impl Write, lists: &[Vec<Call>]) -> io::Result<()> {
    let Shared { map, history } = run_clients(lists);
    print_history(out, &history)?;
    print_pairs(out, &map)?;
    writeln!(out, "end")
}

fn main() -> io::Result<ExitCode> {
    with_clients(|out, lists| run(out, lists).map(|()| 0))
}

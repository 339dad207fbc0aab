//! What the plain programs share: they read a script, run it on an ordered map, and print each reply and the map
//! that is left, in pathmap's own words and with its status.
use crate::script::{self, Call};
use std::io::{self, BufWriter, Read, StdoutLock, Write};
use std::process::ExitCode;

/// An ordered map as a script uses it.
pub trait OrderedMap {
    /// An empty map that at most so many pairs are put into.
    fn with_room(pairs: usize) -> Self;
    fn put(&mut self, key: u64, value: u64) -> Option<u64>;
    fn get(&self, key: u64) -> Option<u64>;
    fn remove(&mut self, key: u64) -> Option<u64>;
    fn ceil(&self, key: u64) -> Option<(u64, u64)>;
    fn floor(&self, key: u64) -> Option<(u64, u64)>;
    fn len(&self) -> usize;
    fn pairs(&self) -> impl Iterator<Item = (u64, u64)>;
}

/// What a call replies.
#[derive(Clone, Copy)]
pub enum Reply {
    New,
    Was(u64),
    Value(u64),
    Missing,
    Pair(u64, u64),
}

/// A call in a history, with its client, its number there, its reply, and its place, the stamp.
pub struct Entry {
    pub client: u32,
    pub number: u32,
    pub call: Call,
    pub reply: Reply,
    pub stamp: u64,
}

/// Runs the script on standard input on a map of this kind.
pub fn serve<M: OrderedMap>() -> io::Result<ExitCode> {
    with_calls(run::<M>)
}

/// Reads the script on standard input, and runs the calls of its one client so.
pub fn with_calls<F>(run: F) -> io::Result<ExitCode>
where
    F: FnOnce(&mut BufWriter<StdoutLock<'static>>, &[Call]) -> io::Result<()>,
{
    with_clients(|out, lists| match lists {
        [calls] => run(out, calls).map(|()| 0),
        _ => writeln!(out, "fault not built").map(|()| 3),
    })
}

/// Reads the script on standard input, and runs the calls of its clients so, which gives the status.
pub fn with_clients<F>(run: F) -> io::Result<ExitCode>
where
    F: FnOnce(&mut BufWriter<StdoutLock<'static>>, &[Vec<Call>]) -> io::Result<u8>,
{
    let mut bytes = Vec::new();
    io::stdin().lock().read_to_end(&mut bytes)?;
    let mut out = BufWriter::new(io::stdout().lock());
    let status = match script::read(&bytes) {
        Ok(lists) => run(&mut out, &lists)?,
        Err(bad) => {
            writeln!(out, "fault line {} {}", bad.line, bad.kind)?;
            3
        }
    };
    out.flush()?;
    Ok(ExitCode::from(status))
}

fn run<M: OrderedMap>(out: &mut impl Write, calls: &[Call]) -> io::Result<()> {
    let mut map = M::with_room(room_for(calls));
    for (i, call) in calls.iter().enumerate() {
        let reply = reply_of(&mut map, *call);
        line(out, i as u64 + 1, 1, i as u32 + 1, *call, reply)?;
    }
    print_pairs(out, &map)?;
    writeln!(out, "end")
}

/// As many pairs as the calls can put.
pub fn room_for(calls: &[Call]) -> usize {
    calls.iter().filter(|call| matches!(call, Call::Put(..))).count()
}

/// Makes a call.
pub fn reply_of(map: &mut impl OrderedMap, call: Call) -> Reply {
    let value = |value: Option<u64>| value.map_or(Reply::Missing, Reply::Value);
    let pair = |pair: Option<(u64, u64)>| pair.map_or(Reply::Missing, |(key, value)| Reply::Pair(key, value));
    match call {
        Call::Put(key, value) => map.put(key, value).map_or(Reply::New, Reply::Was),
        Call::Get(key) => value(map.get(key)),
        Call::Remove(key) => value(map.remove(key)),
        Call::Ceil(key) => pair(map.ceil(key)),
        Call::Floor(key) => pair(map.floor(key)),
    }
}

/// Prints a call with its reply.
pub fn line(out: &mut impl Write, place: u64, client: u32, number: u32, call: Call, reply: Reply) -> io::Result<()> {
    match call {
        Call::Put(key, value) => write!(out, "{place} {client}.{number} put {key} {value} = ")?,
        Call::Get(key) => write!(out, "{place} {client}.{number} get {key} = ")?,
        Call::Remove(key) => write!(out, "{place} {client}.{number} remove {key} = ")?,
        Call::Ceil(key) => write!(out, "{place} {client}.{number} ceil {key} = ")?,
        Call::Floor(key) => write!(out, "{place} {client}.{number} floor {key} = ")?,
    }
    match reply {
        Reply::New => writeln!(out, "new"),
        Reply::Was(value) => writeln!(out, "was {value}"),
        Reply::Value(value) => writeln!(out, "{value}"),
        Reply::Missing => writeln!(out, "none"),
        Reply::Pair(key, value) => writeln!(out, "{key} {value}"),
    }
}

/// Prints a history.
pub fn print_history(out: &mut impl Write, history: &[Entry]) -> io::Result<()> {
    for entry in history {
        line(out, entry.stamp, entry.client, entry.number, entry.call, entry.reply)?;
    }
    Ok(())
}

/// Prints the pairs that are left.
pub fn print_pairs(out: &mut impl Write, map: &impl OrderedMap) -> io::Result<()> {
    writeln!(out, "left {}", map.len())?;
    for (key, value) in map.pairs() {
        writeln!(out, "{key} {value}")?;
    }
    Ok(())
}

//! Whether what the passes took down is one order of exchanges that the board's last words fit. It shares no code with the
//! exchange: it reads raw words by itself.

/// What a pass took down of an exchange that won: four numbers (the stamp, the clock before its publication and after its
/// clearing, how many words), then three for each word (its number, the old and the new value).
pub type Record = Vec<u64>;

/// Enters one exchange.
pub fn take_down(record: &mut Record, stamp: u64, clocks: [u64; 2], words: impl ExactSizeIterator<Item = [u64; 3]>) {
    record.extend([stamp, clocks[0], clocks[1], words.len() as u64]);
    record.extend(words.flatten());
}

/// The raw words of a board, and where those of nodes end, the first status lies, and the next one.
pub struct Raw {
    pub words: Vec<u64>,
    pub cells: std::ops::Range<usize>,
    pub first_status: usize,
    pub stride: usize,
}

// The exchanges of all records by rising stamps: the stamp, the record, and where in it the exchange lies.
fn by_stamp(records: &[Record]) -> Vec<(u64, usize, usize)> {
    let mut order = Vec::new();
    for (of, record) in records.iter().enumerate() {
        let mut at = 0;
        while at < record.len() {
            order.push((record[at], of, at));
            at += 4 + 3 * record[at + 3] as usize;
        }
    }
    order.sort_unstable();
    order
}

fn replay_one(cells: &mut [u64], entry: &[u64]) -> Result<(), String> {
    let (stamp, words) = (entry[0], &entry[4..4 + 3 * entry[3] as usize]);
    if stamp < entry[1] || stamp >= entry[2] {
        return Err(format!("stamp {stamp} isn't between the clock {} before and {} after", entry[1], entry[2]));
    }
    for change in words.chunks(3) {
        let cell = &mut cells[change[0] as usize];
        if *cell != change[1] {
            return Err(format!("at stamp {stamp} word {} is {cell} and not {}", change[0], change[1]));
        }
        *cell = change[2];
    }
    Ok(())
}

/// Replays the records on the cells that stood before, and compares the words that stand now.
pub fn check(cells: &mut [u64], records: &[Record], raw: &Raw) -> Result<(), String> {
    let order = by_stamp(records);
    if let Some(twice) = order.windows(2).find(|pair| pair[0].0 == pair[1].0) {
        return Err(format!("stamp {} was given twice", twice[0].0));
    }
    for (_, of, at) in &order {
        replay_one(cells, &records[*of][*at..])?;
    }
    if let Some(status) = raw.words[raw.first_status..].iter().step_by(raw.stride).find(|status| *status % 4 != 0) {
        return Err(format!("a status {status} isn't idle"));
    }
    let passes = (raw.words.len() - raw.first_status) / raw.stride;
    if raw.words[0] >= (1 << 34) + passes as u64 {
        return Err(format!("the clock {} went on after its end", raw.words[0]));
    }
    for word in raw.cells.clone() {
        let (now, cell) = (raw.words[word], cells[word]);
        match now % 4 {
            0 if now / 4 == cell => {}
            0 => return Err(format!("word {word} is {} and not {cell}", now / 4)),
            1 => return Err(format!("word {word} still holds an install")),
            _ => return Err(format!("word {word} still holds a reference")),
        }
    }
    Ok(())
}

//! The reading of a script with std alone, for the programs that pathmap is measured against: lines by
//! `split`, words by `split_ascii_whitespace`, numbers by `parse`.

/// What a command asks of the map.
#[derive(Clone, Copy)]
pub enum Call {
    Put(u64, u64),
    Get(u64),
    Remove(u64),
    Ceil(u64),
    Floor(u64),
}

enum Line {
    Turn(usize),
    Command(Call),
}

/// The first bad line, from 1, and what is wrong with it.
pub struct Bad {
    pub line: usize,
    pub kind: &'static str,
}

const GREATEST: u64 = 999_999_999_999_999_999;
const MOST_CLIENTS: u64 = 32;
const MOST_COMMANDS: usize = 60_000;

/// The calls of each client.
pub fn read(bytes: &[u8]) -> Result<Vec<Vec<Call>>, Bad> {
    let mut lists = vec![Vec::new()];
    let mut client = 1;
    let mut commands = 0;
    for (place, line) in bytes.split(|byte| *byte == b'\n').enumerate() {
        let bad = |kind| Bad { line: place + 1, kind };
        match line_of(line).map_err(bad)? {
            None => {}
            Some(Line::Turn(next)) => {
                client = next;
                lists.resize_with(lists.len().max(client), Vec::new);
            }
            Some(Line::Command(_)) if commands == MOST_COMMANDS => return Err(bad("too many lines")),
            Some(Line::Command(call)) => {
                commands += 1;
                lists[client - 1].push(call);
            }
        }
    }
    Ok(lists)
}

/// What a line is, where there is something in it.
fn line_of(line: &[u8]) -> Result<Option<Line>, &'static str> {
    let line = line.strip_suffix(b"\r").unwrap_or(line);
    match line.iter().find(|byte| !matches!(byte, b' ' | b'\t')) {
        None | Some(b'#') => return Ok(None),
        Some(_) => {}
    }
    if line.iter().filter(|byte| !matches!(byte, b'\t' | 32..=126)).count() > 0 {
        return Err("bad byte");
    }
    let text = std::str::from_utf8(line).map_err(|_| "bad byte")?;
    let mut words = text.split([' ', '\t']).filter(|word| !word.is_empty());
    let keyword = words.next().unwrap_or("");
    line_of_words(keyword, words).map(Some)
}

fn line_of_words<'a>(keyword: &str, mut words: impl Iterator<Item = &'a str>) -> Result<Line, &'static str> {
    if !matches!(keyword, "client" | "put" | "get" | "remove" | "ceil" | "floor") {
        return Err("unknown word");
    }
    let key = words.next().ok_or("word count")?;
    let value = if keyword == "put" { words.next().ok_or("word count")? } else { "0" };
    if words.next().is_some() {
        return Err("word count");
    }
    let (key, value) = (number(key)?, number(value)?);
    Ok(match keyword {
        "client" if key == 0 => return Err("bad number"),
        "client" if key > MOST_CLIENTS => return Err("too many clients"),
        "client" => Line::Turn(key as usize),
        "put" => Line::Command(Call::Put(key, value)),
        "get" => Line::Command(Call::Get(key)),
        "remove" => Line::Command(Call::Remove(key)),
        "ceil" => Line::Command(Call::Ceil(key)),
        _ => Line::Command(Call::Floor(key)),
    })
}

fn number(word: &str) -> Result<u64, &'static str> {
    match word.parse() {
        Ok(number) if number <= GREATEST && !word.starts_with('+') => Ok(number),
        _ => Err("bad number"),
    }
}

//! A plain Rust program that writes the script which `pathmap_make` writes for the same words, by `BufWriter` and
//! `write!`.
use std::io::{self, BufWriter, Write};

struct Generator(u64);

impl Generator {
    fn draw(&mut self) -> u64 {
        self.0 = (self.0 * 1_103_515_245 + 12_345) % (1 << 31);
        self.0 / 65_536
    }
}

fn main() -> io::Result<()> {
    let words: Vec<u64> = std::env::args().skip(1).map(|word| word.parse().unwrap()).collect();
    let [seed, clients, commands] = words[..] else {
        panic!("SEED CLIENTS COMMANDS");
    };
    let mut out = BufWriter::new(io::stdout().lock());
    for client in 1..=clients {
        writeln!(out, "client {client}")?;
        let mut generator = Generator((seed + client) % (1 << 31));
        for _ in 0..commands {
            let kind = generator.draw() % 8;
            let key = generator.draw() % 1_000;
            match kind {
                0..=2 => writeln!(out, "put {key} {}", generator.draw())?,
                3 | 4 => writeln!(out, "get {key}")?,
                5 => writeln!(out, "remove {key}")?,
                6 => writeln!(out, "ceil {key}")?,
                _ => writeln!(out, "floor {key}")?,
            }
        }
    }
    out.flush()
}

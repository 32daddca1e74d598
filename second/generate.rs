//! Seeded random run files.
//!
//!     generate FIRST COUNT DIR           writes DIR/SEED.run for COUNT seeds from FIRST on
//!     generate FIRST COUNT --stream      writes them to standard output, each preceded by its length in four bytes, low byte first
//!
//! A seed settles its file. Each file has one of seven characters in turn: mixed calls; storms (the newest message first, so that much is undone);
//! ties (three times only); full queues; the end of time; a calm run; and damaged bytes. Calls are chosen on the plain rendering's state, so that
//! most of them mean something, and some are made to be refused.
mod engine;
mod file;
use engine::Engine;
use file::{read_call, read_head};
use std::io::Write as _;

struct Dice(u64);

impl Dice {
    /// A number below n.
    fn below(&mut self, n: u32) -> u32 {
        self.0 ^= self.0 << 13;
        self.0 ^= self.0 >> 7;
        self.0 ^= self.0 << 17;
        ((self.0 >> 33) % u64::from(n)) as u32
    }

    fn one_in(&mut self, n: u32) -> bool {
        self.below(n) == 0
    }
}

fn put(out: &mut Vec<u8>, mut n: u32) {
    while n >= 128 {
        out.push((n % 128 + 128) as u8);
        n /= 128;
    }
    out.push(n as u8);
}

fn number(d: &mut Dice) -> u32 {
    match d.below(4) {
        0 => 0,
        1 => d.below(10),
        2 => d.below(300),
        _ => u32::MAX - d.below(5),
    }
}

#[derive(Clone, Copy, PartialEq)]
enum Character {
    Mixed,
    Storm,
    Ties,
    Full,
    End,
    Calm,
    Damaged,
}

fn model(d: &mut Dice, c: Character) -> Vec<u8> {
    let mut out = Vec::new();
    let processes = 1 + d.below(if c == Character::Full { 3 } else { 8 });
    put(&mut out, processes);
    for _ in 0..processes {
        let modes = 1 + d.below(3);
        put(&mut out, d.below(modes));
        put(&mut out, number(d));
        let rules: Vec<(u32, u32)> =
            (0..modes).flat_map(|m| (0..4).map(move |k| (m, k))).filter(|_| !d.one_in(5)).collect();
        put(&mut out, rules.len() as u32);
        for (mode, kind) in rules {
            put(&mut out, mode);
            put(&mut out, kind);
            put(&mut out, d.below(modes));
            let effect = d.below(4);
            put(&mut out, effect);
            if effect == 1 || effect == 2 {
                put(&mut out, number(d));
            }
            let sends = if c == Character::Full { 2 } else { d.below(3) };
            put(&mut out, sends);
            for _ in 0..sends {
                put(&mut out, d.below(processes));
                let delay = if d.one_in(12) { 65_535 } else { 1 + d.below(6) };
                put(&mut out, delay);
                put(&mut out, d.below(4));
                let value = d.below(3);
                put(&mut out, value);
                if value == 0 {
                    put(&mut out, number(d));
                }
            }
        }
    }
    out
}

fn time(d: &mut Dice, c: Character, horizon: u32) -> u32 {
    match c {
        Character::Ties => 5 + 5 * d.below(3),
        Character::End => u32::MAX - d.below(14),
        _ if d.one_in(25) => d.below(3),
        _ => horizon.saturating_add(1 + d.below(40)),
    }
}

fn calls(d: &mut Dice, c: Character, engine: &mut Engine, out: &mut Vec<u8>) {
    let processes = engine.processes();
    let count = if c == Character::Full { 400 } else { 20 + d.below(160) };
    let requests = 2 + d.below(10);
    for i in 0..count {
        let start = out.len();
        let waiting = engine.transit.len() as u32;
        let roll = d.below(100);
        let inject = if c == Character::Calm { i < requests } else { waiting == 0 || roll < if c == Character::Full { 40 } else { 12 } };
        if inject {
            put(out, 0);
            let off = if d.one_in(20) { d.below(3) } else { 1 };
            put(out, (engine.next + off).saturating_sub(1));
            put(out, if d.one_in(40) { processes } else { d.below(processes) });
            let t = time(d, c, engine.horizon);
            put(out, t);
            put(out, if d.one_in(40) { 8 } else { d.below(4) });
            put(out, number(d));
        } else if c == Character::Calm && waiting > 0 {
            put(out, 1);
            put(out, 0);
        } else if c == Character::Calm && engine.earliest().is_some() {
            put(out, 2);
            put(out, engine.earliest().unwrap_or(0));
        } else if roll < 55 {
            put(out, 1);
            let newest = waiting.saturating_sub(1 + d.below(3));
            put(out, if c == Character::Storm { newest } else { d.below(waiting + 1) });
        } else if roll < 90 {
            put(out, 2);
            put(out, if d.one_in(30) { processes } else { d.below(processes) });
        } else {
            put(out, 3);
            let soon = engine.horizon.saturating_add(d.below(20));
            let low = d.below(engine.horizon.max(1));
            put(out, if d.one_in(3) { u32::MAX } else if d.one_in(6) { low } else { soon });
        }
        let (call, _) = read_call(out, start).expect("a call");
        engine.call(call);
    }
    put(out, 3);
    put(out, if c == Character::End { u32::MAX } else { engine.horizon.saturating_add(1000) });
}

fn damage(d: &mut Dice, out: &mut Vec<u8>) {
    for _ in 0..1 + d.below(3) {
        let at = d.below(out.len() as u32) as usize;
        match d.below(4) {
            0 => out[at] = d.below(256) as u8,
            1 => out.truncate(at + 1),
            2 => out.insert(at, d.below(256) as u8),
            _ => drop(out.remove(at)),
        }
        if out.is_empty() {
            return;
        }
    }
}

fn run(seed: u64) -> Vec<u8> {
    let mut d = Dice(seed.wrapping_mul(0x9E37_79B9_7F4A_7C15) | 1);
    for _ in 0..8 {
        d.below(2);
    }
    let c = [
        Character::Mixed,
        Character::Storm,
        Character::Ties,
        Character::Full,
        Character::End,
        Character::Calm,
        Character::Damaged,
    ][(seed % 7) as usize];
    let bytes = model(&mut d, c);
    let mut out = Vec::new();
    put(&mut out, bytes.len() as u32);
    out.extend(bytes);
    let (model, _) = read_head(&out).expect("a lawful model");
    calls(&mut d, c, &mut Engine::start(model), &mut out);
    if c == Character::Damaged {
        damage(&mut d, &mut out);
    }
    out
}

fn main() {
    let args: Vec<String> = std::env::args().collect();
    let [_, first, count, to] = &args[..] else { panic!("generate FIRST COUNT DIR, or --stream in place of DIR") };
    let first: u64 = first.parse().expect("a number");
    let count: u64 = count.parse().expect("a number");
    if to == "--stream" {
        let mut out = std::io::BufWriter::new(std::io::stdout());
        for file in (first..first + count).map(run) {
            out.write_all(&(file.len() as u32).to_le_bytes()).expect("standard output");
            out.write_all(&file).expect("standard output");
        }
        return;
    }
    std::fs::create_dir_all(to).expect("a folder");
    for seed in first..first + count {
        std::fs::write(format!("{to}/{seed}.run"), run(seed)).expect("a run file");
    }
}

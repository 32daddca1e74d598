//! The signaller's story of rehearsals/pressed-once.rehearsal, played by a host in Rust: one press, a late message that undoes what came of it, and
//! in the committed record one release.
mod knotmeadow;

use knotmeadow::{read_entry, Memory, NEVER};

// kinds of message
const LIFT: u8 = 0;
const PRESS: u8 = 1;
const RELEASE: u8 = 2;
// processes
const HANDSET: u8 = 0;
const FRAME: u8 = 1;
const DESK: u8 = 2;
// modes of the handset
const DOWN: u8 = 0;
const LIFTED: u8 = 1;
// effects on the tally, and the value of a send
const KEEP: u8 = 0;
const ADD: u8 = 2;
const FIXED: u8 = 0;

/// The model in house numbers, one byte each here. A rule: mode, kind, next mode, effect, how many sends. A send: receiver, delay, kind, value.
#[rustfmt::skip]
const MODEL: &[u8] = &[
    3,
    // the handset tells the frame of a press
    DOWN, 0, 3,
    DOWN, LIFT, LIFTED, KEEP, 0,
    DOWN, PRESS, DOWN, ADD, 1, 1, FRAME, 3, RELEASE, FIXED, 0,
    LIFTED, PRESS, LIFTED, ADD, 1, 1, FRAME, 3, RELEASE, FIXED, 0,
    // the frame tells the desk
    0, 0, 1,
    0, RELEASE, 0, ADD, 1, 1, DESK, 2, RELEASE, FIXED, 0,
    // the desk counts releases
    0, 0, 1,
    0, RELEASE, 0, ADD, 1, 0,
];

struct Host {
    memory: Box<Memory>,
    /// of the committed record
    last_time: u32,
}

/// A call's line: its name and first argument, and its values, or the number that refuses it.
fn print_call<const N: usize>(name: &str, argument: u32, answer: Result<[u32; N], u32>) {
    match answer {
        Ok(values) => println!("{name} {argument} ok{}", values.map(|value| format!(" {value}")).concat()),
        Err(number) => println!("{name} {argument} refused {number}"),
    }
}

impl Host {
    fn inject(&mut self, number: u32, receiver: u8, time: u32, kind: u8, value: u32) {
        let answer = self.memory.inject(number, receiver.into(), time, kind.into(), value);
        print_call("inject", number, answer.map(|()| []));
    }

    fn deliver(&mut self, place: u32) {
        print_call("deliver", place, self.memory.deliver(place));
    }

    fn execute(&mut self, process: u8) {
        print_call("execute", process.into(), self.memory.execute(process.into()));
    }

    fn advance(&mut self, ceiling: u32) {
        let mut buffer = [0; 4096];
        let answer = self.memory.advance(ceiling, &mut buffer);
        print_call("advance", ceiling, answer.map(|[horizon, entries, _]| [horizon, entries]));
        if let Ok([_, _, bytes]) = answer {
            self.print_events(&buffer[..bytes as usize]);
        }
    }

    /// Reads back the entries that an advance wrote.
    fn print_events(&mut self, record: &[u8]) {
        let mut at = 0;
        while at < record.len() {
            let Ok((entry, next)) = read_entry(record, at, self.last_time) else { return };
            let [time, process, read, mode, tally] = entry;
            println!("event {time} {process} {read} {mode} {tally}");
            (self.last_time, at) = (time, next);
        }
    }
}

fn main() {
    let mut host = Host { memory: Memory::new(), last_time: 0 };
    match host.memory.read_model(MODEL) {
        Ok(processes) => println!("model ok {processes}"),
        Err(fault) => return println!("model refused {} at {}", fault.number, fault.at),
    }
    host.memory.start().expect("a model that was read is accepted");

    host.inject(0, HANDSET, 10, PRESS, 0); // the one press
    host.deliver(0);
    host.execute(HANDSET);
    host.deliver(0);
    host.execute(FRAME);
    host.deliver(0);
    host.execute(DESK); // one release

    host.inject(1, HANDSET, 5, LIFT, 0); // late: the handset is at 10
    host.deliver(0); // it is rolled back, then the frame, then the desk
    host.deliver(0);
    host.deliver(0);

    host.execute(HANDSET);
    host.execute(HANDSET); // the same press, now with the handset lifted
    host.deliver(0);
    host.execute(FRAME);
    host.deliver(0);
    host.execute(DESK);

    host.advance(NEVER); // one press, one release
}

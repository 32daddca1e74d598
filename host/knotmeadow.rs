//! The rehearsal engine for hosts in Rust: what `knotmeadow.h` is for C. The functions are those of the crate knotmeadow, whose contracts are proved.
//! All that is unsafe stands here. A pointer and its length come from one array or slice, and what is written is borrowed by `&mut`, so what the
//! contracts cannot see is seen to by Rust.
//!
//! An `Err` has document 01's number; a fault in bytes has its place too. A refusal changes nothing.
#![allow(dead_code)] // a host need not call everything

/// The time that stands for "never".
pub const NEVER: u32 = u32::MAX;

type Rules = [[u32; 16]; 65];
type Queue = [[u32; 8]; 64];
type Message = [u32; 8];
type Own = [[u32; 8]; 33];

#[rustfmt::skip]
extern "C" {
    fn knotmeadow_read_model(bytes: *const u8, length: usize, model: *mut Rules, models: usize, processes: *mut u32, place: *mut usize) -> u32;
    fn knotmeadow_start(model: *const Rules, models: usize, inputs: *const Queue, inputs_length: usize, outputs: *const Queue, outputs_length: usize,
        transit: *const Message, transit_length: usize, own: *mut Own, own_length: usize) -> u32;
    fn knotmeadow_inject(model: *const Rules, models: usize, inputs: *const Queue, inputs_length: usize, outputs: *const Queue, outputs_length: usize,
        transit: *mut Message, transit_length: usize, own: *mut Own, own_length: usize,
        number: u32, receiver: u32, time: u32, kind: u32, value: u32) -> u32;
    fn knotmeadow_deliver(model: *const Rules, models: usize, inputs: *mut Queue, inputs_length: usize, outputs: *const Queue, outputs_length: usize,
        transit: *mut Message, transit_length: usize, own: *mut Own, own_length: usize, place: u32, values: *mut [u32; 3]) -> u32;
    fn knotmeadow_execute(model: *const Rules, models: usize, inputs: *const Queue, inputs_length: usize, outputs: *mut Queue, outputs_length: usize,
        transit: *mut Message, transit_length: usize, own: *mut Own, own_length: usize, process: u32, values: *mut [u32; 3]) -> u32;
    fn knotmeadow_advance(model: *const Rules, models: usize, inputs: *mut Queue, inputs_length: usize, outputs: *mut Queue, outputs_length: usize,
        transit: *const Message, transit_length: usize, own: *mut Own, own_length: usize,
        ceiling: u32, buffer: *mut u8, buffer_length: usize, values: *mut [u32; 3]) -> u32;
    fn knotmeadow_run(bytes: *const u8, length: usize, model: *const Rules, models: usize, inputs: *mut Queue, inputs_length: usize,
        outputs: *mut Queue, outputs_length: usize, transit: *mut Message, transit_length: usize, own: *mut Own, own_length: usize,
        answers: *mut [u32; 4], answers_length: usize, committed: *mut u8, committed_length: usize, counts: *mut [usize; 3]) -> u32;
    fn knotmeadow_read_entry(bytes: *const u8, length: usize, at: usize, former: u32, entry: *mut [u32; 5], place: *mut usize) -> u32;
    fn knotmeadow_step(model: *const Rules, models: usize, process: u32, kind: u32, value: u32, mode: *mut u32, tally: *mut u32) -> u32;
}

/// A refusal of bytes: its number, and the place of the number at fault.
pub struct Fault {
    pub number: u32,
    pub at: usize,
}

/// What a run did: calls made, the place of the next one, bytes of the record.
pub struct Ran {
    pub calls: usize,
    pub next: usize,
    pub recorded: usize,
}

/// A model and a state.
#[derive(Clone)]
pub struct Memory {
    model: [Rules; 8],
    inputs: [Queue; 8],
    outputs: [Queue; 8],
    transit: [Message; 128],
    own: [Own; 9],
}

fn answered<T>(number: u32, answer: T) -> Result<T, u32> {
    if number == 0 { Ok(answer) } else { Err(number) }
}

/// Calls a function on the five lists of a memory, each with its length.
macro_rules! on_lists {
    ($function:ident, $memory:expr $(, $argument:expr)*) => {
        on_lists!($function after (), $memory $(, $argument)*)
    };
    ($function:ident after ($($first:expr),*), $memory:expr $(, $argument:expr)*) => {
        unsafe {
            $function(
                $($first,)*
                $memory.model.as_mut_ptr(), $memory.model.len(),
                $memory.inputs.as_mut_ptr(), $memory.inputs.len(),
                $memory.outputs.as_mut_ptr(), $memory.outputs.len(),
                $memory.transit.as_mut_ptr(), $memory.transit.len(),
                $memory.own.as_mut_ptr(), $memory.own.len()
                $(, $argument)*
            )
        }
    };
}

impl Memory {
    /// Memory without a model: every call is refused until one is read.
    pub fn new() -> Box<Memory> {
        Box::new(Memory {
            model: [[[0; 16]; 65]; 8],
            inputs: [[[0; 8]; 64]; 8],
            outputs: [[[0; 8]; 64]; 8],
            transit: [[0; 8]; 128],
            own: [[[0; 8]; 33]; 9],
        })
    }

    /// Reads a model; its process count is the answer. Then comes `start`.
    pub fn read_model(&mut self, bytes: &[u8]) -> Result<u32, Fault> {
        let (mut processes, mut at) = (0, 0);
        let number = unsafe {
            knotmeadow_read_model(bytes.as_ptr(), bytes.len(), self.model.as_mut_ptr(), self.model.len(), &mut processes, &mut at)
        };
        answered(number, processes).map_err(|number| Fault { number, at })
    }

    /// A new state for the model.
    pub fn start(&mut self) -> Result<(), u32> {
        answered(on_lists!(knotmeadow_start, self), ())
    }

    pub fn inject(&mut self, number: u32, receiver: u32, time: u32, kind: u32, value: u32) -> Result<(), u32> {
        answered(on_lists!(knotmeadow_inject, self, number, receiver, time, kind, value), ())
    }

    /// Events undone, antimessages sent.
    pub fn deliver(&mut self, place: u32) -> Result<[u32; 2], u32> {
        let mut values = [0; 3];
        let number = on_lists!(knotmeadow_deliver, self, place, &mut values);
        answered(number, [values[0], values[1]])
    }

    /// Time, messages read, messages sent.
    pub fn execute(&mut self, process: u32) -> Result<[u32; 3], u32> {
        let mut values = [0; 3];
        let number = on_lists!(knotmeadow_execute, self, process, &mut values);
        answered(number, values)
    }

    /// Horizon, entries, bytes. The entries stand at the start of the buffer.
    pub fn advance(&mut self, ceiling: u32, buffer: &mut [u8]) -> Result<[u32; 3], u32> {
        let mut values = [0; 3];
        let number = on_lists!(knotmeadow_advance, self, ceiling, buffer.as_mut_ptr(), buffer.len(), &mut values);
        answered(number, values)
    }

    /// A start, and then the calls that stand in `bytes` in house numbers: a row for each answer (its number, then three values), and the record at the
    /// start of `committed`. It stops at the end of `bytes`, before a call that cannot be read, and where no row or fewer than 4,096 bytes of room
    /// are left.
    pub fn run(&mut self, bytes: &[u8], answers: &mut [[u32; 4]], committed: &mut [u8]) -> Result<Ran, u32> {
        let mut counts = [0; 3];
        let number = on_lists!(
            knotmeadow_run after (bytes.as_ptr(), bytes.len()), self,
            answers.as_mut_ptr(), answers.len(), committed.as_mut_ptr(), committed.len(), &mut counts
        );
        let [calls, next, recorded] = counts;
        answered(number, Ran { calls, next, recorded })
    }

    /// Steps the mode and tally of a process of the host's own list by one message, where they stand. The state is not asked and not changed.
    pub fn step(&self, process: u32, kind: u32, value: u32, mode: &mut u32, tally: &mut u32) -> Result<(), u32> {
        let number = unsafe { knotmeadow_step(self.model.as_ptr(), self.model.len(), process, kind, value, mode, tally) };
        answered(number, ())
    }
}

/// The entry of the committed record at a place, after one of time `former` (0 at first): time, process, messages read, mode, tally; and the place of
/// the next entry.
pub fn read_entry(bytes: &[u8], at: usize, former: u32) -> Result<([u32; 5], usize), Fault> {
    let (mut entry, mut place) = ([0; 5], 0);
    let number = unsafe { knotmeadow_read_entry(bytes.as_ptr(), bytes.len(), at, former, &mut entry, &mut place) };
    answered(number, (entry, place)).map_err(|number| Fault { number, at: place })
}

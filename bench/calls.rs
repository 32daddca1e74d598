//! The calls of a rehearsal, chosen by driving a plain engine, and encoded in house numbers.
//!
//! Calm, as change request No. 8 says: all requests are injected (in portions where they are too many for transit: the next one when nothing earlier
//! is left to do); then always place 0 is delivered if anything is in transit, otherwise the process with the lowest unread time is executed, the
//! lowest number on a tie. After every few executions the horizon is advanced. Late, in two readings: see `Lateness`.
use crate::engine::Engine;
use crate::file::{read_model, Call};
use crate::plain::{write_number, NEVER};
use crate::workloads::Workload;

#[derive(Clone, Copy, PartialEq)]
pub enum Lateness {
    Calm,
    /// One delivery in ten is put off: three later deliveries are made first. Where nothing else is in transit, the rehearsal executes on.
    PutOff,
    /// One delivery in ten rolls back: it is made when its receiver has executed an event at its time or later.
    RollingBack,
}

/// Deliveries that a message is put off by.
const PUT_OFF_BY: usize = 3;
/// Messages that may be held back at once; of those for one event at most one.
const HELD: usize = 32;

#[derive(Default)]
pub struct Chosen {
    pub bytes: Vec<u8>,
    pub calls: usize,
    pub executions: usize,
    pub deliveries: usize,
    /// Deliveries that were put off, or that rolled back after they were held.
    pub late: usize,
    pub undone: usize,
}

/// A message that is held back: its place in transit, and the deliveries made when it was passed over.
struct Held {
    place: usize,
    since: usize,
}

struct Chooser<'a> {
    workload: &'a Workload,
    lateness: Lateness,
    engine: Engine,
    /// Requests that were injected.
    injected: usize,
    /// Messages at the front of transit that lie there.
    lying: usize,
    held: Vec<Held>,
    /// The times of the events that each process has executed.
    times: Vec<Vec<u32>>,
    chosen: Chosen,
}

pub fn choose(workload: &Workload, lateness: Lateness) -> Chosen {
    let model = read_model(&workload.model).expect("a lawful model");
    let times = vec![Vec::new(); model.len()];
    let engine = Engine::start(model);
    let mut chooser = Chooser { workload, lateness, engine, injected: 0, lying: 0, held: Vec::new(), times, chosen: Chosen::default() };
    while chooser.step() {}
    chooser.advance();
    chooser.chosen
}

impl Chooser<'_> {
    /// Chooses one call, or several that belong together; false where nothing is left to do.
    fn step(&mut self) -> bool {
        if self.portion_is_next() {
            self.inject();
        } else if let Some(i) = self.ripe() {
            self.deliver_held(i);
        } else if let Some(place) = self.first_free() {
            self.deliver_or_hold(place);
        } else if let Some(process) = self.engine.earliest() {
            self.execute(process);
        } else if !self.held.is_empty() {
            self.deliver_held(0);
        } else if self.lying > 0 {
            self.lying = 0;
        } else {
            return false;
        }
        true
    }

    /// Makes a call and puts it down; its values, or none where it is refused for room.
    fn make(&mut self, call: Call) -> Option<Vec<usize>> {
        let answer = self.engine.call(call);
        if answer == "refused 7" {
            return None;
        }
        let line = answer.lines().next().unwrap_or("");
        let values = line.strip_prefix("ok").unwrap_or_else(|| panic!("{call:?} {line}"));
        self.chosen.calls += 1;
        encode(&mut self.chosen.bytes, call);
        Some(values.split_whitespace().map(|v| v.parse().expect("a number")).collect())
    }

    /// The time of the first request that is not yet injected.
    fn next_request(&self) -> Option<u32> {
        self.workload.requests.get(self.injected).map(|r| r.time)
    }

    /// Whether nothing but what is kept back is in transit, and nothing is unread before the next request.
    fn portion_is_next(&self) -> bool {
        let Some(next) = self.next_request() else { return false };
        if self.first_free().is_some() {
            return false;
        }
        let Some(process) = self.engine.earliest() else { return true };
        let answer = self.engine.clone().call(Call::Execute(process));
        let unread = answer.split(' ').nth(1).and_then(|t| t.parse::<u32>().ok()).expect("a time");
        next <= unread
    }

    fn inject(&mut self) {
        let part = &self.workload.requests[self.injected..];
        let part: Vec<_> = part.iter().take(self.workload.portion).collect();
        self.injected += part.len();
        self.lying = self.workload.lying;
        for r in part {
            let call = Call::Inject { number: r.number, receiver: r.receiver.into(), time: r.time, kind: r.kind.into(), value: r.value };
            self.make(call).expect("room for a request");
        }
    }

    fn advance(&mut self) {
        self.make(Call::Advance(self.next_request().unwrap_or(NEVER))).expect("an advance needs no room");
    }

    fn execute(&mut self, process: u32) {
        let Some(values) = self.make_with_room(Call::Execute(process)) else { return };
        self.times[process as usize].push(values[0] as u32);
        self.chosen.executions += 1;
        if self.chosen.executions % self.workload.cadence == 0 {
            self.advance();
        }
    }

    /// Where a call is refused for room, the horizon is advanced and it is tried again; if that does not help, what is held back is delivered.
    fn make_with_room(&mut self, call: Call) -> Option<Vec<usize>> {
        if let Some(values) = self.make(call) {
            return Some(values);
        }
        self.advance();
        let again = self.make(call);
        if again.is_none() {
            assert!(!self.held.is_empty(), "no room for {call:?}");
            self.deliver_held(0);
        }
        again
    }

    /// The first place in transit that is not kept back.
    fn first_free(&self) -> Option<usize> {
        (self.lying..self.engine.transit.len()).find(|place| self.held.iter().all(|h| h.place != *place))
    }

    fn deliver(&mut self, place: usize) -> Option<usize> {
        let receiver = self.engine.transit[place].0.receiver as usize;
        let undone = self.make_with_room(Call::Deliver(place as u32))?[0];
        let times = &mut self.times[receiver];
        times.truncate(times.len() - undone);
        for h in &mut self.held {
            h.place -= usize::from(h.place > place);
        }
        self.chosen.deliveries += 1;
        self.chosen.undone += undone;
        assert!(undone == 0 || self.lateness != Lateness::Calm, "a calm rehearsal is calm");
        Some(undone)
    }

    fn deliver_or_hold(&mut self, place: usize) {
        if self.may_hold(place) {
            self.held.push(Held { place, since: self.chosen.deliveries });
        } else {
            self.deliver(place);
        }
    }

    /// Whether a delivery is to be late here: where they are fewer than a tenth, and not for an antimessage.
    fn may_hold(&self, place: usize) -> bool {
        let (message, positive) = self.engine.transit[place];
        let due = (self.chosen.late + self.held.len() + 1) * 10 <= self.chosen.deliveries;
        let event_of = |place: usize| (self.engine.transit[place].0.receiver, self.engine.transit[place].0.received);
        let alone = self.held.iter().all(|h| event_of(h.place) != (message.receiver, message.received));
        self.lateness != Lateness::Calm && due && positive && alone && self.held.len() < HELD
    }

    /// A message whose time to be late has come.
    fn ripe(&self) -> Option<usize> {
        self.held.iter().position(|h| match self.lateness {
            Lateness::Calm => false,
            Lateness::PutOff => self.chosen.deliveries - h.since >= PUT_OFF_BY,
            Lateness::RollingBack => {
                let message = self.engine.transit[h.place].0;
                self.times[message.receiver as usize].last().is_some_and(|&time| message.received <= time)
            }
        })
    }

    fn deliver_held(&mut self, i: usize) {
        let held = self.held.remove(i);
        let Some(undone) = self.deliver(held.place) else { return };
        let is_late = match self.lateness {
            Lateness::RollingBack => undone > 0,
            _ => self.chosen.deliveries - held.since > PUT_OFF_BY,
        };
        self.chosen.late += usize::from(is_late);
    }
}

/// A call in house numbers.
fn encode(bytes: &mut Vec<u8>, call: Call) {
    let mut put = |n: u32| {
        let mut room = [0; 5];
        let end = write_number(&mut room, 0, n);
        bytes.extend_from_slice(&room[..end]);
    };
    match call {
        Call::Inject { number, receiver, time, kind, value } => [0, number, receiver, time, kind, value].map(&mut put).len(),
        Call::Deliver(place) => [1, place].map(&mut put).len(),
        Call::Execute(process) => [2, process].map(&mut put).len(),
        Call::Advance(ceiling) => [3, ceiling].map(&mut put).len(),
    };
}

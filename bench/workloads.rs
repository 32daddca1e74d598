//! Models and requests that are rehearsed, each of about as many events as is asked for.
use crate::plain::{read_model, rehearse, write_model, Behaviour, Effect, Model, Request, Ring, Rule, Send, Simulator, Value, LAST, PENDING_MAX};

pub struct Workload {
    pub name: String,
    pub about: String,
    pub model: Vec<u8>,
    pub requests: Vec<Request>,
    /// Requests that are taken at once.
    pub portion: usize,
    /// The first requests, of the last usable time, that lie in transit until nothing else is left to do.
    pub lying: usize,
    /// Executions between two advances of the engine.
    pub cadence: usize,
}

fn send(receiver: u8, delay: u16, kind: u8, value: Value) -> Send {
    Send { receiver, delay, kind, value }
}

fn rule(mode: u8, kind: u8, next: u8, effect: Effect, sends: &[Send]) -> Rule {
    let none = send(0, 1, 0, Value::Read);
    let at = |i: usize| sends.get(i).copied().unwrap_or(none);
    Rule { mode, kind, next, effect, send_count: sends.len() as u8, sends: [at(0), at(1)] }
}

fn model_of(rules: Vec<Vec<Rule>>) -> Vec<u8> {
    let processes = rules.into_iter().map(|rules| Behaviour { mode: 0, tally: 0, rules }).collect();
    write_model(&Model { processes })
}

/// Messages that keep begetting others would run for ever, so these requests start late enough that
/// the run meets the last usable time, and rests, just after `events` events.
fn ending_after(events: usize, model: &[u8], at: impl Fn(u32) -> Vec<Request>) -> Vec<Request> {
    let parsed = read_model(model).expect("a lawful model");
    let mut out = vec![0; 1 << 22];
    let mut enough = |span: u32| {
        let run: Simulator<Ring> = rehearse(&parsed, &at(LAST - span), PENDING_MAX, &mut out).expect("room");
        run.events >= events
    };
    let mut high = 2048;
    while !enough(high) {
        high *= 2;
    }
    let mut low = high / 2;
    while low < high {
        let span = low + (high - low) / 2;
        if enough(span) { high = span } else { low = span + 1 }
    }
    at(LAST - low)
}

/// Requests (time, receiver, kind, value) numbered as they stand.
fn in_turn(list: Vec<(u32, u8, u8, u32)>) -> Vec<Request> {
    let request = |(i, &(time, receiver, kind, value)): (usize, &(u32, u8, u8, u32))| Request { number: i as u32, receiver, time, kind, value };
    list.iter().enumerate().map(request).collect()
}

/// The same by time.
fn numbered(mut list: Vec<(u32, u8, u8, u32)>) -> Vec<Request> {
    list.sort_by_key(|r| r.0);
    in_turn(list)
}

/// A crowd with long, uneven delays that goes round the processes, one send to a rule; and messages that lie in transit all the while.
fn crowd(events: usize, processes: u8, live: u32, lying: u32) -> Workload {
    let model = model_of((0..processes).map(|p| {
        (0..8u8).map(|mode| {
            let delay = 900 + 97 * (u16::from(p) * 5 % 8) + 41 * (u16::from(mode) * 3 % 8);
            rule(mode, 0, (mode + 1) % 8, Effect::Add(u32::from(p)), &[send((p + 1) % processes, delay, 0, Value::Tally)])
        }).collect()
    }).collect());
    let receiver = |i: u32| (i % u32::from(processes)) as u8;
    let moving = |t: u32| (0..live).map(move |i| (t + i * 7919 % 1000, receiver(i), 0, i)).collect::<Vec<_>>();
    let requests = ending_after(events, &model, |t| {
        let mut all: Vec<_> = (0..lying).map(|i| (LAST, receiver(i), 0, i)).collect();
        let mut moving = moving(t);
        moving.sort_by_key(|r| r.0);
        all.extend(moving);
        in_turn(all)
    });
    let portion = if live > 128 { 100 } else { 128 };
    let name = if processes == 8 { format!("crowd{live}") } else { format!("crowd{live}of{processes}") };
    let about = format!("live messages: {live}, lying in transit: {lying}, processes: {processes}");
    Workload { name, about, model, requests, portion, lying: lying as usize, cadence: 16 }
}

pub fn workloads(events: usize) -> Vec<Workload> {
    // 01's own example: a press goes from handset to frame to desk, and ends there.
    let desk: Vec<u8> = vec![
        0x03, 0x00, 0x00, 0x01, 0x00, 0x01, 0x00, 0x02, 0x01, 0x01, 0x01, 0x03, 0x02, 0x01, 0x00, 0x00, 0x01, 0x00,
        0x02, 0x00, 0x03, 0x01, 0x02, 0x02, 0x03, 0x02, 0x00, 0x00, 0x01, 0x00, 0x03, 0x00, 0x02, 0x01, 0x00,
    ];
    // A press each 7 units, in portions: 3 events to a press.
    let desk = Workload {
        name: "desk".into(), about: "01's model; a press each 7 units, 3 events each; open".into(), portion: 32, lying: 0, cadence: 16,
        requests: numbered((0..events.div_ceil(3) as u32).map(|i| (10 + 7 * i, 0, 1, 0)).collect()),
        model: desk,
    };
    // Four messages that go round three processes, one send to a rule, two modes.
    let ring = model_of((0..3u8).map(|p| {
        let to = (p + 1) % 3;
        (0..2u8).map(|mode| {
            rule(mode, 1, 1 - mode, Effect::Add(1), &[send(to, 3 + 2 * u16::from(p) + u16::from(mode), 1, Value::Tally)])
        }).collect()
    }).collect());
    let ring = Workload {
        name: "ring3".into(), about: "4 messages round 3 processes; 1 message an event".into(), portion: 128, lying: 0, cadence: 16,
        requests: ending_after(events, &ring, |t| numbered(vec![(t, 0, 1, 1), (t + 1, 0, 1, 2), (t + 1, 1, 1, 3), (t + 3, 2, 1, 4)])),
        model: ring,
    };
    // Eight processes; a kind 0 sends on a kind 0 and a kind 1; a kind 1 only counts.
    let mesh_model = model_of((0..8u8).map(|p| {
        let mut rules = Vec::new();
        for mode in 0..4u8 {
            let far = (p + 1 + 2 * mode) % 8;
            let near = (p + 3 + mode) % 8;
            let wait = 11 + 13 * (u16::from(p) * 7 % 8) + 5 * u16::from(mode);
            rules.push(rule(mode, 0, (mode + 1) % 4, Effect::AddRead, &[
                send(far, wait, 0, Value::Tally), send(near, wait / 2 + 1, 1, Value::Fixed(u32::from(p)))]));
            rules.push(rule(mode, 1, mode, Effect::Add(3), &[]));
        }
        rules
    }).collect());
    let mesh = Workload {
        name: "mesh8".into(), about: "8 processes, 2 sends a rule, 16 live messages".into(), portion: 128, lying: 0, cadence: 12,
        requests: ending_after(events, &mesh_model, |t| {
            numbered((0..16u32).map(|i| (t + i * i % 23, (i % 8) as u8, 0, i)).collect())
        }),
        model: mesh_model,
    };
    // 24 messages, all at one instant at one process, go round together.
    let burst = model_of((0..4u8).map(|p| {
        vec![rule(0, 2, 0, Effect::AddRead, &[send((p + 1) % 4, 10, 2, Value::Read)])]
    }).collect());
    let burst = Workload {
        name: "burst24".into(), about: "24 messages at one instant, round 4 processes".into(), portion: 128, lying: 0, cadence: 4,
        requests: ending_after(events, &burst, |t| numbered((0..24).map(|i| (t, 0, 2, i)).collect())),
        model: burst,
    };
    vec![desk, ring, mesh, burst, crowd(events, 8, 200, 0), crowd(events, 1, 24, 0)]
}

/// The cost by live messages, by messages that lie in transit, and by processes.
pub fn growing(events: usize) -> Vec<Workload> {
    let live = [8, 32, 120].map(|live| crowd(events, 8, live, 0));
    let lying = [8, 32, 120].map(|lying| crowd(events, 8, 8, lying));
    let processes = [1, 3, 8].map(|processes| crowd(events, processes, 24, 0));
    live.into_iter().chain(lying).chain(processes).collect()
}

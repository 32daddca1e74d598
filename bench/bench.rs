//! Times rehearsals of 10,000 events: the plain simulator, and the engine on calls that were chosen and encoded beforehand.
//!
//!     bench [RUNS [WORKLOAD]]
//!
//! Each run reads the model's bytes and works the whole rehearsal; all take turns in one process. Printed are the medians of the runs in
//! nanoseconds for each event of the record, and the median of the runs' ratios. The records must have the same bytes.
mod calls;
#[path = "../second/engine.rs"]
mod engine;
#[path = "../second/file.rs"]
mod file;
#[path = "../host/knotmeadow.rs"]
mod knotmeadow;
mod plain;
mod workloads;

use calls::{choose, Chosen, Lateness};
use knotmeadow::Memory;
use plain::{read_model, rehearse, Fixed, LatestFirst, Pending, Ring, Simulator};
use workloads::{growing, workloads, Workload};

/// The events of a rehearsal.
const EVENTS: usize = 10_000;
/// Runs of a workload before it is another one's turn: what slows the machine for a while then slows a few runs of each.
const TURN: usize = 5;
/// The room that a run wants for an advance.
const ADVANCE_ROOM: usize = 4096;

extern "C" {
    fn clock_gettime(clock: i32, time: *mut [i64; 2]) -> i32;
}

/// Linux's clock of the processor time that a thread has had.
const THREAD_TIME: i32 = 3;

/// The processor time that this thread has had, in nanoseconds: other work on the machine does not count.
fn clock() -> f64 {
    let mut time = [0; 2];
    let failed = unsafe { clock_gettime(THREAD_TIME, &mut time) };
    assert_eq!(failed, 0, "a clock of processor time");
    time[0] as f64 * 1e9 + time[1] as f64
}

fn median(times: &[f64]) -> f64 {
    let mut times = times.to_vec();
    times.sort_by(f64::total_cmp);
    times[times.len() / 2]
}

/// One run of the plain simulator: nanoseconds, events, and bytes of the record.
fn time_plain<P: Pending>(w: &Workload, record: &mut [u8]) -> (f64, usize, usize) {
    let began = clock();
    let model = read_model(&w.model).expect("a lawful model");
    let run: Simulator<P> = rehearse(&model, &w.requests, w.portion, record).expect("no refusal");
    (clock() - began, run.events, run.written)
}

/// A workload with its calls, what a run is lent, and the times of the runs.
struct Case {
    workload: Workload,
    chosen: Chosen,
    memory: Box<Memory>,
    answers: Vec<[u32; 4]>,
    committed: Vec<u8>,
    events: usize,
    plain: [Vec<f64>; 3],
    engine: Vec<f64>,
}

impl Case {
    fn new(workload: Workload, lateness: Lateness, record: &mut [u8]) -> Case {
        let chosen = choose(&workload, lateness);
        let (_, events, length) = time_plain::<Ring>(&workload, record);
        let (memory, answers, committed) = (Memory::new(), vec![[0; 4]; chosen.calls], vec![0; length + ADVANCE_ROOM]);
        Case { workload, chosen, memory, answers, committed, events, plain: Default::default(), engine: Vec::new() }
    }

    /// One run of each, and the two records compared.
    fn run(&mut self, record: &mut [u8]) {
        self.plain[0].push(time_plain::<LatestFirst>(&self.workload, record).0);
        self.plain[1].push(time_plain::<Ring>(&self.workload, record).0);
        let (took, _, length) = time_plain::<Fixed>(&self.workload, record);
        self.plain[2].push(took);
        let recorded = self.run_engine();
        assert!(self.committed[..recorded] == record[..length], "{}: the records differ", self.workload.name);
        assert!(self.answers.iter().all(|row| row[0] == 0), "{}: a call is refused", self.workload.name);
    }

    /// One run of the engine: bytes of the record.
    fn run_engine(&mut self) -> usize {
        let began = clock();
        if self.memory.read_model(&self.workload.model).is_err() {
            panic!("{}: an unlawful model", self.workload.name);
        }
        let ran = self.memory.run(&self.chosen.bytes, &mut self.answers, &mut self.committed).expect("a start");
        self.engine.push(clock() - began);
        assert_eq!((ran.calls, ran.next), (self.chosen.calls, self.chosen.bytes.len()), "every call is made");
        ran.recorded
    }

    /// The medians, the plain simulator's with its fastest list; and the median of the runs' ratios.
    fn print(&self) {
        let [first, others @ ..] = &self.plain;
        let fastest = others.iter().fold(first, |best, list| if median(list) < median(best) { list } else { best });
        let ratios: Vec<f64> = self.engine.iter().zip(fastest).map(|(engine, plain)| engine / plain).collect();
        let (w, chosen, events) = (&self.workload, &self.chosen, self.events as f64);
        let late = 100.0 * chosen.late as f64 / chosen.deliveries as f64;
        println!(
            "{:<10} {events:>6} {:>6} {:>6} {late:>5.1} {:>6} | {:>6.1} {:>7.1} {:>6.2}  {}",
            w.name, chosen.calls, chosen.deliveries, chosen.undone, median(fastest) / events, median(&self.engine) / events, median(&ratios), w.about
        );
    }
}

fn main() {
    let runs: usize = std::env::args().nth(1).map_or(50, |a| a.parse().expect("a number of runs"));
    let only = std::env::args().nth(2);
    let asked = |w: &Workload| only.as_ref().is_none_or(|name| *name == w.name);
    let mut record = vec![0; 1 << 20];
    let mut tables = [
        ("calm, as No. 8", Lateness::Calm, workloads(EVENTS)),
        ("a tenth of the deliveries late: put off", Lateness::PutOff, workloads(EVENTS)),
        ("a tenth of the deliveries late: rolling back", Lateness::RollingBack, workloads(EVENTS)),
        ("growth, calm: live messages, messages that lie in transit, processes", Lateness::Calm, growing(EVENTS)),
    ]
    .map(|(title, lateness, list)| {
        let cases = list.into_iter().filter(asked).map(|w| Case::new(w, lateness, &mut record));
        (title, cases.collect::<Vec<Case>>())
    });
    for _ in 0..runs.div_ceil(TURN) {
        for case in tables.iter_mut().flat_map(|(_, cases)| cases) {
            (0..TURN).for_each(|_| case.run(&mut record));
        }
    }
    println!("nanoseconds for each event of the record, medians of {} runs", runs.next_multiple_of(TURN));
    for (title, cases) in tables.iter().filter(|(_, cases)| !cases.is_empty()) {
        println!("\n{title}");
        println!("workload   events  calls  deliv. late% undone |  plain  engine  ratio");
        cases.iter().for_each(Case::print);
    }
}

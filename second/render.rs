//! The plain rendering's program.
//!
//!     render < RUN              prints the program's lines
//!     render --state < RUN      prints the whole state as lists as well, after the model and after each call
//!     render --many [--state]   the same for a stream of run files (see generate); `rehearsal N` stands before each, from 0 on
mod engine;
mod file;
use engine::Engine;
use file::{read_call, read_head, read_stream, Call};
use std::fmt::Write as _;
use std::io::{BufWriter, Read as _, Write as _};

fn work(bytes: &[u8], with_state: bool) -> String {
    let (model, mut at) = match read_head(bytes) {
        Ok(head) => head,
        Err(line) => return line + "\n",
    };
    let mut text = format!("model ok {}\n", model.len());
    let mut engine = Engine::start(model);
    if with_state {
        text += &engine.state();
    }
    while at < bytes.len() {
        let (call, next) = match read_call(bytes, at) {
            Ok(read) => read,
            Err(f) => {
                writeln!(text, "call refused {} at {}", f.number, f.at).unwrap();
                if with_state {
                    text += &engine.state();
                }
                break;
            }
        };
        at = next;
        let (name, first) = match call {
            Call::Inject { number, .. } => ("inject", number),
            Call::Deliver(place) => ("deliver", place),
            Call::Execute(process) => ("execute", process),
            Call::Advance(ceiling) => ("advance", ceiling),
        };
        writeln!(text, "{name} {first} {}", engine.call(call)).unwrap();
        if with_state {
            text += &engine.state();
        }
    }
    text
}

fn main() {
    let has = |option: &str| std::env::args().any(|a| a == option);
    let mut bytes = Vec::new();
    std::io::stdin().read_to_end(&mut bytes).expect("standard input");
    let mut out = BufWriter::new(std::io::stdout());
    if !has("--many") {
        out.write_all(work(&bytes, has("--state")).as_bytes()).expect("standard output");
        return;
    }
    for (n, file) in read_stream(&bytes).iter().enumerate() {
        write!(out, "rehearsal {n}\n{}", work(file, has("--state"))).expect("standard output");
    }
}

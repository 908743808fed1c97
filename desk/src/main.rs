//! The engineer's command over the library: plans, states, models in words and in the other form, pictures. Nothing is
//! proved about it; whatever it says about a model, a value or an action comes from the library's calls.

mod arguments;
mod certificate;
mod fraction;
mod help;
mod importing;
mod lead;
mod library;
mod model;
mod picture;
mod progress;
mod prune;
mod refusals;
mod show;
mod solved;
#[cfg(test)]
mod spell;
mod state;
mod text;
mod verbs;
mod whole;
mod widths;
mod words;

use std::io::Write;
use std::process::ExitCode;

/// How a call ends that is not simply done.
pub enum Failure {
    /// A fault in the call, with the verb's help text.
    Usage(String),
    /// Something around the planner: files, memory.
    Around(String),
    /// Refused: the lines for standard error.
    Refused(String),
    /// Refused, the answer being on standard output already.
    Raw,
}

/// Walks go down diagrams node by node; a stack is only taken as far as it is used.
const STACK_BYTES: usize = 8192 * widths::NODES_MOST;

/// The verb, on a thread with that stack: what it printed, and how it ended.
fn run(given: Vec<String>) -> (Vec<u8>, Result<(), Failure>) {
    let job = move || {
        let mut out = Vec::new();
        let done = verbs::run(&given, &mut out);
        (out, done)
    };
    match std::thread::Builder::new().stack_size(STACK_BYTES).spawn(job) {
        Ok(thread) => thread.join().unwrap_or_else(|panic| std::panic::resume_unwind(panic)),
        Err(error) => (Vec::new(), Err(Failure::Around(format!("no thread with the stack that walks need: {error}")))),
    }
}

fn main() -> ExitCode {
    let (out, done) = run(std::env::args().skip(1).collect());
    // A reader that has seen enough, as `head`, is no fault.
    let _ = std::io::stdout().write_all(&out).and_then(|()| std::io::stdout().flush());
    let (words, status) = match done {
        Ok(()) => (String::new(), 0),
        Err(Failure::Raw) => (String::new(), 1),
        Err(Failure::Refused(words)) => (words, 1),
        Err(Failure::Around(words)) => (format!("plan: {words}\n"), 2),
        Err(Failure::Usage(words)) => (format!("plan: {words}\nSee './plan --help'.\n"), 2),
    };
    let _ = std::io::stderr().write_all(words.as_bytes());
    ExitCode::from(status)
}

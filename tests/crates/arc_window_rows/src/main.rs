//! Rows of windows: reads lines with their replies from standard input, makes the calls on windows
//! of each kind and layout that the rows name, and writes each row that is answered otherwise.
#![tactic(auto)]

use script::Script;
use std::alloc::Global;
use std::io;
use std::sync::Wait;

mod answer;
mod call;
mod calls;
mod kinds;
mod layouts;
mod letters;
mod run;
mod script;
mod window;
mod words;

/// Runs all rows of a file, and tells how many there are.
fn run_all<R: Wait + Print>(rt: &R, alloc: Global, text: &str) -> io::Result<()> {
    let mut script = Script::new(alloc);
    for (at, line) in text.lines().enumerate() {
        script.line(rt, alloc, at.saturating_add(1), line)?;
    }
    script.end_run(rt, alloc)?;
    println!(rt;
        "{} rows, {} answers as wanted, {} others",
        script.read, script.passed, script.failed
    )
}

fn main(rt: HostRuntime) -> io::Result<()> {
    let text = io::read_to_string(rt.alloc(), rt.reader())?;
    run_all(&rt, rt.alloc(), text.as_str())
}

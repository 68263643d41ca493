//! The stages of a command: how long each took, and progress on standard error while one runs.

use std::{
    io::{self, IsTerminal, Write},
    sync::mpsc::{self, Receiver, RecvTimeoutError},
    thread,
    time::{Duration, Instant},
};

#[derive(Default)]
pub struct Stages(Vec<(&'static str, Duration)>);

/// Prints how long a stage has run: every second on one line of a terminal, otherwise a line after 2, 4, 8, .. seconds.
fn report(what: &str, ended: &Receiver<()>) {
    let terminal = io::stderr().is_terminal();
    let begun = Instant::now();
    let (mut printed, mut next) = (false, if terminal { 1 } else { 2 });
    loop {
        let wait = Duration::from_secs(next).saturating_sub(begun.elapsed());
        if ended.recv_timeout(wait) != Err(RecvTimeoutError::Timeout) {
            break;
        }
        let mut err = io::stderr().lock();
        let _ = if terminal {
            write!(err, "\rgodf: {what}: {next} s ").and_then(|()| err.flush())
        } else {
            writeln!(err, "godf: {what}: {next} s")
        };
        printed = true;
        next = if terminal { next + 1 } else { 2 * next };
    }
    if terminal && printed {
        let _ = write!(io::stderr(), "\r\x1b[K");
    }
}

impl Stages {
    /// Runs a stage, or more of it; `what` is printed while it runs.
    pub fn run<T>(&mut self, name: &'static str, what: &str, stage: impl FnOnce() -> T) -> T {
        let begun = Instant::now();
        let answer = thread::scope(|scope| {
            let (end, ended) = mpsc::channel();
            // if no thread can be started, nothing is printed
            let reporter = thread::Builder::new().spawn_scoped(scope, move || report(what, &ended));
            let answer = stage();
            drop(end);
            drop(reporter);
            answer
        });
        let time = begun.elapsed();
        match self.0.iter_mut().find(|stage| stage.0 == name) {
            Some(stage) => stage.1 += time,
            None => self.0.push((name, time)),
        }
        answer
    }

    /// `reading 0.002 s, solving 1.251 s, ..`
    pub fn times(&self) -> String {
        let times: Vec<String> = self
            .0
            .iter()
            .map(|(name, time)| format!("{name} {:.3} s", time.as_secs_f64()))
            .collect();
        times.join(", ")
    }
}

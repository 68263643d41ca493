//! Tables of times. Ours and theirs run once each to warm up, then in turn, round by round. A row has the least time of each and their
//! ratio, and the least, median and most of the rounds' ratios. Behind the rows stand their ratios by kind.

use std::time::Instant;

pub fn seconds<T>(f: impl FnOnce() -> T) -> f64 {
    let now = Instant::now();
    std::hint::black_box(f());
    now.elapsed().as_secs_f64()
}

/// What a table's numbers count: a name, and its seconds.
pub type Unit = (&'static str, f64);

pub const MILLISECONDS: Unit = ("ms", 1e-3);
pub const MICROSECONDS: Unit = ("us", 1e-6);

/// The seconds of a run, and those of a run that leaves out what is timed. Their difference is the time.
#[derive(Clone, Copy)]
pub struct Run {
    pub whole: f64,
    pub rest: f64,
}

fn least(times: impl Iterator<Item = f64>) -> f64 {
    times.fold(f64::MAX, f64::min)
}

/// The least whole less the least rest. The least of the differences would be too small: it is that of the most disturbed rest.
fn least_time(runs: &[Run]) -> f64 {
    least(runs.iter().map(|r| r.whole)) - least(runs.iter().map(|r| r.rest))
}

/// The least, the median and the most.
fn spread(mut ratios: Vec<f64>) -> [f64; 3] {
    ratios.sort_by(f64::total_cmp);
    let last = ratios.len() - 1;
    let median = (ratios[last / 2] + ratios[last.div_ceil(2)]) / 2.0;
    [ratios[0], median, ratios[last]]
}

pub struct Table {
    rounds: usize,
    unit: f64,
    /// Of each row: its kind, and the ratio of its least times.
    ratios: Vec<(String, f64)>,
}

impl Table {
    pub fn new(title: &str, (unit, seconds): Unit, rounds: usize) -> Self {
        println!("\n{title}\n");
        println!("| floor | ours, {unit} | the Rust, {unit} | ratio | of rounds, least | median | most |");
        println!("|---|---|---|---|---|---|---|");
        Self {
            rounds,
            unit: seconds,
            ratios: vec![],
        }
    }

    /// A row. `ours` and `theirs` return the seconds of `calls` calls.
    pub fn row(
        &mut self,
        kind: &str,
        name: &str,
        calls: usize,
        mut ours: impl FnMut() -> f64,
        mut theirs: impl FnMut() -> f64,
    ) {
        let run = |whole: f64| Run { whole, rest: 0.0 };
        self.row_of_runs(kind, name, calls, || run(ours()), || run(theirs()));
    }

    /// A row whose times are differences.
    pub fn row_of_runs(
        &mut self,
        kind: &str,
        name: &str,
        calls: usize,
        mut ours: impl FnMut() -> Run,
        mut theirs: impl FnMut() -> Run,
    ) {
        // to warm up
        ours();
        theirs();
        let (o, t): (Vec<Run>, Vec<Run>) = (0..self.rounds).map(|_| (ours(), theirs())).unzip();
        let time = |r: &Run| r.whole - r.rest;
        let [low, median, high] = spread(o.iter().zip(&t).map(|(o, t)| time(o) / time(t)).collect());
        let (o, t) = (least_time(&o), least_time(&t));
        let unit = self.unit * calls as f64;
        println!(
            "| {kind}, {name} | {:.3} | {:.3} | {:.3} | {low:.3} | {median:.3} | {high:.3} |",
            o / unit,
            t / unit,
            o / t
        );
        self.ratios.push((kind.to_string(), o / t));
    }

    /// Prints the least, the most and the median of the rows' ratios, a line for each kind.
    pub fn end(self) {
        let mut kinds: Vec<&String> = self.ratios.iter().map(|r| &r.0).collect();
        kinds.dedup();
        println!();
        for kind in kinds {
            let ratios: Vec<f64> = self.ratios.iter().filter(|r| r.0 == *kind).map(|r| r.1).collect();
            let rows = ratios.len();
            let [low, median, high] = spread(ratios);
            println!("{kind}: ratio {low:.3} to {high:.3}, median {median:.3}, of {rows} rows");
        }
    }
}

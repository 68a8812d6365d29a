//! Both implementations timed on the same row, in batches that alternate.

use super::rows::{Bench, Row};
use super::sites::Case;
use crate::library::functions::{LIBRARY, PLAIN};
use std::time::{Duration, Instant};

/// Long against what the clock itself takes and can tell apart.
const SHORTEST_BATCH: Duration = Duration::from_micros(100);

/// The nanoseconds of one run of a row.
#[derive(Clone, Copy)]
pub struct Times {
    pub rattle: f64,
    pub rust: f64,
}

impl Times {
    pub fn map(self, change: impl Fn(f64) -> f64) -> Times {
        Times {
            rattle: change(self.rattle),
            rust: change(self.rust),
        }
    }

    pub fn ratio(self) -> f64 {
        self.rattle / self.rust
    }
}

const ROUNDS: usize = 401;

/// How many rounds go by from one batch of the row to its next: a long rehearsal has 5 batches, all else one in each round.
fn rounds_between(row: Row) -> usize {
    match row {
        Row::Rehearsal(slots) if slots > 1000 => ROUNDS / 4,
        _ => 1,
    }
}

/// One row on one site, with the times of all batches, Rattle's first.
struct Track<'a> {
    row: Row,
    pair: [Bench<'a>; 2],
    runs: u32,
    times: [Vec<Duration>; 2],
}

impl Track<'_> {
    fn new(row: Row, case: &Case) -> Result<Track<'_>, String> {
        let mut pair = [Bench::new(&LIBRARY, case), Bench::new(&PLAIN, case)];
        check_agreement(&mut pair, row)?;
        let runs = runs_in_a_batch(&mut pair, row);
        Ok(Track {
            row,
            pair,
            runs,
            times: [Vec::new(), Vec::new()],
        })
    }

    fn add_batch_of_each(&mut self) {
        for (bench, times) in self.pair.iter_mut().zip(&mut self.times) {
            times.push(time(bench, self.row, self.runs));
        }
    }

    fn medians(self) -> Times {
        let runs = f64::from(self.runs);
        let [rattle, rust] = self.times.map(|mut times| median(&mut times) / runs);
        Times { rattle, rust }
    }
}

/// Before anything is timed: the answers and all that is left in the buffers have to be the same.
fn check_agreement(pair: &mut [Bench; 2], row: Row) -> Result<(), String> {
    let runs = match row {
        Row::Rehearsal(_) => 1,
        _ => 100,
    };
    let [rattle, rust] = pair;
    rattle.prepare(row);
    rust.prepare(row);
    let answers = [rattle.run(row, runs), rust.run(row, runs)];
    if answers[0] != answers[1] || !rattle.left_the_same(rust) {
        return Err(format!("{row:?}: the two differ, {answers:?}"));
    }
    if answers[0].is_ok() != row.is_accepted() {
        return Err(format!("{row:?}: {:?} is not what is measured", answers[0]));
    }
    Ok(())
}

fn time(bench: &mut Bench, row: Row, runs: u32) -> Duration {
    bench.prepare(row);
    let start = Instant::now();
    let _ = bench.run(row, runs);
    start.elapsed()
}

/// So many runs that a batch of either is long enough.
fn runs_in_a_batch(pair: &mut [Bench; 2], row: Row) -> u32 {
    let mut runs = 1;
    loop {
        let times = pair.each_mut().map(|bench| time(bench, row, runs));
        if times.iter().all(|&time| time >= SHORTEST_BATCH) {
            return runs;
        }
        runs *= 2;
    }
}

fn median(times: &mut [Duration]) -> f64 {
    times.sort_unstable();
    times[times.len() / 2].as_nanos() as f64
}

/// Each row on its site. In every round each has a batch of either implementation, so that a change of the machine's speed meets all alike.
pub fn measure(rows: &[(Row, &Case)]) -> Result<Vec<Times>, String> {
    let tracks = rows.iter().map(|&(row, case)| Track::new(row, case));
    let mut tracks = tracks.collect::<Result<Vec<_>, _>>()?;
    for round in 0..ROUNDS {
        for track in &mut tracks {
            if round % rounds_between(track.row) == 0 {
                track.add_batch_of_each();
            }
        }
    }
    Ok(tracks.into_iter().map(Track::medians).collect())
}

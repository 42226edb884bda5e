//! Times of both sides, and the table.

use std::hint::black_box;
use std::time::Instant;

/// Nanoseconds: ours, and the rival's.
pub type Pair = [f64; 2];

/// Of many batches.
#[derive(Clone, Copy)]
pub struct Times {
    least: Pair,
    median: Pair,
}

impl Times {
    /// Without a part that was measured alone.
    pub fn less(self, part: Times) -> Times {
        let less = |whole: Pair, part: Pair| [whole[0] - part[0], whole[1] - part[1]];
        Times { least: less(self.least, part.least), median: less(self.median, part.median) }
    }
}

/// Does the same with each, one after the other, so that nothing of it can be left out or done ahead.
pub fn each<T, R>(items: &[T], mut f: impl FnMut(&T) -> R) {
    for item in items {
        black_box(f(black_box(item)));
    }
}

/// The time of a call on each side, where other work on the machine meets both: it only adds time, and the least has least of it.
pub fn measured(batches: usize, calls: usize, sides: [&mut dyn FnMut(); 2]) -> Times {
    let [times] = in_turn(batches, calls, [sides]);
    times
}

/// The times of several things, done in turn by short batches on both sides, so that none of them has the processor's memory of
/// jumps for itself.
pub fn in_turn<const N: usize>(batches: usize, calls: usize, mut things: [[&mut dyn FnMut(); 2]; N]) -> [Times; N] {
    let mut times = [(); N].map(|()| [Vec::with_capacity(batches), Vec::with_capacity(batches)]);
    for _ in 0..batches {
        for (sides, times) in things.iter_mut().zip(&mut times) {
            for (side, times) in sides.iter_mut().zip(times) {
                let start = Instant::now();
                for _ in 0..calls {
                    side();
                }
                times.push(start.elapsed().as_nanos() as f64 / calls as f64);
            }
        }
    }
    times.map(of_batches)
}

fn of_batches(mut sides: [Vec<f64>; 2]) -> Times {
    for times in &mut sides {
        times.sort_by(f64::total_cmp);
    }
    let [ours, theirs] = sides;
    let middle = ours.len() / 2;
    Times { least: [ours[0], theirs[0]], median: [ours[middle], theirs[middle]] }
}

pub fn header(unit: &str) {
    println!("\n{unit:<49} {:>14} {:>9} {:>9} {:>6} {:>7}", "", "ours", "rival", "ratio", "median");
}

/// What each side takes for one of so many units, least of all batches; the ratio of these, and that of the medians.
pub fn row(what: &str, unit: &str, units: f64, times: Times) {
    let ratio = |[ours, theirs]: Pair| ours / theirs;
    let [ours, theirs] = times.least;
    println!(
        "{what:<49} {unit:>14} {:>9.2} {:>9.2} {:>6.2} {:>7.2}",
        ours / units,
        theirs / units,
        ratio(times.least),
        ratio(times.median)
    );
}

//! Least times of several things, taken in turns.

use std::time::{Duration, Instant};

/// How long all turns together take, about.
const ENOUGH: Duration = Duration::from_millis(250);
/// How many turns there are at least, and at most.
const TURNS: (usize, usize) = (20, 400);

/// The least time that each of some runs took, in nanoseconds; `run` is handed a run's index.
/// The runs take turns, so that what else the machine does falls on all of them.
pub fn least_times<const RUNS: usize>(mut run: impl FnMut(usize)) -> [f64; RUNS] {
    let mut least = [f64::INFINITY; RUNS];
    let begin = Instant::now();
    for turn in 0..TURNS.1 {
        if turn >= TURNS.0 && begin.elapsed() > ENOUGH {
            break;
        }
        for (index, least) in least.iter_mut().enumerate() {
            let begin = Instant::now();
            run(index);
            *least = least.min(begin.elapsed().as_nanos() as f64);
        }
    }
    least
}

/// The geometric mean; none of no numbers.
pub fn mean(ratios: &[f64]) -> Option<f64> {
    let sum: f64 = ratios.iter().map(|ratio| ratio.ln()).sum();
    (!ratios.is_empty()).then(|| (sum / ratios.len() as f64).exp())
}

/// A number for a table's cell; a dash where there is none.
pub fn cell(number: Option<f64>) -> String {
    match number {
        Some(number) if number < 10.0 => format!("{number:.2}"),
        Some(number) => format!("{number:.0}"),
        None => "–".to_string(),
    }
}

#[cfg(test)]
mod tests {
    use super::*;

    #[test]
    fn means_and_cells() {
        assert_eq!(mean(&[]), None);
        assert_eq!(cell(mean(&[2.0, 8.0])), "4.00");
        assert_eq!(cell(Some(123.4)), "123");
        assert_eq!(cell(None), "–");
    }

    #[test]
    fn every_run_is_timed() {
        let mut runs = [0, 0];
        let times: [f64; 2] = least_times(|index| runs[index] += 1);
        assert!(times.iter().all(|time| time.is_finite()));
        assert!(runs[0] >= TURNS.0 && runs[0] == runs[1]);
    }
}

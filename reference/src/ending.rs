//! Every plan ends: the run of steps without limits.
//!
//! ```
//! use reference::ending::{whole_run, Budget, WholeRun};
//! use reference::tables::trial_tables;
//!
//! let (tables, plan) = (trial_tables(), [1, 2, 66]);
//! let whole = WholeRun {
//!     steps: 4,
//!     longest: 11,
//!     end: vec![1, 2, 65, 2, 1, 65, 64, 3, 64],
//! };
//! let budget = |steps, words| Budget { steps, words };
//! assert_eq!(whole_run(&tables, &plan, budget(4, 11)), Some(whole));
//! assert_eq!(whole_run(&tables, &plan, budget(3, 11)), None);
//! assert_eq!(whole_run(&tables, &plan, budget(4, 10)), None);
//! ```
//!
//! There is neither allowance nor list nor area here, and a plan may be longer than 16,384 words.

use crate::laws::{apply, next_step};

/// A run of steps up to its end.
#[derive(Clone, Debug, PartialEq, Eq)]
pub struct WholeRun {
    /// How many steps it makes.
    pub steps: usize,
    /// The words of its longest plan, the given one and the last one among them.
    pub longest: usize,
    /// The plan that it comes to: no law of the unfolding fits there.
    pub end: Vec<u8>,
}

/// How far a run is followed: many are too long to be gone through.
#[derive(Clone, Copy, Debug)]
pub struct Budget {
    /// The most steps.
    pub steps: usize,
    /// The most words of a plan.
    pub words: usize,
}

/// "For every accepted plan and tables, the run of steps without limits comes after some number of
/// steps to a basic plan." (Request 109.) None where the budget is passed before. Tables and plan
/// are accepted ones.
pub fn whole_run(tables: &[u8], plan: &[u8], budget: Budget) -> Option<WholeRun> {
    let mut run = WholeRun {
        steps: 0,
        longest: plan.len(),
        end: plan.to_vec(),
    };
    while run.longest <= budget.words {
        match next_plan(tables, &run.end) {
            None => return Some(run),
            Some(_) if run.steps == budget.steps => return None,
            Some(next) => {
                run = WholeRun {
                    steps: run.steps + 1,
                    longest: run.longest.max(next.len()),
                    end: next,
                }
            }
        }
    }
    None
}

/// The plan after one step, which "takes the least place at which one of laws 5 to 32 fits, and the
/// lowest such law"; none where no such law fits. Tables and plan are accepted ones.
pub fn next_plan(tables: &[u8], plan: &[u8]) -> Option<Vec<u8>> {
    let (law, place) = next_step(tables, plan)?;
    Some(apply(tables, plan, law, place).expect("the law fits"))
}

//! What is compared: implementations of the calls.

use crate::answers::Answer;
use reference::{
    checking, forms, own, plans, precedence, runs, stations, tables, texts, unfolding, walks,
};

/// One call, with what is handed to it in the order of its parameters. It may change what is
/// mutable alone.
#[derive(Debug)]
pub enum Call<'c> {
    /// Judges tables.
    JudgeTables(&'c [u8]),
    /// Judges tables, then a plan.
    JudgePlan(&'c [u8], &'c [u8]),
    /// Whether a plan is basic, 1 or 0: tables, plan.
    IsBasic(&'c [u8], &'c [u8]),
    /// Counts a plan's paths: tables, plan; answers orders and stuck paths.
    CountOrders(&'c [u8], &'c [u8]),
    /// Unfolds: tables, plan, allowance, list, areas A and B; answers steps and size.
    Unfold(
        &'c [u8],
        &'c [u8],
        u32,
        &'c mut [u8],
        &'c mut [u8],
        &'c mut [u8],
    ),
    /// Unfolds, then checks the unfolding's own rewriting: tables, plan, allowance, list, areas A
    /// and B, two areas for the check; answers what both calls do.
    UnfoldChecked(
        &'c [u8],
        &'c [u8],
        u32,
        &'c mut [u8],
        [&'c mut [u8]; 2],
        [&'c mut [u8]; 2],
    ),
    /// Copies the plan reached into an area: areas A and B, steps, size, the area; answers the
    /// plan's size.
    Reached(&'c [u8], &'c [u8], usize, usize, &'c mut [u8]),
    /// Checks a rewriting: tables, start plan, claimed plan, rewriting, areas A and B; answers
    /// steps and size.
    CheckRewriting(
        &'c [u8],
        &'c [u8],
        &'c [u8],
        &'c [u8],
        &'c mut [u8],
        &'c mut [u8],
    ),
    /// Reads a station file: file, tables area, plan area; answers the plan's size.
    ReadStation(&'c [u8], &'c mut [u8], &'c mut [u8]),
    /// Writes a station file: tables, plan, file area; answers the file's size.
    WriteStation(&'c [u8], &'c [u8], &'c mut [u8]),
    /// Lists a station file in an area; answers the listing's size.
    ListStation(&'c [u8], &'c mut [u8]),
    /// Reads a plan typed in signs: tables, text, plan area; answers the plan's size.
    ReadText(&'c [u8], &'c [u8], &'c mut [u8]),
    /// Begins a walk: tables, plan, marks, the number of the finish.
    FreshWalk(&'c [u8], &'c [u8], &'c mut [u8], &'c mut usize),
    /// Brings a message to a walk: tables, plan, marks, message, the number of the finish.
    Walk(&'c [u8], &'c [u8], &'c mut [u8], u8, &'c mut usize),
    /// Whether one action precedes another: tables, plan, first and second action; answers 1 for
    /// yes and 0 for no, and the place under no.
    Precedes(&'c [u8], &'c [u8], u8, u8),
    /// Brings a plan to its fixed form: tables, plan, form area; answers the form's size.
    FixForm(&'c [u8], &'c [u8], &'c mut [u8]),
}

/// Whatever answers all calls. One that has only some of them hands the others on to another one.
pub trait Implementation {
    /// Makes a call.
    fn answer(&self, call: Call) -> Answer;
}

/// The second implementation, written for comparison.
#[derive(Clone, Copy, Debug)]
pub struct Reference;

impl Implementation for Reference {
    fn answer(&self, call: Call) -> Answer {
        match call {
            Call::JudgeTables(tables) => Answer::counted(tables::judge_tables(tables).map(|()| 0)),
            Call::JudgePlan(tables, plan) => {
                Answer::counted(plans::judge(tables, plan).map(|()| 0))
            }
            Call::IsBasic(tables, plan) => {
                Answer::counted(plans::judged_basic(tables, plan).map(usize::from))
            }
            Call::CountOrders(tables, plan) => Answer::paths(plans::judged_orders(tables, plan)),
            Call::Unfold(tables, plan, allowance, list, a, b) => {
                unfolding::unfold(tables, plan, allowance, list, a, b).into()
            }
            Call::UnfoldChecked(tables, plan, allowance, list, areas, check_areas) => {
                let (unfolded, own) =
                    own::unfold_checked(tables, plan, allowance, list, areas, check_areas);
                Answer::from(unfolded).with_own(own.map(Answer::from))
            }
            Call::Reached(a, b, steps, size, plan_area) => {
                let reached = runs::reached(a, b, steps, size);
                let fits = reached.len() <= plan_area.len();
                if fits {
                    runs::set(plan_area, reached);
                }
                Answer::handed(fits.then_some(reached.len()))
            }
            Call::CheckRewriting(tables, start, claimed, rewriting, a, b) => {
                checking::check_rewriting(tables, start, claimed, rewriting, a, b).into()
            }
            Call::ReadStation(file, tables_area, plan_area) => {
                Answer::counted(stations::read_station(file, tables_area, plan_area))
            }
            Call::WriteStation(tables, plan, file_area) => {
                Answer::counted(stations::write_station(tables, plan, file_area))
            }
            Call::ListStation(file, out) => Answer::handed(stations::list_station(file, out)),
            Call::ReadText(tables, text, plan_area) => {
                Answer::counted(texts::read_text(tables, text, plan_area))
            }
            Call::FreshWalk(tables, plan, marks, finish) => Answer::walked(finish, |finished| {
                walks::fresh_walk(tables, plan, marks, finished)
            }),
            Call::Walk(tables, plan, marks, message, finish) => {
                Answer::walked(finish, |finished| {
                    walks::walk(tables, plan, marks, message, finished)
                })
            }
            Call::Precedes(tables, plan, first, second) => {
                Answer::precedence(precedence::precedes(tables, plan, first, second))
            }
            Call::FixForm(tables, plan, area) => {
                Answer::counted(forms::fix_form(tables, plan, area))
            }
        }
    }
}

/// The proved library.
#[cfg(feature = "archive")]
#[derive(Clone, Copy, Debug)]
pub struct Proved;

#[cfg(feature = "archive")]
impl Implementation for Proved {
    fn answer(&self, call: Call) -> Answer {
        use aberulwy::raw;
        match call {
            Call::JudgeTables(tables) => raw::judge_tables(tables).into(),
            Call::JudgePlan(tables, plan) => raw::judge_plan(tables, plan).into(),
            Call::IsBasic(tables, plan) => raw::is_basic(tables, plan).into(),
            Call::CountOrders(tables, plan) => raw::count_orders(tables, plan).into(),
            Call::Unfold(tables, plan, allowance, list, a, b) => {
                raw::unfold(tables, plan, allowance, list, a, b).into()
            }
            Call::UnfoldChecked(tables, plan, allowance, list, areas, check_areas) => {
                raw::unfold_checked(tables, plan, allowance, list, areas, check_areas).into()
            }
            Call::Reached(a, b, steps, size, plan_area) => {
                raw::reached(a, b, steps, size, plan_area).into()
            }
            Call::CheckRewriting(tables, start, claimed, rewriting, a, b) => {
                raw::check_rewriting(tables, start, claimed, rewriting, a, b).into()
            }
            Call::ReadStation(file, tables_area, plan_area) => {
                raw::read_station(file, tables_area, plan_area).into()
            }
            Call::WriteStation(tables, plan, file_area) => {
                raw::write_station(tables, plan, file_area).into()
            }
            Call::ListStation(file, out) => raw::list_station(file, out).into(),
            Call::ReadText(tables, text, plan_area) => {
                raw::read_text(tables, text, plan_area).into()
            }
            Call::FreshWalk(tables, plan, marks, finish) => {
                raw::fresh_walk(tables, plan, marks, finish).into()
            }
            Call::Walk(tables, plan, marks, message, finish) => {
                raw::walk(tables, plan, marks, message, finish).into()
            }
            Call::Precedes(tables, plan, first, second) => {
                raw::precedes(tables, plan, first, second).into()
            }
            Call::FixForm(tables, plan, area) => raw::fix_form(tables, plan, area).into(),
        }
    }
}

//! What is measured: the proved library, where it is linked, and the plain version; beside them
//! the reference, which is compared, and measured where it is not too slow.

use crate::plain;
use reference::plans::{self, Counts};
use reference::precedence::{self, Precedence};
use reference::{checking, forms, stations, texts, unfolding, walks, Refusal};

/// How a call ended: number, steps, words of the plan reached or read. Of a walk, the last is 1
/// where a finish is reached, and else 0; of a question whether a plan is basic, 1 where it is. Of
/// a count, the last two are orders and stuck paths; of a question whether one action comes before
/// another, 1 for yes and 0 for no, and the place under no; of a fixed form, the last is its words,
/// and of a station file written, its bytes; of a judgement, both are 0.
pub type Ended = (u8, usize, usize);
/// Unfolds: tables, plan, allowance, list, areas A and B.
pub type Unfold = fn(&[u8], &[u8], u32, &mut [u8], &mut [u8], &mut [u8]) -> Ended;
/// Checks: tables, start plan, claimed plan, rewriting, areas A and B.
pub type Check = fn(&[u8], &[u8], &[u8], &[u8], &mut [u8], &mut [u8]) -> Ended;
/// Reads a text: tables, text, plan area. It makes no steps.
pub type Read = fn(&[u8], &[u8], &mut [u8]) -> Ended;
/// Begins a walk: tables, plan, marks. It makes no steps.
pub type Begin = fn(&[u8], &[u8], &mut [u8]) -> Ended;
/// Brings a message to a walk without a finish: tables, plan, marks, message. It makes no steps.
pub type Bring = fn(&[u8], &[u8], &mut [u8], u8) -> Ended;
/// Asks something of a plan: tables, plan. It makes no steps.
pub type Ask = fn(&[u8], &[u8]) -> Ended;
/// Asks whether one action comes before another: tables, plan, first and second action. It makes no
/// steps.
pub type AskOfTwo = fn(&[u8], &[u8], u8, u8) -> Ended;
/// Brings a plan to its fixed form: tables, plan, form area. It makes no steps.
pub type Fix = fn(&[u8], &[u8], &mut [u8]) -> Ended;
/// Writes a station file: tables, plan, file area. It makes no steps.
pub type WriteFile = fn(&[u8], &[u8], &mut [u8]) -> Ended;
/// Reads a station file: file, tables area, plan area. It makes no steps.
pub type ReadFile = fn(&[u8], &mut [u8], &mut [u8]) -> Ended;

/// An implementation to measure.
#[derive(Clone, Copy)]
pub struct Contender {
    /// Its unfolding.
    pub unfold: Unfold,
    /// Its checker.
    pub check_rewriting: Check,
    /// Its reader of texts.
    pub read_text: Read,
    /// Its beginning of a walk.
    pub fresh_walk: Begin,
    /// Its message to a walk.
    pub walk: Bring,
    /// Its judgement of tables and plan.
    pub judge_plan: Ask,
    /// Whether a plan is basic.
    pub is_basic: Ask,
    /// Its count of orders and stuck paths.
    pub count_orders: Ask,
    /// Whether one action comes before another.
    pub precedes: AskOfTwo,
    /// Its fixed forms.
    pub fix_form: Fix,
    /// Its writer of station files.
    pub write_station: WriteFile,
    /// Its reader of station files.
    pub read_station: ReadFile,
}

/// The unverified version in plain Rust.
pub const PLAIN: Contender = Contender {
    unfold: |tables, plan, allowance, list, a, b| {
        unfolded(plain::unfold(tables, plan, allowance, list, a, b))
    },
    check_rewriting: |tables, start, claimed, rewriting, a, b| {
        checked(plain::check_rewriting(
            tables, start, claimed, rewriting, a, b,
        ))
    },
    read_text: |tables, text, plan_area| read(plain::read_text(tables, text, plan_area)),
    fresh_walk: |tables, plan, marks| {
        walked(|finished| plain::fresh_walk(tables, plan, marks, finished))
    },
    walk: |tables, plan, marks, message| {
        walked(|finished| plain::walk(tables, plan, marks, message, finished))
    },
    judge_plan: |tables, plan| judged(plans::judge(tables, plan)),
    is_basic: |tables, plan| read(plain::is_basic(tables, plan).map(usize::from)),
    count_orders: |tables, plan| counted(plain::count_orders(tables, plan)),
    precedes: |tables, plan, first, second| preceded(plain::precedes(tables, plan, first, second)),
    fix_form: |tables, plan, area| read(plain::fix_form(tables, plan, area)),
    write_station: |tables, plan, area| read(plain::write_station(tables, plan, area)),
    read_station: |file, tables_area, plan_area| {
        read(plain::read_station(file, tables_area, plan_area))
    },
};

/// The second implementation, written for comparison.
pub const REFERENCE: Contender = Contender {
    unfold: |tables, plan, allowance, list, a, b| {
        unfolded(unfolding::unfold(tables, plan, allowance, list, a, b))
    },
    check_rewriting: |tables, start, claimed, rewriting, a, b| {
        checked(checking::check_rewriting(
            tables, start, claimed, rewriting, a, b,
        ))
    },
    read_text: |tables, text, plan_area| read(texts::read_text(tables, text, plan_area)),
    fresh_walk: |tables, plan, marks| {
        walked(|finished| walks::fresh_walk(tables, plan, marks, finished))
    },
    walk: |tables, plan, marks, message| {
        walked(|finished| walks::walk(tables, plan, marks, message, finished))
    },
    judge_plan: |tables, plan| judged(plans::judge(tables, plan)),
    is_basic: |tables, plan| read(plans::judged_basic(tables, plan).map(usize::from)),
    count_orders: |tables, plan| counted(plans::judged_orders(tables, plan)),
    precedes: |tables, plan, first, second| {
        preceded(precedence::precedes(tables, plan, first, second))
    },
    fix_form: |tables, plan, area| read(forms::fix_form(tables, plan, area)),
    write_station: |tables, plan, area| read(stations::write_station(tables, plan, area)),
    read_station: |file, tables_area, plan_area| {
        read(stations::read_station(file, tables_area, plan_area))
    },
};

fn unfolded(answer: unfolding::Answer) -> Ended {
    match answer {
        unfolding::Answer::Refused(refusal) => (refusal.number, 0, 0),
        unfolding::Answer::Ended {
            number,
            steps,
            size,
        } => (number, steps, size),
    }
}

fn checked(answer: checking::Answer) -> Ended {
    match answer {
        checking::Answer::Refused(refusal) => (refusal.number, 0, 0),
        checking::Answer::Accepted { steps, size } => (0, steps, size),
        checking::Answer::Back {
            number,
            steps,
            size,
        } => (number, steps, size),
    }
}

fn read(answer: Result<usize, Refusal>) -> Ended {
    match answer {
        Ok(size) => (0, 0, size),
        Err(refusal) => (refusal.number, 0, 0),
    }
}

fn judged(answer: Result<(), Refusal>) -> Ended {
    read(answer.map(|()| 0))
}

fn counted(answer: Result<Counts, Refusal>) -> Ended {
    match answer {
        Ok(Counts { orders, stuck }) => (0, orders, stuck),
        Err(refusal) => (refusal.number, 0, 0),
    }
}

fn preceded(answer: Result<Precedence, Refusal>) -> Ended {
    match answer {
        Ok(Precedence::Yes) => (0, 1, 0),
        Ok(Precedence::No { at }) => (0, 0, at),
        Err(refusal) => (refusal.number, 0, 0),
    }
}

fn walked(call: impl FnOnce(&mut bool) -> Result<(), Refusal>) -> Ended {
    let mut finished = false;
    let answer = call(&mut finished);
    read(answer.map(|()| usize::from(finished)))
}

/// The proved library; none where it is left out.
#[cfg(not(feature = "archive"))]
pub const PROVED: Option<Contender> = None;

/// The proved library; none where it is left out.
#[cfg(feature = "archive")]
pub const PROVED: Option<Contender> = Some(Contender {
    unfold: |tables, plan, allowance, list, a, b| {
        let ended = aberulwy::raw::unfold(tables, plan, allowance, list, a, b);
        (ended.number, ended.steps, ended.size)
    },
    check_rewriting: |tables, start, claimed, rewriting, a, b| {
        let ended = aberulwy::raw::check_rewriting(tables, start, claimed, rewriting, a, b);
        (ended.number, ended.steps, ended.size)
    },
    read_text: |tables, text, plan_area| {
        let read = aberulwy::raw::read_text(tables, text, plan_area);
        (read.number, 0, read.value)
    },
    fresh_walk: |tables, plan, marks| {
        let mut finished = 0;
        let answer = aberulwy::raw::fresh_walk(tables, plan, marks, &mut finished);
        (answer.number, 0, finished)
    },
    walk: |tables, plan, marks, message| {
        let mut finished = 0;
        let answer = aberulwy::raw::walk(tables, plan, marks, message, &mut finished);
        (answer.number, 0, finished)
    },
    judge_plan: |tables, plan| {
        let answer = aberulwy::raw::judge_plan(tables, plan);
        (answer.number, 0, 0)
    },
    is_basic: |tables, plan| {
        let answer = aberulwy::raw::is_basic(tables, plan);
        (answer.number, 0, answer.value)
    },
    count_orders: |tables, plan| {
        let paths = aberulwy::raw::count_orders(tables, plan);
        (paths.number, paths.orders, paths.stuck)
    },
    precedes: |tables, plan, first, second| {
        let answer = aberulwy::raw::precedes(tables, plan, first, second);
        (answer.number, answer.yes, answer.at)
    },
    fix_form: |tables, plan, area| {
        let fixed = aberulwy::raw::fix_form(tables, plan, area);
        (fixed.number, 0, fixed.value)
    },
    write_station: |tables, plan, area| {
        let written = aberulwy::raw::write_station(tables, plan, area);
        (written.number, 0, written.value)
    },
    read_station: |file, tables_area, plan_area| {
        let read = aberulwy::raw::read_station(file, tables_area, plan_area);
        (read.number, 0, read.value)
    },
});

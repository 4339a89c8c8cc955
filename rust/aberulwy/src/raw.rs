//! The exported calls with their answers as they come: a number, as `docs/NUMBERS.md` lists
//! them, and every number that the call sets. The crate's other functions are these with named
//! answers.
//!
//! All of the crate's unsafe code is here. Each call hands over slices that Rust has
//! borrowed, a slice as a pointer and a length, and numbers that Rust has borrowed or that
//! are the call's own. The archive's functions are proved for slices of every length, write
//! to the mutable ones and to these numbers alone, and keep no pointer; what one call may
//! write to never overlaps, since Rust lends it apart.

#![allow(unsafe_code)]

/// What a number holds before the call that is to set it; no call answers it.
const NOT_SET: usize = usize::MAX;

/// The answer of a call that only judges.
#[derive(Clone, Copy, Debug, PartialEq, Eq)]
pub struct Judged {
    /// 0, or the number of the refusal.
    pub number: u8,
    /// The printed place of the refusal; 0 where none is named.
    pub place: usize,
}

/// The answer of a call that computes one number.
#[derive(Clone, Copy, Debug, PartialEq, Eq)]
pub struct Counted {
    /// 0, or the number of the refusal.
    pub number: u8,
    /// What was asked for; 0 where refused.
    pub value: usize,
    /// The printed place of the refusal; 0 where none is named.
    pub place: usize,
}

/// The answer of a call that counts the paths of a plan.
#[derive(Clone, Copy, Debug, PartialEq, Eq)]
pub struct CountedPaths {
    /// 0, or the number of the refusal.
    pub number: u8,
    /// The paths that finish; 0 where refused.
    pub orders: usize,
    /// The paths into a dead stop; 0 where refused.
    pub stuck: usize,
    /// The printed place of the refusal; 0 where none is named.
    pub place: usize,
}

/// The answer of a call that asks whether one action precedes another.
#[derive(Clone, Copy, Debug, PartialEq, Eq)]
pub struct Preceded {
    /// 0, or the number of the refusal.
    pub number: u8,
    /// 1 where it is yes; 0 where it is no, and where refused.
    pub yes: usize,
    /// Under no, the least place of an appearance of the second action that has none of the first
    /// before it; 0 where it is yes, and where refused.
    pub at: usize,
    /// The printed place of the refusal; 0 where none is named.
    pub place: usize,
}

/// The answer of a call that makes steps.
#[derive(Clone, Copy, Debug, PartialEq, Eq)]
pub struct Ended {
    /// 0, or the number of the refusal or of the ending.
    pub number: u8,
    /// The steps made; 0 where refused.
    pub steps: usize,
    /// The words of the plan reached; 0 where refused.
    pub size: usize,
    /// The printed place of the refusal; 0 where none is named.
    pub place: usize,
}

/// The answer of an unfolding with the check of its own rewriting.
#[derive(Clone, Copy, Debug, PartialEq, Eq)]
pub struct EndedChecked {
    /// What the unfolding answers.
    pub unfolded: Ended,
    /// 1 where the check was made, and 0 where the unfolding was refused.
    pub checked: usize,
    /// The number of the check's answer; 0 where none was made.
    pub own_number: usize,
    /// The steps that the check made; 0 where none was made.
    pub own_steps: usize,
    /// The words of the plan that the check reached; 0 where none was made.
    pub own_size: usize,
    /// The printed place of the check's refusal; 0 where none is named.
    pub own_place: usize,
}

/// The answer of a call that hands bytes over in an area.
#[derive(Clone, Copy, Debug, PartialEq, Eq)]
pub struct Handed {
    /// 0, or 1 where the area is too short.
    pub number: u8,
    /// How many bytes were handed over; 0 where the area is too short.
    pub size: usize,
}

/// The archive's functions.
mod archive {
    extern "C" {
        pub fn aberulwy_judge_tables(tables: *const u8, tables_len: usize, place: *mut usize)
            -> u8;

        pub fn aberulwy_judge_plan(
            tables: *const u8,
            tables_len: usize,
            plan: *const u8,
            plan_len: usize,
            place: *mut usize,
        ) -> u8;

        pub fn aberulwy_is_basic(
            tables: *const u8,
            tables_len: usize,
            plan: *const u8,
            plan_len: usize,
            basic: *mut usize,
            place: *mut usize,
        ) -> u8;

        pub fn aberulwy_count_orders(
            tables: *const u8,
            tables_len: usize,
            plan: *const u8,
            plan_len: usize,
            orders: *mut usize,
            stuck: *mut usize,
            place: *mut usize,
        ) -> u8;

        pub fn aberulwy_unfold(
            tables: *const u8,
            tables_len: usize,
            plan: *const u8,
            plan_len: usize,
            allowance: u32,
            list: *mut u8,
            list_len: usize,
            a: *mut u8,
            a_len: usize,
            b: *mut u8,
            b_len: usize,
            steps: *mut usize,
            size: *mut usize,
            place: *mut usize,
        ) -> u8;

        pub fn aberulwy_unfold_checked(
            tables: *const u8,
            tables_len: usize,
            plan: *const u8,
            plan_len: usize,
            allowance: u32,
            list: *mut u8,
            list_len: usize,
            a: *mut u8,
            a_len: usize,
            b: *mut u8,
            b_len: usize,
            c: *mut u8,
            c_len: usize,
            d: *mut u8,
            d_len: usize,
            steps: *mut usize,
            size: *mut usize,
            place: *mut usize,
            checked: *mut usize,
            own_number: *mut usize,
            own_steps: *mut usize,
            own_size: *mut usize,
            own_place: *mut usize,
        ) -> u8;

        pub fn aberulwy_reached(
            a: *const u8,
            a_len: usize,
            b: *const u8,
            b_len: usize,
            steps: usize,
            size: usize,
            plan_area: *mut u8,
            plan_area_len: usize,
            copied: *mut usize,
        ) -> u8;

        pub fn aberulwy_list_station(
            file: *const u8,
            file_len: usize,
            out: *mut u8,
            out_len: usize,
            size: *mut usize,
        ) -> u8;

        pub fn aberulwy_check_rewriting(
            tables: *const u8,
            tables_len: usize,
            start: *const u8,
            start_len: usize,
            claimed: *const u8,
            claimed_len: usize,
            rewriting: *const u8,
            rewriting_len: usize,
            a: *mut u8,
            a_len: usize,
            b: *mut u8,
            b_len: usize,
            steps: *mut usize,
            size: *mut usize,
            place: *mut usize,
        ) -> u8;

        pub fn aberulwy_read_station(
            file: *const u8,
            file_len: usize,
            tables_area: *mut u8,
            tables_area_len: usize,
            plan_area: *mut u8,
            plan_area_len: usize,
            size: *mut usize,
            place: *mut usize,
        ) -> u8;

        pub fn aberulwy_write_station(
            tables: *const u8,
            tables_len: usize,
            plan: *const u8,
            plan_len: usize,
            file: *mut u8,
            file_len: usize,
            size: *mut usize,
            place: *mut usize,
        ) -> u8;

        pub fn aberulwy_read_text(
            tables: *const u8,
            tables_len: usize,
            text: *const u8,
            text_len: usize,
            plan: *mut u8,
            plan_len: usize,
            size: *mut usize,
            place: *mut usize,
        ) -> u8;

        pub fn aberulwy_fresh_walk(
            tables: *const u8,
            tables_len: usize,
            plan: *const u8,
            plan_len: usize,
            marks: *mut u8,
            marks_len: usize,
            finished: *mut usize,
            place: *mut usize,
        ) -> u8;

        pub fn aberulwy_walk(
            tables: *const u8,
            tables_len: usize,
            plan: *const u8,
            plan_len: usize,
            marks: *mut u8,
            marks_len: usize,
            message: u8,
            finished: *mut usize,
            place: *mut usize,
        ) -> u8;

        pub fn aberulwy_precedes(
            tables: *const u8,
            tables_len: usize,
            plan: *const u8,
            plan_len: usize,
            first: u8,
            second: u8,
            yes: *mut usize,
            at: *mut usize,
            place: *mut usize,
        ) -> u8;

        pub fn aberulwy_fix_form(
            tables: *const u8,
            tables_len: usize,
            plan: *const u8,
            plan_len: usize,
            area: *mut u8,
            area_len: usize,
            size: *mut usize,
            place: *mut usize,
        ) -> u8;
    }
}

/// Judges tables: 0, or 1 to 8.
///
/// ```
/// use aberulwy::raw::{judge_tables, Judged};
///
/// let mut tables = aberulwy::examples::trial_tables();
/// assert_eq!(judge_tables(&tables), Judged { number: 0, place: 0 });
/// // 1|2 is not 2|1.
/// tables[66] = 0;
/// assert_eq!(judge_tables(&tables), Judged { number: 5, place: 35 });
/// ```
pub fn judge_tables(tables: &[u8]) -> Judged {
    let mut place = NOT_SET;
    // SAFETY: see the head of this file.
    let number =
        unsafe { archive::aberulwy_judge_tables(tables.as_ptr(), tables.len(), &mut place) };
    Judged { number, place }
}

/// Judges tables, then a plan: 0, or 1 to 8, 11 to 14.
///
/// ```
/// use aberulwy::raw::{judge_plan, Judged};
///
/// let tables = aberulwy::examples::trial_tables();
/// assert_eq!(judge_plan(&tables, &[1, 2, 66]), Judged { number: 0, place: 0 });
/// assert_eq!(judge_plan(&tables, &[1, 66]), Judged { number: 13, place: 1 });
/// ```
pub fn judge_plan(tables: &[u8], plan: &[u8]) -> Judged {
    let mut place = NOT_SET;
    // SAFETY: see the head of this file.
    let number = unsafe {
        archive::aberulwy_judge_plan(
            tables.as_ptr(),
            tables.len(),
            plan.as_ptr(),
            plan.len(),
            &mut place,
        )
    };
    Judged { number, place }
}

/// Whether a plan is basic (1) or not (0), after judging as [`judge_plan`] does.
///
/// ```
/// use aberulwy::raw::{is_basic, Counted};
///
/// let tables = aberulwy::examples::trial_tables();
/// assert_eq!(is_basic(&tables, &[1, 2, 65]), Counted { number: 0, value: 1, place: 0 });
/// assert_eq!(is_basic(&tables, &[1, 2, 66]), Counted { number: 0, value: 0, place: 0 });
/// assert_eq!(is_basic(&tables, &[1, 9, 66]), Counted { number: 12, value: 0, place: 1 });
/// ```
pub fn is_basic(tables: &[u8], plan: &[u8]) -> Counted {
    let (mut value, mut place) = (NOT_SET, NOT_SET);
    // SAFETY: see the head of this file.
    let number = unsafe {
        archive::aberulwy_is_basic(
            tables.as_ptr(),
            tables.len(),
            plan.as_ptr(),
            plan.len(),
            &mut value,
            &mut place,
        )
    };
    Counted {
        number,
        value,
        place,
    }
}

/// The orders of a plan and its stuck paths, after judging as [`judge_plan`] does.
///
/// ```
/// use aberulwy::raw::{count_orders, CountedPaths};
///
/// let tables = aberulwy::examples::trial_tables();
/// // 1·δ + 2: one path is stuck, the other finishes.
/// let both = CountedPaths { number: 0, orders: 1, stuck: 1, place: 0 };
/// assert_eq!(count_orders(&tables, &[1, 0, 65, 2, 64]), both);
/// // A merge is not basic.
/// let neither = CountedPaths { number: 0, orders: 0, stuck: 0, place: 0 };
/// assert_eq!(count_orders(&tables, &[1, 2, 66]), neither);
/// let refused = CountedPaths { number: 12, orders: 0, stuck: 0, place: 1 };
/// assert_eq!(count_orders(&tables, &[1, 9, 64]), refused);
/// ```
pub fn count_orders(tables: &[u8], plan: &[u8]) -> CountedPaths {
    let (mut orders, mut stuck, mut place) = (NOT_SET, NOT_SET, NOT_SET);
    // SAFETY: see the head of this file.
    let number = unsafe {
        archive::aberulwy_count_orders(
            tables.as_ptr(),
            tables.len(),
            plan.as_ptr(),
            plan.len(),
            &mut orders,
            &mut stuck,
            &mut place,
        )
    };
    CountedPaths {
        number,
        orders,
        stuck,
        place,
    }
}

/// Unfolds a plan: 0, or 34 to 36; or 1 to 8, 11 to 15 with every lent byte kept.
///
/// ```
/// use aberulwy::raw::{unfold, Ended};
///
/// let tables = aberulwy::examples::trial_tables();
/// let (mut list, mut a, mut b) = ([7; 12], [7; 12], [7; 12]);
/// let mut run = |plan, allowance| unfold(&tables, plan, allowance, &mut list, &mut a, &mut b);
/// assert_eq!(run(&[1, 2, 66], 4), Ended { number: 0, steps: 4, size: 9, place: 0 });
/// assert_eq!(run(&[1, 2, 66], 3), Ended { number: 34, steps: 3, size: 11, place: 0 });
/// assert_eq!(run(&[1, 2, 99], 3), Ended { number: 12, steps: 0, size: 0, place: 2 });
/// ```
pub fn unfold(
    tables: &[u8],
    plan: &[u8],
    allowance: u32,
    list: &mut [u8],
    a: &mut [u8],
    b: &mut [u8],
) -> Ended {
    let (mut steps, mut size, mut place) = (NOT_SET, NOT_SET, NOT_SET);
    // SAFETY: see the head of this file.
    let number = unsafe {
        archive::aberulwy_unfold(
            tables.as_ptr(),
            tables.len(),
            plan.as_ptr(),
            plan.len(),
            allowance,
            list.as_mut_ptr(),
            list.len(),
            a.as_mut_ptr(),
            a.len(),
            b.as_mut_ptr(),
            b.len(),
            &mut steps,
            &mut size,
            &mut place,
        )
    };
    Ended {
        number,
        steps,
        size,
        place,
    }
}

/// Unfolds a plan as [`unfold`] does in areas A and B, then checks the unfolding's own
/// rewriting in two further areas, unless the unfolding was refused.
///
/// ```
/// use aberulwy::raw::unfold_checked;
///
/// let tables = aberulwy::examples::trial_tables();
/// let (mut list, mut a, mut b, mut c, mut d) = ([7; 12], [7; 12], [7; 12], [9; 12], [9; 12]);
/// let (areas, check_areas) = ([&mut a[..], &mut b[..]], [&mut c[..], &mut d[..]]);
/// let both = unfold_checked(&tables, &[1, 2, 66], 9, &mut list, areas, check_areas);
/// assert_eq!((both.unfolded.number, both.unfolded.steps, both.unfolded.size), (0, 4, 9));
/// assert_eq!((both.checked, both.own_number, both.own_steps, both.own_size), (1, 0, 4, 9));
/// assert_eq!((a, b), (c, d));
///
/// let (areas, check_areas) = ([&mut a[..], &mut b[..]], [&mut c[..], &mut d[..]]);
/// let refused = unfold_checked(&tables, &[], 9, &mut list, areas, check_areas);
/// assert_eq!((refused.unfolded.number, refused.checked), (11, 0));
/// ```
pub fn unfold_checked(
    tables: &[u8],
    plan: &[u8],
    allowance: u32,
    list: &mut [u8],
    [a, b]: [&mut [u8]; 2],
    [c, d]: [&mut [u8]; 2],
) -> EndedChecked {
    let (mut steps, mut size, mut place) = (NOT_SET, NOT_SET, NOT_SET);
    let (mut checked, mut own_number) = (NOT_SET, NOT_SET);
    let (mut own_steps, mut own_size, mut own_place) = (NOT_SET, NOT_SET, NOT_SET);
    // SAFETY: see the head of this file.
    let number = unsafe {
        archive::aberulwy_unfold_checked(
            tables.as_ptr(),
            tables.len(),
            plan.as_ptr(),
            plan.len(),
            allowance,
            list.as_mut_ptr(),
            list.len(),
            a.as_mut_ptr(),
            a.len(),
            b.as_mut_ptr(),
            b.len(),
            c.as_mut_ptr(),
            c.len(),
            d.as_mut_ptr(),
            d.len(),
            &mut steps,
            &mut size,
            &mut place,
            &mut checked,
            &mut own_number,
            &mut own_steps,
            &mut own_size,
            &mut own_place,
        )
    };
    EndedChecked {
        unfolded: Ended {
            number,
            steps,
            size,
            place,
        },
        checked,
        own_number,
        own_steps,
        own_size,
        own_place,
    }
}

/// Copies the plan reached out of area A or B, zeros behind: 0; or 1 with every lent byte
/// kept, where the plan area is too short.
///
/// ```
/// use aberulwy::raw::{reached, Handed};
///
/// let (a, b, mut plan) = ([1, 2, 64], [3, 0, 0], [7; 4]);
/// assert_eq!(reached(&a, &b, 2, 3, &mut plan), Handed { number: 0, size: 3 });
/// assert_eq!(plan, [1, 2, 64, 0]);
/// assert_eq!(reached(&a, &b, 2, 3, &mut plan[..2]), Handed { number: 1, size: 0 });
/// ```
pub fn reached(a: &[u8], b: &[u8], steps: usize, size: usize, plan_area: &mut [u8]) -> Handed {
    let mut copied = NOT_SET;
    // SAFETY: see the head of this file.
    let number = unsafe {
        archive::aberulwy_reached(
            a.as_ptr(),
            a.len(),
            b.as_ptr(),
            b.len(),
            steps,
            size,
            plan_area.as_mut_ptr(),
            plan_area.len(),
            &mut copied,
        )
    };
    Handed {
        number,
        size: copied,
    }
}

/// Checks a rewriting, with steps in both directions: 0, or 31 to 33; or 1 to 8, 11 to 18, 75 with
/// every lent byte kept.
///
/// ```
/// use aberulwy::raw::{check_rewriting, Ended};
///
/// let tables = aberulwy::examples::trial_tables();
/// let (start, mut a, mut b) = ([1, 2, 64], [7; 3], [7; 3]);
/// let mut check =
///     |rewriting| check_rewriting(&tables, &start, &[2, 1, 64], rewriting, &mut a, &mut b);
/// assert_eq!(check(&[1, 2, 0]), Ended { number: 0, steps: 1, size: 3, place: 0 });
/// assert_eq!(check(&[]), Ended { number: 33, steps: 0, size: 3, place: 0 });
/// let refused = |number, place| Ended { number, steps: 0, size: 0, place };
/// assert_eq!(check(&[1, 2, 0, 33, 0, 0]), refused(17, 1));
/// // Law 1 from right to left: the left side 2 + 1, which law 1 makes into 1 + 2.
/// let back = [129, 2, 0, 3, 0, 2, 1, 64];
/// assert_eq!(check(&back), Ended { number: 0, steps: 1, size: 3, place: 0 });
/// assert_eq!(check(&back[..7]), refused(16, 0));
/// assert_eq!(check(&[129, 2, 0, 1, 0, 64]), refused(75, 0));
/// ```
pub fn check_rewriting(
    tables: &[u8],
    start: &[u8],
    claimed: &[u8],
    rewriting: &[u8],
    a: &mut [u8],
    b: &mut [u8],
) -> Ended {
    let (mut steps, mut size, mut place) = (NOT_SET, NOT_SET, NOT_SET);
    // SAFETY: see the head of this file.
    let number = unsafe {
        archive::aberulwy_check_rewriting(
            tables.as_ptr(),
            tables.len(),
            start.as_ptr(),
            start.len(),
            claimed.as_ptr(),
            claimed.len(),
            rewriting.as_ptr(),
            rewriting.len(),
            a.as_mut_ptr(),
            a.len(),
            b.as_mut_ptr(),
            b.len(),
            &mut steps,
            &mut size,
            &mut place,
        )
    };
    Ended {
        number,
        steps,
        size,
        place,
    }
}

/// Reads a station file, and answers the plan's length: 0; or 51 to 55, 1 to 8, 11 to 14
/// with every lent byte kept.
///
/// ```
/// use aberulwy::raw::{read_station, Counted};
///
/// let file = include_bytes!("../../../examples/trays/tray-1.station");
/// let (mut tables, mut plan) = ([7; 2305], [7; 3]);
/// let read = read_station(file, &mut tables, &mut plan);
/// assert_eq!(read, Counted { number: 0, value: 3, place: 0 });
/// assert_eq!(plan, [1, 2, 66]);
/// let refused = read_station(&file[1..], &mut tables, &mut plan);
/// assert_eq!(refused, Counted { number: 51, value: 0, place: 0 });
/// ```
pub fn read_station(file: &[u8], tables_area: &mut [u8], plan_area: &mut [u8]) -> Counted {
    let (mut value, mut place) = (NOT_SET, NOT_SET);
    // SAFETY: see the head of this file.
    let number = unsafe {
        archive::aberulwy_read_station(
            file.as_ptr(),
            file.len(),
            tables_area.as_mut_ptr(),
            tables_area.len(),
            plan_area.as_mut_ptr(),
            plan_area.len(),
            &mut value,
            &mut place,
        )
    };
    Counted {
        number,
        value,
        place,
    }
}

/// Writes a station file, zeros behind, and answers the file's length: 0; or 1 to 8, 11 to 14, 74
/// with every lent byte kept.
///
/// ```
/// use aberulwy::raw::{write_station, Counted};
///
/// let (tables, mut file) = (aberulwy::examples::trial_tables(), [7; 3073]);
/// let written = write_station(&tables, &[1, 2, 66], &mut file);
/// assert_eq!(written, Counted { number: 0, value: 3072, place: 0 });
/// assert_eq!(file[..3072], include_bytes!("../../../examples/trays/tray-1.station")[..]);
/// assert_eq!(file[3072], 0);
/// let refused = write_station(&tables, &[1, 2, 66], &mut file[..3071]);
/// assert_eq!(refused, Counted { number: 74, value: 0, place: 0 });
/// ```
pub fn write_station(tables: &[u8], plan: &[u8], file_area: &mut [u8]) -> Counted {
    let (mut value, mut place) = (NOT_SET, NOT_SET);
    // SAFETY: see the head of this file.
    let number = unsafe {
        archive::aberulwy_write_station(
            tables.as_ptr(),
            tables.len(),
            plan.as_ptr(),
            plan.len(),
            file_area.as_mut_ptr(),
            file_area.len(),
            &mut value,
            &mut place,
        )
    };
    Counted {
        number,
        value,
        place,
    }
}

/// Reads a text, a plan typed in signs, and answers the plan's length: 0; or 1 to 8, 61 to 63
/// with every lent byte kept.
///
/// ```
/// use aberulwy::raw::{read_text, Counted};
///
/// let (tables, mut plan) = (aberulwy::examples::trial_tables(), [7; 4]);
/// let read = read_text(&tables, b"(1 # 2)", &mut plan);
/// assert_eq!(read, Counted { number: 0, value: 3, place: 0 });
/// assert_eq!(plan, [1, 2, 66, 0]);
/// // These tables have four actions.
/// let refused = read_text(&tables, b"1+45", &mut plan);
/// assert_eq!(refused, Counted { number: 61, value: 0, place: 2 });
/// ```
pub fn read_text(tables: &[u8], text: &[u8], plan_area: &mut [u8]) -> Counted {
    let (mut value, mut place) = (NOT_SET, NOT_SET);
    // SAFETY: see the head of this file.
    let number = unsafe {
        archive::aberulwy_read_text(
            tables.as_ptr(),
            tables.len(),
            text.as_ptr(),
            text.len(),
            plan_area.as_mut_ptr(),
            plan_area.len(),
            &mut value,
            &mut place,
        )
    };
    Counted {
        number,
        value,
        place,
    }
}

/// Begins a walk, with one mark, at the plan's last word, and `finished` 0: 0; or 1 to 8, 11 to
/// 14, 70 with every mark and `finished` kept.
///
/// `finished` is lent as the marks are; no call sets it under a refusal.
///
/// ```
/// use aberulwy::raw::{fresh_walk, Judged};
///
/// let (tables, plan) = (aberulwy::examples::trial_tables(), [1, 2, 65]);
/// let (mut marks, mut finished) = ([7; 3], 9);
/// let begun = fresh_walk(&tables, &plan, &mut marks, &mut finished);
/// assert_eq!(begun, Judged { number: 0, place: 0 });
/// assert_eq!((marks, finished), ([0, 0, 1], 0));
/// // One byte too few for the plan's words.
/// finished = 9;
/// let refused = fresh_walk(&tables, &plan, &mut marks[..2], &mut finished);
/// assert_eq!(refused, Judged { number: 70, place: 0 });
/// assert_eq!((marks, finished), ([0, 0, 1], 9));
/// ```
pub fn fresh_walk(tables: &[u8], plan: &[u8], marks: &mut [u8], finished: &mut usize) -> Judged {
    let mut place = NOT_SET;
    // SAFETY: see the head of this file.
    let number = unsafe {
        archive::aberulwy_fresh_walk(
            tables.as_ptr(),
            tables.len(),
            plan.as_ptr(),
            plan.len(),
            marks.as_mut_ptr(),
            marks.len(),
            finished,
            &mut place,
        )
    };
    Judged { number, place }
}

/// Brings a message to a walk, which then has the marks that the message leads to, and
/// `finished` 1 or 0: 0; or 1 to 8, 11 to 14, 70 to 72 with every mark and `finished` kept.
///
/// ```
/// use aberulwy::raw::{walk, Judged};
///
/// let (tables, plan) = (aberulwy::examples::trial_tables(), [1, 2, 65]);
/// let (mut marks, mut finished) = ([0, 0, 1], 0);
/// let mut bring = |message| walk(&tables, &plan, &mut marks, message, &mut finished);
/// assert_eq!(bring(1), Judged { number: 0, place: 0 });
/// assert_eq!(bring(1), Judged { number: 72, place: 0 });
/// assert_eq!(bring(0), Judged { number: 71, place: 0 });
/// assert_eq!((marks, finished), ([0, 1, 0], 0));
/// walk(&tables, &plan, &mut marks, 2, &mut finished);
/// assert_eq!((marks, finished), ([0, 0, 0], 1));
/// ```
pub fn walk(
    tables: &[u8],
    plan: &[u8],
    marks: &mut [u8],
    message: u8,
    finished: &mut usize,
) -> Judged {
    let mut place = NOT_SET;
    // SAFETY: see the head of this file.
    let number = unsafe {
        archive::aberulwy_walk(
            tables.as_ptr(),
            tables.len(),
            plan.as_ptr(),
            plan.len(),
            marks.as_mut_ptr(),
            marks.len(),
            message,
            finished,
            &mut place,
        )
    };
    Judged { number, place }
}

/// Whether on every path of a basic plan each appearance of the second action has the first before
/// it (`yes` 1) or not (0, and `at` the least place of one that has none): 0; or 1 to 8, 11 to 14,
/// then 73, then 70.
///
/// ```
/// use aberulwy::raw::{precedes, Preceded};
///
/// let tables = aberulwy::examples::trial_tables();
/// // 1·2 + 3·2: the 2 of the second summand has no 1 before it.
/// let plan = [1, 2, 65, 3, 2, 65, 64];
/// let no = Preceded { number: 0, yes: 0, at: 4, place: 0 };
/// assert_eq!(precedes(&tables, &plan, 1, 2), no);
/// // No 4 appears.
/// let yes = Preceded { number: 0, yes: 1, at: 0, place: 0 };
/// assert_eq!(precedes(&tables, &plan, 1, 4), yes);
/// // Equal actions; and a merge, which is not basic.
/// let refused = |number| Preceded { number, yes: 0, at: 0, place: 0 };
/// assert_eq!(precedes(&tables, &plan, 2, 2), refused(73));
/// assert_eq!(precedes(&tables, &[1, 2, 66], 1, 2), refused(70));
/// ```
pub fn precedes(tables: &[u8], plan: &[u8], first: u8, second: u8) -> Preceded {
    let (mut yes, mut at, mut place) = (NOT_SET, NOT_SET, NOT_SET);
    // SAFETY: see the head of this file.
    let number = unsafe {
        archive::aberulwy_precedes(
            tables.as_ptr(),
            tables.len(),
            plan.as_ptr(),
            plan.len(),
            first,
            second,
            &mut yes,
            &mut at,
            &mut place,
        )
    };
    Preceded {
        number,
        yes,
        at,
        place,
    }
}

/// Brings a basic plan to its fixed form, zeros behind, and answers the form's length: 0; or 1 to 8,
/// 11 to 14, then 70, then 74 with every lent byte kept.
///
/// ```
/// use aberulwy::raw::{fix_form, Counted};
///
/// let (tables, mut area) = (aberulwy::examples::trial_tables(), [7; 6]);
/// // 2 + 1·(3 + 3): in form 1·3 + 2.
/// let fixed = fix_form(&tables, &[2, 1, 3, 3, 64, 65, 64], &mut area);
/// assert_eq!(fixed, Counted { number: 0, value: 5, place: 0 });
/// assert_eq!(area, [1, 3, 65, 2, 64, 0]);
/// // A merge is not basic; and an area of one byte for three words.
/// let refused = |number| Counted { number, value: 0, place: 0 };
/// assert_eq!(fix_form(&tables, &[1, 2, 66], &mut area), refused(70));
/// assert_eq!(fix_form(&tables, &[2, 1, 64], &mut area[..1]), refused(74));
/// assert_eq!(area, [1, 3, 65, 2, 64, 0]);
/// ```
pub fn fix_form(tables: &[u8], plan: &[u8], area: &mut [u8]) -> Counted {
    let (mut value, mut place) = (NOT_SET, NOT_SET);
    // SAFETY: see the head of this file.
    let number = unsafe {
        archive::aberulwy_fix_form(
            tables.as_ptr(),
            tables.len(),
            plan.as_ptr(),
            plan.len(),
            area.as_mut_ptr(),
            area.len(),
            &mut value,
            &mut place,
        )
    };
    Counted {
        number,
        value,
        place,
    }
}

/// Lists a station file, zeros behind: 0; or 1 with every lent byte kept, where the area is
/// too short.
///
/// ```
/// use aberulwy::raw::{list_station, Handed};
///
/// let mut out = [7; 14];
/// assert_eq!(list_station(b"", &mut out), Handed { number: 0, size: 13 });
/// assert_eq!(&out, b"refused 51 0\n\0");
/// assert_eq!(list_station(b"", &mut out[..12]), Handed { number: 1, size: 0 });
/// ```
pub fn list_station(file: &[u8], out: &mut [u8]) -> Handed {
    let mut size = NOT_SET;
    // SAFETY: see the head of this file.
    let number = unsafe {
        archive::aberulwy_list_station(
            file.as_ptr(),
            file.len(),
            out.as_mut_ptr(),
            out.len(),
            &mut size,
        )
    };
    Handed { number, size }
}

//! How a run leaves its plans in the areas.

use reference::runs::set;

/// What a step changed: where, and how many words it took away and put in there.
#[derive(Clone, Copy, Default)]
pub struct Cut {
    pub at: usize,
    pub taken: usize,
    pub put: usize,
}

/// Leaves the plan reached, which is handed in two parts, in A or B as the steps are even or odd,
/// and in the other area the plan one step before: the one reached with the words that the last
/// step took away put back.
pub fn leave_in(
    [a, b]: [&mut [u8]; 2],
    steps: usize,
    [left, right]: [&[u8]; 2],
    Cut { at, taken, put }: Cut,
    old: &[u8],
) {
    let (reached, before) = match steps % 2 {
        0 => (a, b),
        _ => (b, a),
    };
    let size = left.len() + right.len();
    reached[..left.len()].copy_from_slice(left);
    reached[left.len()..size].copy_from_slice(right);
    reached[size..].fill(0);
    if steps == 0 {
        return set(before, &[]);
    }
    let rest = &reached[at + put..size];
    let end = at + taken + rest.len();
    before[..at].copy_from_slice(&reached[..at]);
    before[at..at + taken].copy_from_slice(&old[..taken]);
    before[at + taken..end].copy_from_slice(rest);
    before[end..].fill(0);
}

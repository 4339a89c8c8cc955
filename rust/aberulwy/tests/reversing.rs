//! Rewritings turned round: of the trial trays, of the bench, by hand, in both directions, with long
//! left sides; and those that are not accepted.

use aberulwy::examples::trial_tables;
use aberulwy::*;
use reference::turning::turned_round;
use std::fs::read;

/// The plans of the trial trays that unfold, and of those that are basic.
const TRAYS: [&[u8]; 9] = [
    &[1, 2, 66],
    &[1, 2, 66, 80],
    &[1, 4, 64, 70],
    &[1, 2, 64, 70],
    &[1, 2, 4, 65, 69],
    &[0],
    &[1, 0, 65],
    &[0, 1, 65],
    &[0, 0, 64],
];

/// The station files of the bench, and the steps that they take.
const BENCH: [(&str, usize); 6] = [
    ("clean-coin", 1084),
    ("clean-coin-hub-waits", 641),
    ("crusted-coin", 1847),
    ("crusted-coin-hub-waits", 1030),
    ("light-coin", 2109),
    ("light-coin-hub-waits", 1171),
];

/// A rewriting with the plans that it goes between.
#[derive(Clone)]
struct Between {
    tables: Vec<u8>,
    start: Vec<u8>,
    claimed: Vec<u8>,
    rewriting: Vec<u8>,
}

impl Between {
    /// The unfolding's own rewriting, to the end or until so many steps are made.
    fn unfolding(tables: &[u8], plan: &[u8], allowance: u32) -> Between {
        let (mut list, mut a, mut b) = (vec![0; 15_000], vec![0; 8192], vec![0; 8192]);
        let unfolded = unfold(tables, plan, allowance, &mut list, &mut a, &mut b).unwrap();
        Between {
            tables: tables.to_vec(),
            start: plan.to_vec(),
            claimed: unfolded.reached(&a, &b).to_vec(),
            rewriting: unfolded.rewriting(&list).to_vec(),
        }
    }

    /// A rewriting by hand, over the tables of the trial trays.
    fn by_hand(start: &[u8], claimed: &[u8], records: &[&[u8]]) -> Between {
        Between {
            tables: trial_tables().to_vec(),
            start: start.to_vec(),
            claimed: claimed.to_vec(),
            rewriting: records.concat(),
        }
    }

    fn check(&self) -> Result<Checked, Refusal> {
        let (mut a, mut b) = ([7; LONGEST_PLAN], [7; LONGEST_PLAN]);
        let (start, claimed) = (&self.start, &self.claimed);
        check_rewriting(
            &self.tables,
            start,
            claimed,
            &self.rewriting,
            &mut a,
            &mut b,
        )
    }

    fn reversed(&self) -> Result<Reversed, Refusal> {
        reversed(&self.tables, &self.start, &self.claimed, &self.rewriting)
    }

    /// Turned round: accepted, as many steps, and the same bytes as by the second implementation.
    fn turned(&self) -> Between {
        let turned = self.reversed().unwrap().rewriting();
        let back = Between {
            tables: self.tables.clone(),
            start: self.claimed.clone(),
            claimed: self.start.clone(),
            rewriting: turned.expect("the rewriting is accepted"),
        };
        let second = turned_round(&self.tables, &self.start, &self.rewriting);
        assert!(Some(&back.rewriting) == second.as_ref());
        let (there, checked) = (self.check().unwrap(), back.check().unwrap());
        assert!(checked.accepted());
        assert_eq!(
            (checked.steps, checked.size),
            (there.steps, self.start.len())
        );
        back
    }

    /// Turned round once, and twice: the second is the first rewriting again.
    fn there_and_back(&self) -> Between {
        let back = self.turned();
        let again = back.turned();
        assert_eq!(again.rewriting, self.rewriting);
        assert!((&again.start, &again.claimed) == (&self.start, &self.claimed));
        back
    }

    /// First this one, then another from where it ends.
    fn then(&self, next: &Between) -> Between {
        assert_eq!(self.claimed, next.start);
        Between {
            claimed: next.claimed.clone(),
            rewriting: [&self.rewriting[..], &next.rewriting].concat(),
            ..self.clone()
        }
    }
}

/// The first bytes of a rewriting's records.
fn first_bytes(mut rewriting: &[u8]) -> Vec<u8> {
    let mut found = Vec::new();
    while let [first, _, _, behind @ ..] = rewriting {
        found.push(*first);
        rewriting = match (first, behind) {
            (129.., [low, high, words @ ..]) => {
                &words[usize::from(u16::from_le_bytes([*low, *high]))..]
            }
            _ => behind,
        };
    }
    found
}

#[test]
fn the_trial_trays() {
    for plan in TRAYS {
        let unfolding = Between::unfolding(&trial_tables(), plan, u32::MAX);
        let mut laws = first_bytes(&unfolding.rewriting);
        let back = unfolding.there_and_back();
        laws.reverse();
        let backwards: Vec<u8> = laws.iter().map(|law| 128 + law).collect();
        assert_eq!(first_bytes(&back.rewriting), backwards);
    }
}

/// A law that forgets: what it forgot stands in the record.
#[test]
fn what_laws_forget_is_carried() {
    let turned = |plan: &[u8]| {
        let unfolding = Between::unfolding(&trial_tables(), plan, u32::MAX);
        unfolding.there_and_back().rewriting
    };
    // Law 9, δ·x to δ: of δ·1, and of δ·(2 + 3).
    assert_eq!(turned(&[0, 1, 65]), [137, 0, 0, 3, 0, 0, 1, 65]);
    assert_eq!(
        turned(&[0, 2, 3, 64, 65]),
        [137, 0, 0, 5, 0, 0, 2, 3, 64, 65]
    );
    // Law 26, x◁(y·z) to x◁y, and then law 24, a◁b to a.
    assert_eq!(
        turned(&[1, 2, 4, 65, 69]),
        [152, 0, 0, 3, 0, 1, 2, 69, 154, 2, 0, 5, 0, 1, 2, 4, 65, 69]
    );
}

#[test]
fn the_bench() {
    for (name, steps) in BENCH {
        let root = env!("CARGO_MANIFEST_DIR");
        let file = read(format!("{root}/../../examples/bench/{name}.station")).unwrap();
        let (mut tables, mut plan) = ([0; TABLES_LENGTH], [0; 8192]);
        let words = read_station(&file, &mut tables, &mut plan).unwrap();
        let unfolding = Between::unfolding(&tables, &plan[..words], u32::MAX);
        assert_eq!(unfolding.rewriting.len(), RECORD * steps, "{name}");
        let back = unfolding.there_and_back();
        assert_eq!(first_bytes(&back.rewriting).len(), steps, "{name}");
        // There and back again is the same from both ends.
        let both = unfolding.then(&back);
        assert!(both.turned().rewriting == both.rewriting, "{name}");
    }
}

/// Rewritings that end before the unfolding has finished.
#[test]
fn beginnings() {
    for allowance in 0..17 {
        let unfolding = Between::unfolding(&trial_tables(), TRAYS[1], allowance);
        let back = unfolding.there_and_back();
        assert_eq!(first_bytes(&back.rewriting).len(), allowance as usize);
    }
}

/// From 1·3 + 2·3 to 2·3 + 1·3 by hand: (1 + 2)·3 by law 5 from right to left, (2 + 1)·3 by law 1,
/// ((2 + 2) + 1)·3 by law 4 from right to left, law 5 twice, and law 4.
#[test]
fn both_directions() {
    let records: [&[u8]; 6] = [
        &[133, 6, 0, 5, 0, 1, 2, 64, 3, 65],
        &[1, 2, 0],
        &[132, 0, 0, 3, 0, 2, 2, 64],
        &[5, 6, 0],
        &[5, 4, 0],
        &[4, 6, 0],
    ];
    let derivation = Between::by_hand(
        &[1, 3, 65, 2, 3, 65, 64],
        &[2, 3, 65, 1, 3, 65, 64],
        &records,
    );
    assert_eq!(first_bytes(&derivation.rewriting), [133, 1, 132, 5, 5, 4]);
    let back = derivation.there_and_back();
    let records: [&[u8]; 6] = [
        &[132, 2, 0, 7, 0, 2, 3, 65, 2, 3, 65, 64],
        &[133, 6, 0, 5, 0, 2, 2, 64, 3, 65],
        &[133, 8, 0, 7, 0, 2, 2, 64, 1, 64, 3, 65],
        &[4, 2, 0],
        &[129, 2, 0, 3, 0, 1, 2, 64],
        &[5, 4, 0],
    ];
    assert_eq!(back.rewriting, records.concat());
}

/// Left sides and places above 255.
#[test]
fn long_left_sides() {
    for actions in [128, 129, 300, 8191] {
        // 1 + (2 + (2 + …)): the exchange of both operands, twice, of the whole plan.
        let mut plan = vec![1];
        plan.extend(vec![2; actions]);
        plan.extend(vec![64; actions]);
        let words = plan.len();
        let mut exchanged = plan[1..words - 1].to_vec();
        exchanged.extend([1, 64]);
        let place = (words as u16 - 1).to_le_bytes();
        let exchange = [1, place[0], place[1]];
        let once = Between::by_hand(&plan, &exchanged, &[&exchange]);
        let back = once.there_and_back();
        let length = (words as u16).to_le_bytes();
        let head = [129, place[0], place[1], length[0], length[1]];
        assert!(back.rewriting == [&head[..], &plan].concat());
        Between::by_hand(&plan, &plan, &[&exchange, &exchange]).there_and_back();
    }
}

#[test]
fn no_steps() {
    let none = Between::by_hand(&[1, 2, 64], &[1, 2, 64], &[]);
    assert_eq!(none.reversed(), Ok(Reversed::Rewriting(Vec::new())));
}

/// What the checker found in a rewriting that is not accepted.
fn not_accepted(between: &Between, verdict: Verdict, steps: usize, size: usize) {
    let checked = Checked {
        verdict,
        steps,
        size,
    };
    assert_eq!(between.reversed(), Ok(Reversed::NotAccepted(checked)));
    assert_eq!(between.check(), Ok(checked));
    assert_eq!(between.reversed().unwrap().rewriting(), None);
}

#[test]
fn rewritings_that_are_turned_back() {
    let exchange = [1, 2, 0];
    let by_hand = |claimed: &[u8], records: &[&[u8]]| {
        let between = Between::by_hand(&[1, 2, 64], claimed, records);
        assert!(between.check().is_ok());
        between
    };
    // The second step does not fit, from left to right, and from right to left.
    let equal = [4, 2, 0];
    let back = [132, 2, 0, 3, 0, 1, 1, 64];
    for second in [&equal[..], &back] {
        let between = by_hand(&[2, 1, 64], &[&exchange, second]);
        not_accepted(&between, Verdict::DoesNotFit, 1, 3);
    }
    // Another end; also after no step.
    not_accepted(&by_hand(&[1], &[&exchange]), Verdict::EndDiffers, 1, 3);
    not_accepted(&by_hand(&[2, 1, 64], &[]), Verdict::EndDiffers, 0, 3);
    // (1 + 2)·(3 + (3 + …)) by law 5, and 3 + (3 + …) back to twice itself by law 4: too long.
    let mut long = vec![3; 4500];
    long.extend([64; 4499]);
    let product = [&[1, 2, 64][..], &long, &[65]].concat();
    let place = (product.len() as u16 - 1).to_le_bytes();
    let share = [5, place[0], place[1]];
    let too_long = Between::by_hand(&product, &[1], &[&share]);
    not_accepted(&too_long, Verdict::TooLong, 0, product.len());
    let doubled = [&long[..], &long, &[64]].concat();
    let place = (long.len() as u16 - 1).to_le_bytes();
    let length = (doubled.len() as u16).to_le_bytes();
    let head = [132, place[0], place[1], length[0], length[1]];
    // Longer than any plan, the left side is not accepted.
    let refused = Between::by_hand(&long, &[1], &[&head, &doubled]);
    assert_eq!(refused.reversed().unwrap_err().number(), 75);
    // Beside another operand, a left side that is a plan makes one that is too long.
    let half = [&[3; 4000][..], &[64; 3999]].concat();
    let twice = [&half[..], &half, &[64]].concat();
    let sum = [&[1; 500][..], &half, &[64; 500]].concat();
    let place = (sum.len() as u16 - 501).to_le_bytes();
    let length = (twice.len() as u16).to_le_bytes();
    let head = [132, place[0], place[1], length[0], length[1]];
    let too_long = Between::by_hand(&sum, &[1], &[&head, &twice]);
    not_accepted(&too_long, Verdict::TooLong, 0, sum.len());
}

#[test]
fn what_is_refused() {
    let derivation = Between::by_hand(&[1], &[1, 1, 64], &[&[132, 0, 0, 3, 0, 1, 1, 64]]);
    derivation.there_and_back();
    let refused = |number, place, change: fn(&mut Between)| {
        let mut changed = derivation.clone();
        change(&mut changed);
        let refusal = changed.reversed().unwrap_err();
        assert_eq!((refusal.number(), refusal.place()), (number, place));
        assert_eq!(changed.check(), Err(refusal));
    };
    let (nowhere, first) = (Place::Nowhere, Place::Step(0));
    refused(1, nowhere, |changed| changed.tables.clear());
    refused(12, Place::Byte(0), |changed| changed.start[0] = 5);
    refused(18, nowhere, |changed| changed.claimed.push(1));
    refused(16, nowhere, |changed| changed.rewriting.truncate(7));
    refused(16, nowhere, |changed| changed.rewriting.truncate(4));
    // 161 is a record of three bytes, and so are `3 0 1` and `1 64 0` behind it.
    refused(17, first, |changed| {
        changed.rewriting[0] = 161;
        changed.rewriting.push(0);
    });
    refused(75, first, |changed| changed.rewriting[5] = 64);
    refused(75, Place::Step(1), |changed| {
        changed.rewriting.splice(0..0, [1, 2, 0]);
        changed.rewriting[8] = 5;
    });
}

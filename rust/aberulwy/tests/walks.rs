//! Walks through basic plans, through the safe calls.

use aberulwy::examples::trial_tables;
use aberulwy::*;
use reference::random::plans::NOT_BASIC;
use reference::random::tables::TRIAL_FAULTS;
use std::collections::BTreeSet;

/// The words of the longest basic plans: there is one sign less than there are actions.
const LONGEST_BASIC: usize = LONGEST_PLAN - 1;
/// 1·2 + 1·3.
const TWO_WAYS: [u8; 7] = [1, 2, 65, 1, 3, 65, 64];

/// Tables, a plan and a progress through it.
#[derive(Clone)]
struct Hub {
    tables: Vec<u8>,
    plan: Vec<u8>,
    marks: Vec<u8>,
    finished: bool,
}

impl Hub {
    /// A walk with marks at these places, and no finish reached, under the tables of the trial
    /// trays.
    fn marked(plan: &[u8], places: &[usize]) -> Hub {
        let mut marks = vec![0; plan.len()];
        places.iter().for_each(|&place| marks[place] = 1);
        Hub {
            tables: trial_tables().to_vec(),
            plan: plan.to_vec(),
            marks,
            finished: false,
        }
    }

    /// A fresh walk under the tables of the trial trays.
    fn fresh(plan: &[u8]) -> Hub {
        Hub::fresh_under(&trial_tables(), plan)
    }

    /// A fresh walk, begun where another progress was before.
    fn fresh_under(tables: &[u8], plan: &[u8]) -> Hub {
        let (mut marks, mut finished) = (vec![0xEE; plan.len()], true);
        fresh_walk(tables, plan, &mut marks, &mut finished).unwrap();
        let hub = Hub {
            tables: tables.to_vec(),
            plan: plan.to_vec(),
            marks,
            finished,
        };
        hub.is_at(&[plan.len() - 1], false);
        hub
    }

    /// Brings a message: 0, or the number of the refusal, which leaves the progress as it was.
    /// What `finished` held before makes no difference.
    fn bring(&mut self, message: u8) -> u8 {
        let [one, other] = [self.finished, !self.finished].map(|held| {
            let (mut marks, mut finished) = (self.marks.clone(), held);
            let answer = walk(&self.tables, &self.plan, &mut marks, message, &mut finished);
            if let Err(refusal) = answer {
                assert_eq!(refusal.place(), Place::Nowhere);
                assert!(marks == self.marks && finished == held, "{message}");
                finished = self.finished;
            }
            let number = answer.map_or_else(Refusal::number, |()| 0);
            (number, marks, finished)
        });
        assert!(one == other, "{message}");
        (self.marks, self.finished) = (one.1, one.2);
        one.0
    }

    /// Brings a message that is taken, and looks where the walk is then.
    fn takes(&mut self, message: u8, places: &[usize], finished: bool) {
        assert_eq!(self.bring(message), 0, "{message}");
        self.is_at(places, finished);
    }

    /// Of the actions 1 to n, these are taken, and every other one is refused with 72.
    fn takes_only(&self, taken: &[u8]) {
        for message in 1..=self.tables[0] {
            let number = if taken.contains(&message) { 0 } else { 72 };
            assert_eq!(self.clone().bring(message), number, "{message}");
        }
    }

    /// Marks of 1 stand at these places, and zeros elsewhere.
    fn is_at(&self, places: &[usize], finished: bool) {
        let marked = |place| places.contains(&place) as u8;
        let wanted: Vec<u8> = (0..self.plan.len()).map(marked).collect();
        assert_eq!((&self.marks, self.finished), (&wanted, finished));
    }
}

/// A path of a basic plan's tree: its actions, and whether it finishes.
type Path = (Vec<u8>, bool);

/// Every path of a basic plan's tree, from the words: dead stop ends one that does not finish.
fn paths(plan: &[u8]) -> Vec<Path> {
    let mut waiting: Vec<Vec<Path>> = Vec::new();
    for &word in plan {
        let paths = match word {
            0 => vec![(vec![], false)],
            64 => {
                let second = waiting.pop().unwrap();
                [waiting.pop().unwrap(), second].concat()
            }
            65 => {
                let second = waiting.pop().unwrap();
                let (first, _) = waiting.pop().unwrap()[0].clone();
                let follow = |(path, end): &Path| ([&first[..], path].concat(), *end);
                second.iter().map(follow).collect()
            }
            action => vec![(vec![action], true)],
        };
        waiting.push(paths);
    }
    waiting.pop().unwrap()
}

/// Goes on with every list of messages up to a length: a message is taken exactly when some path
/// begins with the messages taken so far and this one, and a finish is reached exactly when a path
/// that finishes is these messages.
fn follows(hub: &Hub, paths: &[Path], taken: &[u8], further: usize) {
    let finished = paths.iter().any(|(path, end)| path == taken && *end);
    assert_eq!(hub.finished, finished, "{taken:?}");
    for message in (0..=hub.tables[0] + 1).filter(|_| further > 0) {
        let (mut next, so_far) = (hub.clone(), [taken, &[message]].concat());
        let begins = paths.iter().any(|(path, _)| path.starts_with(&so_far));
        let number = match message {
            _ if begins => 0,
            message if message == 0 || message > hub.tables[0] => 71,
            _ => 72,
        };
        assert_eq!(next.bring(message), number, "{so_far:?}");
        if begins {
            follows(&next, paths, &so_far, further - 1);
        }
    }
}

#[test]
fn one_message_leads_to_several_subplans() {
    let mut hub = Hub::fresh(&TWO_WAYS);
    hub.takes_only(&[1]);
    hub.takes(1, &[1, 4], false);
    hub.takes_only(&[2, 3]);
    hub.clone().takes(2, &[], true);
    hub.takes(3, &[], true);
    hub.takes_only(&[]);
    // A sum that follows is one mark, at its last word.
    Hub::fresh(&[1, 2, 3, 64, 65]).takes(1, &[3], false);
}

#[test]
fn a_finish_is_reached_and_left() {
    // 1 + 1·(2·3): it can be done after 1, not after 1 and 2, and again after all three.
    let mut hub = Hub::fresh(&[1, 1, 2, 3, 65, 65, 64]);
    hub.takes(1, &[4], true);
    assert_eq!(hub.bring(1), 72);
    hub.is_at(&[4], true);
    hub.takes(2, &[3], false);
    assert_eq!(hub.bring(2), 72);
    hub.is_at(&[3], false);
    hub.takes(3, &[], true);
    hub.takes_only(&[]);
    hub.is_at(&[], true);
}

#[test]
fn dead_stop_takes_nothing_and_is_no_finish() {
    Hub::fresh(&[0]).takes_only(&[]);
    let mut hub = Hub::fresh(&[1, 0, 65]);
    hub.takes(1, &[1], false);
    hub.takes_only(&[]);
    // Stuck, or finished.
    Hub::fresh(&[1, 0, 65, 1, 64]).takes(1, &[1], true);
}

#[test]
fn any_set_of_marks_is_a_progress() {
    // The first factor of a product is a subplan as others are.
    let plan = [1, 2, 65];
    Hub::marked(&plan, &[0]).takes(1, &[], true);
    Hub::marked(&plan, &[0]).takes_only(&[1]);
    Hub::marked(&plan, &[1]).takes(2, &[], true);
    Hub::marked(&plan, &[2]).takes(1, &[1], false);
    Hub::marked(&plan, &[0, 2]).takes(1, &[1], true);
    Hub::marked(&plan, &[0, 1, 2]).takes_only(&[1, 2]);
    Hub::marked(&plan, &[]).takes_only(&[]);
    // Of a sum and of what is inside it.
    Hub::marked(&TWO_WAYS, &[2]).takes(1, &[1], false);
    Hub::marked(&TWO_WAYS, &[3, 6]).takes(1, &[1, 4], true);
    Hub::marked(&TWO_WAYS, &[0, 1, 2, 3, 4, 5, 6]).takes(3, &[], true);
}

#[test]
fn any_byte_but_zero_reads_as_a_mark() {
    for byte in 1..=255 {
        let mut hub = Hub::marked(&TWO_WAYS, &[]);
        hub.marks[6] = byte;
        hub.takes_only(&[1]);
        hub.takes(1, &[1, 4], false);
        // At 3, which is the first factor of 1·3, and at the 3 that follows it.
        hub.marks = vec![0, 0, 0, byte, byte, 0, 0];
        hub.takes_only(&[1, 3]);
        hub.takes(3, &[], true);
    }
}

#[test]
fn a_message_is_taken_where_a_path_goes_on() {
    for plan in [
        &[0][..],
        &[2],
        &[1, 0, 65],
        &[1, 2, 64],
        &[1, 1, 64],
        &TWO_WAYS,
        &[1, 1, 2, 3, 65, 65, 64],
        &[1, 1, 2, 65, 1, 3, 65, 64, 65, 1, 1, 4, 65, 65, 64],
        &[1, 2, 0, 65, 65, 1, 2, 65, 64, 3, 64],
    ] {
        assert_eq!(is_basic(&trial_tables(), plan), Ok(true));
        follows(&Hub::fresh(plan), &paths(plan), &[], 4);
    }
}

/// What both calls answer to these, the second one to this message. Where one is refused, marks
/// and finish keep what they held.
fn numbers(tables: &[u8], plan: &[u8], marks: &[u8], message: u8) -> [(u8, usize); 2] {
    let mut found = [(0, 0); 2];
    for held in [false, true] {
        let (mut after, mut finished) = ([marks.to_vec(), marks.to_vec()], [held; 2]);
        let [first, second] = after.each_mut();
        let [of_first, of_second] = finished.each_mut();
        let answers = [
            fresh_walk(tables, plan, first, of_first),
            walk(tables, plan, second, message, of_second),
        ];
        for (index, answer) in answers.into_iter().enumerate() {
            if let Err(refusal) = answer {
                assert_eq!((&after[index][..], finished[index]), (marks, held));
                found[index] = (refusal.number(), refusal.printed());
            }
        }
    }
    found
}

#[test]
fn the_order_of_refusals() {
    let both = |number, place| [(number, place); 2];
    let second = |number| [(0, 0), (number, 0)];
    let tables = trial_tables();
    let damaged = |index: usize, byte| {
        let mut tables = tables.to_vec();
        tables[index] = byte;
        tables
    };
    let (basic, other, no_plan) = ([1, 2, 65], [1, 2, 66], [1, 2]);
    // The tables' faults, with every other fault there too.
    assert_eq!(numbers(&tables[1..], &no_plan, &[], 0), both(1, 0));
    for (index, byte, number, place) in TRIAL_FAULTS {
        let answered = numbers(&damaged(index, byte), &no_plan, &[], 0);
        assert_eq!(answered, both(number, place), "{index}");
    }
    // The plan's faults, with every fault behind them.
    assert_eq!(numbers(&tables, &[], &[9], 0), both(11, 0));
    assert_eq!(
        numbers(&tables, &[1; LONGEST_PLAN + 1], &[], 0),
        both(11, 0)
    );
    assert_eq!(numbers(&tables, &[1, 5, 66], &[], 0), both(12, 1));
    assert_eq!(numbers(&tables, &[1, 66], &[], 0), both(13, 1));
    assert_eq!(numbers(&tables, &no_plan, &[], 0), both(14, 0));
    // 70 for a plan that is not basic and for marks of another length, in either call.
    assert_eq!(numbers(&tables, &other, &[], 0), both(70, 0));
    assert_eq!(numbers(&tables, &other, &[1; 3], 1), both(70, 0));
    assert_eq!(numbers(&tables, &basic, &[1; 2], 0), both(70, 0));
    assert_eq!(numbers(&tables, &basic, &[1; 4], 5), both(70, 0));
    assert_eq!(numbers(&tables, &basic, &[], 1), both(70, 0));
    // 71 before 72, and 72.
    assert_eq!(numbers(&tables, &basic, &[0; 3], 0), second(71));
    assert_eq!(numbers(&tables, &basic, &[1; 3], 0), second(71));
    assert_eq!(numbers(&tables, &basic, &[1; 3], 5), second(71));
    assert_eq!(numbers(&tables, &basic, &[1; 3], 65), second(71));
    assert_eq!(numbers(&tables, &basic, &[1; 3], 255), second(71));
    assert_eq!(numbers(&tables, &basic, &[0; 3], 1), second(72));
    assert_eq!(numbers(&tables, &basic, &[1; 3], 4), second(72));
    assert_eq!(numbers(&tables, &basic, &[1; 3], 1), both(0, 0));
}

#[test]
fn plans_that_are_not_basic_and_marks_of_another_length() {
    let tables = trial_tables();
    for plan in NOT_BASIC {
        let marks = vec![1; plan.len()];
        assert_eq!(numbers(&tables, plan, &marks, 1), [(70, 0); 2], "{plan:?}");
    }
    let longest = deep(&[1], LONGEST_BASIC);
    for plan in [&[1][..], &TWO_WAYS, &longest] {
        for length in [0, 1, 6, 7, 8, 16_382, 16_383, 16_384, 16_385, 100_000] {
            let wanted = if length == plan.len() { 0 } else { 70 };
            let answered = numbers(&tables, plan, &vec![1; length], 1);
            assert_eq!(answered, [(wanted, 0); 2], "{length}");
        }
    }
}

#[test]
fn the_number_of_the_finish_is_lent() {
    let (tables, plan) = (trial_tables(), [1, 2, 65]);
    for held in [0, 1, 2, 256, usize::MAX] {
        let mut finished = held;
        // Refused: it keeps what it held.
        let refused = raw::fresh_walk(&tables, &plan, &mut [0; 2], &mut finished);
        assert_eq!((refused.number, finished), (70, held));
        for (message, number) in [(0, 71), (4, 72)] {
            let mut marks = [0, 0, 7];
            let refused = raw::walk(&tables, &plan, &mut marks, message, &mut finished);
            assert_eq!((refused.number, refused.place), (number, 0));
            assert_eq!((marks, finished), ([0, 0, 7], held));
        }
        // Taken: it is 1 or 0, whatever it held.
        for (marks, message, after) in [([0, 0, 7], 1, 0), ([0, 7, 0], 2, 1)] {
            let (mut marks, mut finished) = (marks, held);
            let taken = raw::walk(&tables, &plan, &mut marks, message, &mut finished);
            assert_eq!((taken.number, taken.place, finished), (0, 0, after));
        }
        let begun = raw::fresh_walk(&tables, &plan, &mut [7; 3], &mut finished);
        assert_eq!((begun.number, begun.place, finished), (0, 0, 0));
    }
}

/// A chain of so many words: these actions again and again, each followed by all behind it.
fn deep(actions: &[u8], words: usize) -> Vec<u8> {
    let mut plan: Vec<u8> = actions
        .iter()
        .copied()
        .cycle()
        .take(words.div_ceil(2))
        .collect();
    plan.resize(words, 65);
    plan
}

#[test]
fn the_longest_chain_is_walked_to_its_end() {
    // 1·(2·(3·(1·…))), 8,192 actions: the plan that is left ends a word earlier each time.
    let plan = deep(&[1, 2, 3], LONGEST_BASIC);
    let (tables, last) = (trial_tables(), plan.len() - 1);
    let (mut marks, mut finished) = (vec![7; plan.len()], true);
    fresh_walk(&tables, &plan, &mut marks, &mut finished).unwrap();
    let mut wanted = vec![0; plan.len()];
    for (taken, message) in [1, 2, 3].into_iter().cycle().take(8192).enumerate() {
        wanted[last - taken] = 1;
        assert!(marks == wanted && !finished, "{taken}");
        if taken % 64 == 0 {
            let refusal = walk(&tables, &plan, &mut marks, 4, &mut finished).unwrap_err();
            assert_eq!(refusal.number(), 72);
        }
        walk(&tables, &plan, &mut marks, message, &mut finished).unwrap();
        wanted[last - taken] = 0;
    }
    assert!(marks == wanted && finished);
    let refusal = walk(&tables, &plan, &mut marks, 3, &mut finished).unwrap_err();
    assert_eq!(refusal.number(), 72);
    assert!(marks == wanted && finished);
}

#[test]
fn the_longest_sums_are_walked_to_their_ends() {
    // 1 + 2 + 2 + …, grouped to the left and to the right.
    let mut left = vec![1];
    while left.len() < LONGEST_BASIC {
        left.extend([2, 64]);
    }
    let mut right = vec![2; LONGEST_PLAN / 2];
    right[0] = 1;
    right.resize(LONGEST_BASIC, 64);
    for plan in [left, right] {
        let every: Vec<usize> = (0..plan.len()).collect();
        for hub in [Hub::fresh(&plan), Hub::marked(&plan, &every)] {
            hub.takes_only(&[1, 2]);
            hub.clone().takes(1, &[], true);
            hub.clone().takes(2, &[], true);
        }
    }
    // 1·2 + 1·3 + 1·3 + …: as many marks as there are products.
    let mut plan = vec![1, 2, 65];
    while plan.len() < LONGEST_BASIC {
        plan.extend([1, 3, 65, 64]);
    }
    let second = |place: &usize| [2, 3].contains(&plan[*place]);
    let seconds: Vec<usize> = (0..plan.len()).filter(second).collect();
    assert_eq!(seconds.len(), LONGEST_PLAN / 4);
    let mut hub = Hub::fresh(&plan);
    assert_eq!(hub.bring(1), 0);
    let marked = (0..plan.len()).filter(|&place| hub.marks[place] == 1);
    assert_eq!(marked.collect::<Vec<_>>(), seconds);
    hub.takes_only(&[2, 3]);
    hub.takes(3, &[], true);
}

/// The tables of the bench with the crusted coin, and the plan that its plan unfolds to.
fn crusted_coin() -> (Vec<u8>, Vec<u8>) {
    let file = include_bytes!("../../../examples/bench/crusted-coin.station");
    let (mut tables, mut plan) = (vec![0; TABLES_LENGTH], vec![0; LONGEST_PLAN]);
    let size = read_station(file, &mut tables, &mut plan).unwrap();
    let (mut list, mut a, mut b) = (
        vec![0; 3 * 5000],
        vec![0; LONGEST_PLAN],
        vec![0; LONGEST_PLAN],
    );
    let unfolded = unfold(&tables, &plan[..size], 5000, &mut list, &mut a, &mut b).unwrap();
    assert_eq!(unfolded.ending, Ending::Finished);
    let reached = unfolded.reached(&a, &b).to_vec();
    // The second line of the listing is the plan reached.
    let listing = include_str!("../../../examples/bench/crusted-coin.txt");
    let words = listing.lines().nth(1).unwrap().split(' ');
    assert_eq!(
        words.map(|word| word.parse().unwrap()).collect::<Vec<u8>>(),
        reached
    );
    (tables, reached)
}

#[test]
fn the_six_orders_of_the_crusted_coin() {
    let (tables, plan) = crusted_coin();
    let counts = Counts {
        orders: 6,
        stuck: 0,
    };
    assert_eq!(count_orders(&tables, &plan), Ok(counts));
    let orders = paths(&plan);
    // Weight, photographs, turn and settling, each once: 3, 6, 9, 12 and 13.
    assert_eq!(orders.len(), 6);
    for (order, finishes) in &orders {
        let mut sorted = order.clone();
        sorted.sort();
        assert_eq!((sorted, *finishes), (vec![3, 6, 9, 12, 13], true));
        let mut hub = Hub::fresh_under(&tables, &plan);
        for (taken, &message) in order.iter().enumerate() {
            assert!(!hub.finished);
            // Where the order is left for none of the six, the hub turns back and stays.
            let goes_on = |message: &u8| {
                let so_far = [&order[..taken], &[*message]].concat();
                orders.iter().any(|(order, _)| order.starts_with(&so_far))
            };
            let further: Vec<u8> = (1..=13).filter(goes_on).collect();
            hub.takes_only(&further);
            assert!(further.len() < 13 && further.contains(&message));
            assert_eq!(hub.bring(message), 0);
        }
        hub.is_at(&[], true);
        hub.takes_only(&[]);
    }
    // And every list of messages, also past an order's end.
    follows(&Hub::fresh_under(&tables, &plan), &orders, &[], 6);
}

/// Brings all lists of messages up to a length to both walks: the answers and the finish are the
/// same. Answers how many messages were taken.
fn same_answers(one: &Hub, other: &Hub, further: usize) -> usize {
    assert_eq!(one.finished, other.finished);
    let mut taken = 0;
    for message in (0..=one.tables[0] + 1).filter(|_| further > 0) {
        let (mut one, mut other) = (one.clone(), other.clone());
        let number = one.bring(message);
        assert_eq!(number, other.bring(message), "{message}");
        if number == 0 {
            taken += 1 + same_answers(&one, &other, further - 1);
        }
    }
    taken
}

/// Fresh walks of a plan and of the one that a rewriting by laws 1 to 4 leads to, whose tree is
/// alike: as many messages are taken as there are beginnings of paths.
fn answers_alike(tables: &[u8], plan: &[u8], rewriting: &[u8]) {
    let (mut a, mut b) = (vec![0; 64], vec![0; 64]);
    let replayed = check_rewriting(tables, plan, &[0], rewriting, &mut a, &mut b).unwrap();
    assert_eq!(replayed.verdict, Verdict::EndDiffers);
    let end = replayed.reached(&a, &b).to_vec();
    assert!(end != plan && is_basic(tables, &end) == Ok(true));
    let checked = check_rewriting(tables, plan, &end, rewriting, &mut a, &mut b).unwrap();
    assert!(checked.accepted());
    let [one, other] = [plan, &end].map(|plan| Hub::fresh_under(tables, plan));
    let mut beginnings = BTreeSet::new();
    for (path, _) in paths(plan) {
        beginnings.extend((1..=path.len()).map(|length| path[..length].to_vec()));
    }
    assert_eq!(same_answers(&one, &other, 6), beginnings.len());
}

#[test]
fn alike_plans_answer_alike() {
    let tables = trial_tables();
    // x+y and y+x.
    answers_alike(&tables, &TWO_WAYS, &[1, 6, 0]);
    // (1 + 2·3) + 1·4 grouped to the right, then both exchanges.
    let plan = [1, 2, 3, 65, 64, 1, 4, 65, 64];
    answers_alike(&tables, &plan, &[3, 8, 0]);
    answers_alike(&tables, &plan, &[3, 8, 0, 1, 7, 0, 1, 8, 0]);
    // x+x and x.
    answers_alike(&tables, &[1, 2, 65, 1, 2, 65, 64], &[4, 6, 0]);
    // The crusted coin with its first choice exchanged, and with one further in.
    let (tables, plan) = crusted_coin();
    answers_alike(&tables, &plan, &[1, 44, 0]);
    answers_alike(&tables, &plan, &[1, 42, 0]);
}

//! The comparison finds damage: copies of the reference, each with one thing changed.

mod checker;

use differential::{compare, Answer, Call, Case, Implementation, Outcome, Reference};
use reference::forms::form;
use reference::plans::{counts, is_basic, judge_plan, starts, subplan};
use reference::precedence::Precedence;
use reference::random::cases::{turned_case, CheckCase};
use reference::random::forms::FormCase;
use reference::random::precedence::PrecedenceCase;
use reference::random::rewritings::spans;
use reference::random::stations::WriteCase;
use reference::random::Random;
use reference::reading::paths_of;
use reference::records::{cut, Record};
use reference::stations::{put_sum, put_word, station_file};
use reference::trees::alike;
use std::cmp::Ordering;
use std::collections::{BTreeMap, BTreeSet, VecDeque};
use std::ops::Range;

/// What is changed in a copy.
#[derive(Clone, Copy, Debug, PartialEq, Eq)]
enum Damage {
    /// Nothing is changed.
    Nothing,
    /// 30 actions at most instead of 31.
    MostActions,
    /// A refused triple's last action counts 0 instead of 1.
    TripleWeight,
    /// 16,383 words at most instead of 16,384 when a plan is judged.
    LongestPlan,
    /// The count of operands of 87 is 2 instead of 1 when a plan is judged.
    LastSign,
    /// Dead stop alone is not basic.
    DeadStopBasic,
    /// Dead stop counts as an order instead of a stuck path.
    DeadStopOrders,
    /// Dead stops of a plan that is not basic count as stuck paths.
    StuckNotBasic,
    /// Orders and stuck paths are exchanged.
    StuckExchanged,
    /// Stuck paths are not set where the call is refused.
    StuckRefused,
    /// A path that stands twice counts once.
    PathsOnce,
    /// An allowance above 0 counts one less.
    Allowance,
    /// A step needs four free bytes of the list instead of three.
    Record,
    /// The areas hold 16,383 words at most instead of 16,384.
    Room,
    /// Law 10's table entry is 0.
    Communication,
    /// Set 7 is empty.
    LastSet,
    /// The last byte of area B is not set to 0.
    Filling,
    /// The other area of an unfolding without a step has a 1 in it.
    NoStep,
    /// Law 32 is none in a rewriting.
    Laws,
    /// The second byte of a place counts 255 instead of 256.
    PlaceWeight,
    /// The claimed plan's last word is not compared.
    Claim,
    /// The steps of the checker begin at 1.
    FirstStep,
    /// A file has 37 blocks at most instead of 38.
    MostBlocks,
    /// The number 52 is 53.
    Sum,
    /// The plan area is not cleared behind the plan.
    PlanFilling,
    /// The check of an unfolding's own rewriting is said to be made always.
    CheckMade,
    /// That check has one step more.
    OwnSteps,
    /// The checker's last byte of area B is not set to 0.
    OwnFilling,
    /// The plan reached is in area A after an odd number of steps.
    Parity,
    /// An area of exactly the plan's size is too short for it.
    CopyRoom,
    /// The listing needs one byte more.
    ListRoom,
    /// The area is not cleared behind the listing.
    ListFilling,
    /// `<` is read as `|`.
    TextSign,
    /// 199 brackets may be open at once instead of 200.
    TextDepth,
    /// The place of a bracket that goes too deep is that of the letter before it.
    TextLetter,
    /// A text that ends too early is refused at its last character.
    TextEnd,
    /// A digit behind a first 0 is refused at the 0.
    TextZero,
    /// An action of two digits above n is refused at its second digit.
    TextDigit,
    /// A plan that is too long without the text's last character counts before a fault there.
    TextOrder,
    /// An empty text is refused before the tables.
    TextTables,
    /// An area of exactly the plan's size is too short for it.
    TextRoom,
    /// The area is not cleared behind the plan.
    TextFilling,
    /// The area is cleared where the plan is too long for it.
    TextKeeping,
    /// A fresh walk leaves all marks but the last.
    FreshMarks,
    /// A fresh walk leaves the finish.
    FreshFinish,
    /// A fresh walk takes marks longer than the plan.
    FreshLength,
    /// A message that is taken leaves the marks that were there.
    WalkMarks,
    /// A mark is written as 255.
    WalkWritten,
    /// A finish that is reached stays reached.
    WalkFinish,
    /// A message that no path goes on with takes the first mark away.
    WalkKeeping,
    /// An action outside 1 to n sets the finish to 0.
    WalkHeld,
    /// Of the subplans that a message leads to, the first alone is marked.
    WalkBranch,
    /// A sum hands its mark to its second summand alone.
    WalkSum,
    /// A mark at the first factor of a product is passed over.
    WalkFactor,
    /// The byte 2 is no mark.
    WalkMark,
    /// No path goes on with an action outside 1 to n: that counts first.
    WalkOutside,
    /// The action n is outside 1 to n.
    WalkLast,
    /// Dead stop as a message counts before a plan that is not basic, or marks of another length.
    WalkOrder,
    /// A walk takes marks longer than the plan.
    WalkLength,
    /// No path goes on with a message that only finishes.
    WalkEnd,
    /// Of the places without the first action before them, the greatest is given.
    BeforeGreatest,
    /// Of the second action's appearances, the one at the least place alone is looked at.
    BeforeOnce,
    /// Yes and no are exchanged.
    BeforeExchanged,
    /// Under yes, the place is the plan's length.
    BeforeYes,
    /// Under no, the place is counted from the plan's end.
    BeforeEnd,
    /// A place is given in one byte.
    BeforeByte,
    /// Under no, the place of a refusal is set too.
    BeforePlace,
    /// Neither yes nor the place is set where the call is refused.
    BeforeRefused,
    /// The first action counts wherever it is at an earlier place, in another summand too.
    BeforePlaces,
    /// The first action counts behind the second too.
    BeforeBehind,
    /// The action right before the second alone counts.
    BeforeNext,
    /// A sum hands on what is before it to its second summand alone.
    BeforeSum,
    /// Appearances from which no path finishes are passed over.
    BeforeStuck,
    /// A plan without the second action is answered no.
    BeforeNone,
    /// A plan that is not basic counts before the two actions.
    BeforeOrder,
    /// The two actions count before the plan's own faults.
    BeforeFault,
    /// Equal actions are not refused.
    BeforeEqual,
    /// Dead stop may be the first action.
    BeforeDeadStop,
    /// The second action may be above n.
    BeforeAbove,
    /// The action n is outside 1 to n.
    BeforeLast,
    /// The blocks are numbered from 1.
    WriteNumbers,
    /// Blocks of the plan have kind 1.
    WriteKind,
    /// Block 4 is said to be full.
    WriteCount,
    /// A block's number, kind, count and sum are written high byte first.
    WriteHigh,
    /// The last of a block's 255 words is not summed.
    WriteSum,
    /// A sum above 65,535 is written as 65,535.
    WriteWrap,
    /// The last block is not cleared behind its words.
    WriteFilling,
    /// The area is not cleared behind the file.
    WriteBehind,
    /// A last block that is full is followed by an empty one, where there is room.
    WriteEmpty,
    /// A file has 37 blocks at most instead of 38.
    WriteLongest,
    /// A plan of 16,385 words is written.
    WriteLong,
    /// The size that is told leaves out the last block.
    WriteSize,
    /// An area of exactly the file's length is too short for it.
    WriteRoom,
    /// An area one byte too short takes the file without its last byte.
    WriteShort,
    /// The area is cleared where it is too short.
    WriteKeeping,
    /// An area that is too short counts before a plan that is left over.
    WritePlan,
    /// An empty area counts before the tables.
    WriteTables,
    /// The size is not set where the call is refused.
    WriteRefused,
    /// Where the area is too short, its length is the place.
    WritePlace,
    /// Equal summands are kept.
    FormDuplicates,
    /// Summands are reduced to one where they stand side by side, before they are put in order.
    FormNeighbours,
    /// Summands stay in the order in which they are given.
    FormUnsorted,
    /// Summands stand in descending order.
    FormDescending,
    /// A summand with fewer words goes first.
    FormLength,
    /// A longer summand goes first where a shorter one begins it.
    FormLonger,
    /// Summands are compared by their first bytes alone.
    FormFirst,
    /// Summands are compared by their first four bytes alone, and are equal where these are.
    FormPrefix,
    /// Summands are compared from their last bytes on.
    FormLast,
    /// Sums group to the right.
    FormRight,
    /// A sum on the right of another is taken for one summand.
    FormGroups,
    /// The outermost sum alone is brought to form.
    FormOutermost,
    /// The remainders alone are brought to form.
    FormInside,
    /// Summands are compared as they are given, and then their remainders are brought to form.
    FormOutsideFirst,
    /// A sum of more than 4,096 words stays in the order in which it is given.
    FormLong,
    /// A sum has 31 summands at most, as many as there are actions; those behind are left out.
    FormWide,
    /// a·(x + y) is taken for a·x + a·y.
    FormShared,
    /// a·δ is taken for a.
    FormDeadEnd,
    /// a·δ is taken for δ.
    FormDeadStop,
    /// Dead stop alone is not basic.
    FormAlone,
    /// The size that is told is the plan's.
    FormSize,
    /// The size is told in one byte.
    FormByte,
    /// The area is not cleared behind the form.
    FormBehind,
    /// An area of exactly the form's length is too short for it.
    FormRoom,
    /// An area shorter than the plan is too short for the form.
    FormAsLong,
    /// An area one byte too short takes the form without its last byte.
    FormShort,
    /// The area is cleared where it is too short.
    FormKeeping,
    /// The area is cleared where the plan is not basic.
    FormNotBasic,
    /// An area shorter than the plan counts before a plan that is not basic.
    FormOrder,
    /// The numbers 70 and 74 are exchanged.
    FormExchanged,
    /// A plan that is left over counts as one that is not basic.
    FormFault,
    /// An empty area counts before the plan's own faults.
    FormPlan,
    /// An empty area counts before the tables.
    FormTables,
    /// The size is not set where the call is refused.
    FormRefused,
    /// Where the area is too short, the form's length is the place.
    FormPlace,
    /// A left side's length is read high byte first.
    BackHigh,
    /// A left side's length is read from its low byte alone.
    BackByte,
    /// A rewriting whose bytes are no multiple of three is cut short.
    BackThrees,
    /// A left side that is cut short is taken as far as it goes.
    BackTail,
    /// An unknown first byte counts as a record of one.
    BackUnknown,
    /// 128 is taken for a step backwards.
    BackZero,
    /// 161 is taken for a step backwards.
    BackAbove,
    /// 160 is unknown.
    BackTop,
    /// 75 comes before 17.
    BackOrder,
    /// A left side is judged when its step is reached.
    BackLate,
    /// 75 has the last such step.
    BackLast,
    /// 75 has the place 0.
    BackNowhere,
    /// A step's index is that of its first byte, by threes.
    BackThirds,
    /// A left side longer than C gets 75.
    BackRoom,
    /// A left side of 16,384 words gets 75.
    BackLong,
    /// An empty left side is not refused; its step does not fit.
    BackEmpty,
    /// A left side with more than one plan left over is not refused.
    BackOver,
    /// A left side may have actions above n.
    BackActions,
    /// The left side is not compared: that the law fits it is enough.
    BackAny,
    /// What the law gives is compared by its length alone.
    BackLength,
    /// The law is applied to the subplan, and must give the left side.
    BackForwards,
    /// What a law asks besides its left side is not asked.
    BackConditions,
    /// The law is applied at the first of the carried words.
    BackFirst,
    /// The law may be applied at any of the carried words.
    BackInner,
    /// The place is that of the left side in the next plan.
    BackMoved,
    /// A place past the end is that of the last word.
    BackPast,
    /// The left side replaces the whole plan.
    BackWhole,
    /// The subplan stays as it is.
    BackRight,
    /// A left side longer than C gets 32 before 31.
    BackLonger,
    /// 32 counts the words of the subplan that is replaced, too.
    BackBoth,
    /// A step backwards to a plan of exactly C words gets 32.
    BackTight,
    /// The areas go by the bytes of the steps made, by threes.
    BackParity,
    /// A step backwards is not counted.
    BackSteps,
}

use Damage::*;

const ALL: [Damage; 166] = [
    MostActions,
    TripleWeight,
    LongestPlan,
    LastSign,
    DeadStopBasic,
    DeadStopOrders,
    StuckNotBasic,
    StuckExchanged,
    StuckRefused,
    PathsOnce,
    Allowance,
    Record,
    Room,
    Communication,
    LastSet,
    Filling,
    NoStep,
    Laws,
    PlaceWeight,
    Claim,
    FirstStep,
    MostBlocks,
    Sum,
    PlanFilling,
    CheckMade,
    OwnSteps,
    OwnFilling,
    Parity,
    CopyRoom,
    ListRoom,
    ListFilling,
    TextSign,
    TextDepth,
    TextLetter,
    TextEnd,
    TextZero,
    TextDigit,
    TextOrder,
    TextTables,
    TextRoom,
    TextFilling,
    TextKeeping,
    FreshMarks,
    FreshFinish,
    FreshLength,
    WalkMarks,
    WalkWritten,
    WalkFinish,
    WalkKeeping,
    WalkHeld,
    WalkBranch,
    WalkSum,
    WalkFactor,
    WalkMark,
    WalkOutside,
    WalkLast,
    WalkOrder,
    WalkLength,
    WalkEnd,
    BeforeGreatest,
    BeforeOnce,
    BeforeExchanged,
    BeforeYes,
    BeforeEnd,
    BeforeByte,
    BeforePlace,
    BeforeRefused,
    BeforePlaces,
    BeforeBehind,
    BeforeNext,
    BeforeSum,
    BeforeStuck,
    BeforeNone,
    BeforeOrder,
    BeforeFault,
    BeforeEqual,
    BeforeDeadStop,
    BeforeAbove,
    BeforeLast,
    WriteNumbers,
    WriteKind,
    WriteCount,
    WriteHigh,
    WriteSum,
    WriteWrap,
    WriteFilling,
    WriteBehind,
    WriteEmpty,
    WriteLongest,
    WriteLong,
    WriteSize,
    WriteRoom,
    WriteShort,
    WriteKeeping,
    WritePlan,
    WriteTables,
    WriteRefused,
    WritePlace,
    FormDuplicates,
    FormNeighbours,
    FormUnsorted,
    FormDescending,
    FormLength,
    FormLonger,
    FormFirst,
    FormPrefix,
    FormLast,
    FormRight,
    FormGroups,
    FormOutermost,
    FormInside,
    FormOutsideFirst,
    FormLong,
    FormWide,
    FormShared,
    FormDeadEnd,
    FormDeadStop,
    FormAlone,
    FormSize,
    FormByte,
    FormBehind,
    FormRoom,
    FormAsLong,
    FormShort,
    FormKeeping,
    FormNotBasic,
    FormOrder,
    FormExchanged,
    FormFault,
    FormPlan,
    FormTables,
    FormRefused,
    FormPlace,
    BackHigh,
    BackByte,
    BackThrees,
    BackTail,
    BackUnknown,
    BackZero,
    BackAbove,
    BackTop,
    BackOrder,
    BackLate,
    BackLast,
    BackNowhere,
    BackThirds,
    BackRoom,
    BackLong,
    BackEmpty,
    BackOver,
    BackActions,
    BackAny,
    BackLength,
    BackForwards,
    BackConditions,
    BackFirst,
    BackInner,
    BackMoved,
    BackPast,
    BackWhole,
    BackRight,
    BackLonger,
    BackBoth,
    BackTight,
    BackParity,
    BackSteps,
];

/// The reference with damage.
struct Damaged(Damage);

/// A refusal without a place.
fn refusal(number: u8) -> Answer {
    Answer::ended(number, [0, 0])
}

/// Whether the slices kept their bytes and were not looked at otherwise.
fn is_refusal(answer: Answer) -> bool {
    !matches!(answer.number, 0 | 31..=36)
}

impl Damaged {
    /// The tables as the damaged copy reads them when laws are used.
    fn read(&self, tables: &[u8]) -> Vec<u8> {
        let mut read = tables.to_vec();
        if reference::tables::judge_tables(tables).is_ok() {
            match self.0 {
                Communication => read[1..1025].fill(0),
                LastSet => read[2273..].fill(0),
                _ => {}
            }
        }
        read
    }

    fn judge_tables(&self, tables: &[u8]) -> Answer {
        let mut answer = Reference.answer(Call::JudgeTables(tables));
        match self.0 {
            MostActions if tables.len() == 2305 && tables[0] == 31 => return refusal(2),
            TripleWeight if [6, 8].contains(&answer.number) => answer.place &= !31,
            _ => {}
        }
        answer
    }

    fn judge_plan(&self, tables: &[u8], plan: &[u8]) -> Answer {
        let answer = Reference.answer(Call::JudgePlan(tables, plan));
        match self.0 {
            LongestPlan if answer.number == 0 && plan.len() == 16_384 => refusal(11),
            LastSign if answer.number == 0 && plan == [plan[0], 87] => Answer {
                place: 1,
                ..refusal(13)
            },
            _ => answer,
        }
    }

    fn is_basic(&self, tables: &[u8], plan: &[u8]) -> Answer {
        match self.0 {
            DeadStopBasic if plan == [0] => Answer::ended(0, [0, 0]),
            _ => Reference.answer(Call::IsBasic(tables, plan)),
        }
    }

    fn count_orders(&self, tables: &[u8], plan: &[u8]) -> Answer {
        let mut answer = Reference.answer(Call::CountOrders(tables, plan));
        let [orders, stuck] = answer.values;
        match (self.0, answer.number) {
            (DeadStopOrders, 0) => answer.values = [orders + stuck, 0],
            (StuckNotBasic, 0) if orders + stuck == 0 => {
                answer.values[1] = plan.iter().filter(|&&word| word == 0).count();
            }
            (StuckExchanged, 0) => answer.values = [stuck, orders],
            (StuckRefused, 1..) => answer.values[1] = usize::MAX,
            // All paths of a long plan are much to write out.
            (PathsOnce, 0) if orders + stuck > 0 && plan.len() < 100 => {
                let paths = paths_of(plan).into_iter();
                let once: BTreeSet<_> = paths.map(|path| (path.stuck, path.actions)).collect();
                let stuck = once.iter().filter(|(stuck, _)| *stuck).count();
                answer.values = [once.len() - stuck, stuck];
            }
            _ => {}
        }
        answer
    }

    fn unfold(
        &self,
        tables: &[u8],
        plan: &[u8],
        allowance: u32,
        list: &mut [u8],
        a: &mut [u8],
        b: &mut [u8],
    ) -> Answer {
        let allowance = match self.0 {
            Allowance => allowance.saturating_sub(1),
            _ => allowance,
        };
        let shown = match self.0 {
            Record if !list.is_empty() => list.len() - 1,
            _ => list.len(),
        };
        let room = match self.0 {
            Room => a.len().min(16_383),
            _ => a.len(),
        };
        let last = b.last().copied();
        let read = self.read(tables);
        let answer = Reference.answer(Call::Unfold(
            &read,
            plan,
            allowance,
            &mut list[..shown],
            &mut a[..room],
            b,
        ));
        if !is_refusal(answer) {
            list[shown..].fill(0);
            a[room..].fill(0);
            match (self.0, b.last_mut()) {
                (Filling, Some(byte)) => *byte = last.unwrap_or(0),
                (NoStep, Some(byte)) if answer.values[0] == 0 => *byte = 1,
                _ => {}
            }
        }
        answer
    }

    fn read_station(&self, file: &[u8], tables_area: &mut [u8], plan_area: &mut [u8]) -> Answer {
        let before = plan_area.to_vec();
        if self.0 == MostBlocks && file.len() == 38 * 512 {
            return refusal(51);
        }
        let mut answer = Reference.answer(Call::ReadStation(file, tables_area, plan_area));
        match self.0 {
            Sum if answer.number == 52 => answer.number = 53,
            PlanFilling if answer.number == 0 => {
                let size = answer.values[0];
                plan_area[size..].copy_from_slice(&before[size..]);
            }
            _ => {}
        }
        answer
    }

    fn write_station(&self, tables: &[u8], plan: &[u8], file_area: &mut [u8]) -> Answer {
        let before = file_area.to_vec();
        let mut answer = Reference.answer(Call::WriteStation(tables, plan, file_area));
        let (size, length) = (answer.values[0], file_length(plan));
        let (file, behind) = file_area.split_at_mut(size);
        match (self.0, answer.number) {
            (WriteFilling, 0) => {
                let filling = size - 506 + (plan.len() - 1) % 504 + 1..size - 2;
                file[filling.clone()].copy_from_slice(&before[filling]);
            }
            (WriteBehind, 0) => behind.copy_from_slice(&before[size..]),
            (WriteEmpty, 0) if plan.len().is_multiple_of(504) && behind.len() >= 512 => {
                put_word(behind, 0, size / 512);
                put_word(behind, 2, 2);
                put_sum(&mut behind[..512]);
                answer.values[0] += 512;
            }
            (WriteLongest, 0) if size == 38 * 512 => {
                file_area.copy_from_slice(&before);
                return refusal(74);
            }
            (WriteRoom, 0) if size == before.len() => {
                file_area.copy_from_slice(&before);
                return refusal(74);
            }
            (WriteLong, 11) if plan.len() == 16_385 && before.len() >= length => {
                file_area[..length].copy_from_slice(&station_file(tables, plan));
                file_area[length..].fill(0);
                return Answer::ended(0, [length, 0]);
            }
            (WriteShort, 74) if before.len() + 1 == length => {
                file_area.copy_from_slice(&station_file(tables, plan)[..length - 1]);
                return Answer::ended(0, [length, 0]);
            }
            (WriteKeeping, 74) => file_area.fill(0),
            (WritePlan, 14) if before.len() < length => return refusal(74),
            (WriteTables, 1..=8) if before.is_empty() => return refusal(74),
            (WriteRefused, 1..) => answer.values[0] = usize::MAX,
            (WritePlace, 74) => answer.place = before.len(),
            (WriteSize, 0) => answer.values[0] -= 512,
            (_, 0) => {
                let blocks = file.chunks_mut(512).enumerate();
                blocks.for_each(|(index, block)| self.write_block(index, block));
            }
            _ => {}
        }
        answer
    }

    /// Writes a block again as the damaged copy does.
    fn write_block(&self, index: usize, block: &mut [u8]) {
        match self.0 {
            WriteNumbers => put_word(block, 0, index + 1),
            WriteKind => put_word(block, 2, 1),
            WriteCount if index == 4 => put_word(block, 4, 504),
            _ => {}
        }
        put_sum(block);
        let words = block[..510].chunks(2).map(|word| [word[0], word[1]]);
        let mut words: Vec<u16> = words.map(u16::from_le_bytes).collect();
        match self.0 {
            WriteSum => {
                words.pop();
                let sum = words.into_iter().fold(0, u16::wrapping_add);
                put_word(block, 510, sum.into());
            }
            WriteWrap => {
                let sum = words.into_iter().fold(0, u16::saturating_add);
                put_word(block, 510, sum.into());
            }
            WriteHigh => [0, 2, 4, 510].iter().for_each(|&at| block.swap(at, at + 1)),
            _ => {}
        }
    }

    fn unfold_checked(
        &self,
        tables: &[u8],
        plan: &[u8],
        allowance: u32,
        list: &mut [u8],
        areas: [&mut [u8]; 2],
        [c, d]: [&mut [u8]; 2],
    ) -> Answer {
        let last = d.last().copied();
        let mut answer = Reference.answer(Call::UnfoldChecked(
            tables,
            plan,
            allowance,
            list,
            areas,
            [c, d],
        ));
        match (self.0, d.last_mut()) {
            (CheckMade, _) => answer.own[0] = 1,
            (OwnSteps, _) if answer.own[0] == 1 => answer.own[2] += 1,
            (OwnFilling, Some(byte)) => *byte = last.unwrap_or(0),
            _ => {}
        }
        answer
    }

    fn reached(
        &self,
        a: &[u8],
        b: &[u8],
        steps: usize,
        size: usize,
        plan_area: &mut [u8],
    ) -> Answer {
        let steps = match self.0 {
            Parity => steps ^ 1,
            _ => steps,
        };
        let before = plan_area.to_vec();
        let answer = Reference.answer(Call::Reached(a, b, steps, size, plan_area));
        if self.0 == CopyRoom && answer.number == 0 && answer.values[0] == before.len() {
            plan_area.copy_from_slice(&before);
            return refusal(1);
        }
        answer
    }

    fn list_station(&self, file: &[u8], out: &mut [u8]) -> Answer {
        let before = out.to_vec();
        let answer = Reference.answer(Call::ListStation(file, out));
        let size = answer.values[0];
        match self.0 {
            ListRoom if size == before.len() => {
                out.copy_from_slice(&before);
                return refusal(1);
            }
            ListFilling if answer.number == 0 => out[size..].copy_from_slice(&before[size..]),
            _ => {}
        }
        answer
    }

    fn read_text(&self, tables: &[u8], text: &[u8], plan_area: &mut [u8]) -> Answer {
        let before = plan_area.to_vec();
        let mut answer = Reference.answer(Call::ReadText(tables, text, plan_area));
        let (size, place) = (answer.values[0], answer.place);
        // What stands at places from the refused one on.
        let character = |behind: usize| text.get(place + behind).copied().unwrap_or(0);
        match (self.0, answer.number) {
            (TextSign, 0) => {
                let unless = plan_area[..size].iter_mut().filter(|word| **word == 69);
                unless.for_each(|word| *word = 68);
            }
            (TextDepth, 0) => {
                if let Some(place) = deep_bracket(text) {
                    plan_area.copy_from_slice(&before);
                    return Answer {
                        place,
                        ..refusal(62)
                    };
                }
            }
            (TextLetter, 62) if text[place - 1] == b'T' => answer.place -= 1,
            (TextEnd, 61) if place == text.len() => answer.place = place.saturating_sub(1),
            (TextZero, 61) if text[..place].ends_with(b"0") && character(0).is_ascii_digit() => {
                answer.place -= 1;
            }
            (TextDigit, 61) if character(0).is_ascii_digit() && character(1).is_ascii_digit() => {
                answer.place += 1;
            }
            (TextOrder, 61) if !text.is_empty() => {
                let without = &text[..text.len() - 1];
                let other = Reference.answer(Call::ReadText(tables, without, plan_area));
                plan_area.copy_from_slice(&before);
                if other.number == 63 {
                    return other;
                }
            }
            (TextTables, 1..=8) if text.is_empty() => return refusal(61),
            (TextRoom, 0) if size == before.len() => {
                plan_area.copy_from_slice(&before);
                return refusal(63);
            }
            (TextFilling, 0) => plan_area[size..].copy_from_slice(&before[size..]),
            (TextKeeping, 63) => plan_area.fill(0),
            _ => {}
        }
        answer
    }

    fn fresh_walk(
        &self,
        tables: &[u8],
        plan: &[u8],
        marks: &mut [u8],
        finish: &mut usize,
    ) -> Answer {
        let (before, held) = (marks.to_vec(), *finish);
        let shown = match self.0 {
            FreshLength => marks.len().min(plan.len()),
            _ => marks.len(),
        };
        let call = Call::FreshWalk(tables, plan, &mut marks[..shown], finish);
        let answer = Reference.answer(call);
        match (self.0, answer.number) {
            (FreshMarks, 0) => marks[..shown - 1].copy_from_slice(&before[..shown - 1]),
            (FreshFinish, 0) => *finish = held,
            _ => {}
        }
        answer
    }

    /// The marks as the damaged copy reads them in a plan.
    fn read_marks(&self, tables: &[u8], plan: &[u8], marks: &[u8]) -> Vec<u8> {
        let mut read = marks.to_vec();
        let basic = Reference.answer(Call::IsBasic(tables, plan)).values[0] == 1;
        if !basic || plan.len() != marks.len() {
            return read;
        }
        for place in (0..plan.len()).rev() {
            match (self.0, plan[place]) {
                (WalkMark, _) if marks[place] == 2 => read[place] = 0,
                (WalkFactor, 65) => read[place - 1 - subplan(plan, place - 1).len()] = 0,
                // Its mark goes to the second summand, so the first has none of it.
                (WalkSum, 64) if read[place] != 0 => {
                    read[place] = 0;
                    read[place - 1] = 1;
                }
                _ => {}
            }
        }
        read
    }

    fn walk(
        &self,
        tables: &[u8],
        plan: &[u8],
        marks: &mut [u8],
        message: u8,
        finish: &mut usize,
    ) -> Answer {
        let (before, held) = (marks.to_vec(), *finish);
        let shown = match self.0 {
            WalkLength => marks.len().min(plan.len()),
            _ => marks.len(),
        };
        let mut after = self.read_marks(tables, plan, &before);
        let call = Call::Walk(tables, plan, &mut after[..shown], message, finish);
        let answer = Reference.answer(call);
        if answer.number == 0 {
            marks.copy_from_slice(&after);
        }
        let mut set = marks.iter_mut().filter(|mark| **mark != 0);
        match (self.0, answer.number) {
            (WalkMarks, 0) => {
                let left = marks.iter_mut().zip(before).filter(|(_, old)| *old != 0);
                left.for_each(|(mark, old)| *mark = old);
            }
            (WalkWritten, 0) => set.for_each(|mark| *mark = 255),
            (WalkFinish, 0) if held != 0 => *finish = 1,
            (WalkKeeping, 72) => set.take(1).for_each(|mark| *mark = 0),
            (WalkHeld, 71) => *finish = 0,
            (WalkBranch, 0) => set.skip(1).for_each(|mark| *mark = 0),
            (WalkOutside, 71) => return refusal(72),
            (WalkOrder, 70) if message == 0 => return refusal(71),
            (WalkLast, 0 | 72) if message == tables[0] => {
                marks.copy_from_slice(&before);
                *finish = held;
                return refusal(71);
            }
            (WalkEnd, 0) if set.next().is_none() => {
                marks.copy_from_slice(&before);
                *finish = held;
                return refusal(72);
            }
            _ => {}
        }
        answer
    }

    /// For each word of a basic plan, whether the damaged copy sees an action before it.
    fn seen_before(&self, plan: &[u8], action: u8) -> Vec<bool> {
        let starts = starts(plan);
        let mut seen = vec![false; plan.len()];
        for place in (0..plan.len()).rev() {
            let (here, start) = (seen[place], starts[place]);
            match plan[place] {
                64 => {
                    seen[starts[place - 1] - 1] = here && self.0 != BeforeSum;
                    seen[place - 1] = here;
                }
                65 => {
                    let behind = &plan[start + 1..place];
                    seen[start] = here || self.0 == BeforeBehind && behind.contains(&action);
                    seen[place - 1] = plan[start] == action || here && self.0 != BeforeNext;
                }
                _ => {}
            }
        }
        seen
    }

    /// The damaged copy's answer to a plan, basic or not, whatever the two actions are.
    fn precedence(&self, plan: &[u8], first: u8, second: u8) -> Answer {
        if !is_basic(plan) {
            return refusal(70);
        }
        let seen = self.seen_before(plan, first);
        let mut appears = (0..plan.len()).filter(|&place| plan[place] == second);
        let overtakes = |place: &usize| match self.0 {
            BeforePlaces => !plan[..*place].contains(&first),
            BeforeStuck => !seen[*place] && !is_stuck(plan, *place),
            _ => !seen[*place],
        };
        let found = match self.0 {
            BeforeGreatest => appears.rfind(overtakes),
            BeforeOnce => appears.next().filter(overtakes),
            _ => appears.find(overtakes),
        };
        Answer::precedence(Ok(match found {
            None => Precedence::Yes,
            Some(at) => Precedence::No { at },
        }))
    }

    fn precedes(&self, tables: &[u8], plan: &[u8], first: u8, second: u8) -> Answer {
        let mut answer = Reference.answer(Call::Precedes(tables, plan, first, second));
        let [yes, at] = answer.values;
        let inside = |action: u8| (1..=tables[0]).contains(&action);
        match (self.0, answer.number) {
            (BeforeExchanged, 0) => answer.values = [1 - yes, 0],
            (BeforeYes, 0) if yes == 1 => answer.values[1] = plan.len(),
            (BeforeEnd, 0) if yes == 0 => answer.values[1] = plan.len() - 1 - at,
            (BeforeByte, 0) => answer.values[1] = at % 256,
            (BeforePlace, 0) => answer.place = at,
            (BeforeNone, 0) if !plan.contains(&second) => answer.values = [0, 0],
            (BeforeRefused, 1..) => answer.values = [usize::MAX; 2],
            (BeforeOrder, 73) if !is_basic(plan) => return refusal(70),
            (BeforeFault, 11..=14) if first == second => return refusal(73),
            (BeforeLast, 0 | 70) if [first, second].contains(&tables[0]) => return refusal(73),
            (BeforeEqual, 73) if first == second && inside(first) => {
                return self.precedence(plan, first, second);
            }
            (BeforeDeadStop, 73) if first == 0 && inside(second) => {
                return self.precedence(plan, first, second);
            }
            (BeforeAbove, 73) if inside(first) && second > tables[0] => {
                return self.precedence(plan, first, second);
            }
            (_, 0) => return self.precedence(plan, first, second),
            _ => {}
        }
        answer
    }

    fn fix_form(&self, tables: &[u8], plan: &[u8], area: &mut [u8]) -> Answer {
        let before = area.to_vec();
        let mut answer = Reference.answer(Call::FixForm(tables, plan, area));
        let (size, room) = (answer.values[0], before.len());
        let turned_back = match (self.0, answer.number) {
            (FormAlone, 0 | 74) if plan == [0] => Some(70),
            (FormRoom, 0) if size == room => Some(74),
            (FormAsLong, 0) if room < plan.len() => Some(74),
            (FormOrder, 70) if room < plan.len() => Some(74),
            (FormExchanged, 70) => Some(74),
            (FormExchanged, 74) => Some(70),
            (FormFault, 14) => Some(70),
            (FormPlan, 11..=14) if room == 0 => Some(74),
            (FormTables, 1..=8) if room == 0 => Some(74),
            _ => None,
        };
        if let Some(number) = turned_back {
            area.copy_from_slice(&before);
            return refusal(number);
        }
        match (self.0, answer.number) {
            (FormSize, 0) => answer.values[0] = plan.len(),
            (FormByte, 0) => answer.values[0] %= 256,
            (FormBehind, 0) => area[size..].copy_from_slice(&before[size..]),
            (FormShort, 74) => {
                let form = form(plan);
                if room + 1 == form.len() {
                    area.copy_from_slice(&form[..room]);
                    return Answer::ended(0, [form.len(), 0]);
                }
            }
            (FormKeeping, 74) | (FormNotBasic, 70) => area.fill(0),
            (FormRefused, 1..) => answer.values[0] = usize::MAX,
            (FormPlace, 74) => answer.place = form(plan).len(),
            (_, 0 | 74) if self.makes_forms() => {
                area.copy_from_slice(&before);
                let form = self.form(plan);
                if room < form.len() {
                    return refusal(74);
                }
                area[..form.len()].copy_from_slice(&form);
                area[form.len()..].fill(0);
                return Answer::ended(0, [form.len(), 0]);
            }
            _ => {}
        }
        answer
    }

    /// Whether the damaged copy makes forms in a way of its own.
    fn makes_forms(&self) -> bool {
        matches!(
            self.0,
            FormDuplicates
                | FormNeighbours
                | FormUnsorted
                | FormDescending
                | FormLength
                | FormLonger
                | FormFirst
                | FormPrefix
                | FormLast
                | FormRight
                | FormGroups
                | FormOutermost
                | FormInside
                | FormOutsideFirst
                | FormLong
                | FormWide
                | FormShared
                | FormDeadEnd
                | FormDeadStop
        )
    }

    /// The form that the damaged copy makes of a basic plan.
    fn form(&self, plan: &[u8]) -> Vec<u8> {
        let starts = starts(plan);
        let mut waiting: Vec<VecDeque<Summand>> = Vec::new();
        for (place, &word) in plan.iter().enumerate() {
            let mut operand = || waiting.pop().expect("an accepted plan has the operands");
            let given = starts[place]..place + 1;
            let summands = match word {
                64 => {
                    let (y, x) = (operand(), operand());
                    self.both(plan, x, y)
                }
                65 => {
                    let (x, _) = (operand(), operand());
                    self.product(plan, given, x)
                }
                _ => VecDeque::from([Summand {
                    given,
                    form: vec![word],
                }]),
            };
            waiting.push(summands);
        }
        let whole = waiting.pop().expect("an accepted plan is not empty");
        self.sum(plan, whole, true)
    }

    /// The summands of x + y.
    fn both(
        &self,
        plan: &[u8],
        mut x: VecDeque<Summand>,
        mut y: VecDeque<Summand>,
    ) -> VecDeque<Summand> {
        if self.0 == FormGroups && y.len() > 1 {
            let given = y[0].given.start..y[y.len() - 1].given.end;
            let form = self.sum(plan, y, false);
            y = VecDeque::from([Summand { given, form }]);
        }
        // The fewer are put to the others, as a long sum would else take long.
        if x.len() < y.len() {
            x.into_iter()
                .rev()
                .for_each(|summand| y.push_front(summand));
            return y;
        }
        x.extend(y);
        x
    }

    /// The summands of a·x: one, where nothing is damaged.
    fn product(&self, plan: &[u8], given: Range<usize>, x: VecDeque<Summand>) -> VecDeque<Summand> {
        let action = plan[given.start];
        let before = |x: Vec<u8>| Summand {
            given: given.clone(),
            form: [vec![action], x, vec![65]].concat(),
        };
        match self.0 {
            // Of a long plan the form would be much longer.
            FormShared if plan.len() < 100 => x.into_iter().map(|x| before(x.form)).collect(),
            FormDeadEnd | FormDeadStop if x[0].form == [0] => {
                let form = match self.0 {
                    FormDeadEnd => vec![action],
                    _ => vec![0],
                };
                VecDeque::from([Summand { given, form }])
            }
            _ => VecDeque::from([before(self.sum(plan, x, false))]),
        }
    }

    /// The sum of these summands.
    fn sum(&self, plan: &[u8], summands: VecDeque<Summand>, outermost: bool) -> Vec<u8> {
        let mut summands = Vec::from(summands);
        let words: usize = summands.iter().map(|summand| summand.form.len() + 1).sum();
        let left_as_given = match self.0 {
            FormOutermost => !outermost,
            FormInside => outermost,
            FormLong => words > 4096,
            _ => false,
        };
        if !left_as_given {
            if self.0 == FormNeighbours {
                summands.dedup_by(|y, x| x.form == y.form);
            }
            summands.sort_by(|x, y| self.order(plan, x, y));
            match self.0 {
                FormDuplicates | FormNeighbours => {}
                FormPrefix | FormOutsideFirst => {
                    summands.dedup_by(|y, x| self.order(plan, x, y).is_eq());
                }
                _ => summands.dedup_by(|y, x| x.form == y.form),
            }
        }
        if self.0 == FormWide {
            summands.truncate(31);
        }
        let signs = summands.len() - 1;
        let mut sum = Vec::new();
        for (index, summand) in summands.into_iter().enumerate() {
            sum.extend(summand.form);
            if index > 0 && self.0 != FormRight {
                sum.push(64);
            }
        }
        if self.0 == FormRight {
            sum.resize(sum.len() + signs, 64);
        }
        sum
    }

    /// How the damaged copy compares two summands.
    fn order(&self, plan: &[u8], x: &Summand, y: &Summand) -> Ordering {
        let given = |summand: &Summand| summand.given.clone().map(|place| plan[place]);
        let (low, high) = (&x.form, &y.form);
        match self.0 {
            FormUnsorted => Ordering::Equal,
            FormDescending => high.cmp(low),
            FormLength => (low.len(), low).cmp(&(high.len(), high)),
            FormLonger if low.starts_with(high) || high.starts_with(low) => {
                high.len().cmp(&low.len())
            }
            FormFirst => low[0].cmp(&high[0]),
            FormPrefix => low.iter().take(4).cmp(high.iter().take(4)),
            FormLast => low.iter().rev().cmp(high.iter().rev()),
            FormOutsideFirst => given(x).cmp(given(y)),
            _ => low.cmp(high),
        }
    }
}

/// A summand on the way to a form: where its words are in the plan that is given, and its form.
struct Summand {
    given: Range<usize>,
    form: Vec<u8>,
}

/// The bytes of a plan's station file.
fn file_length(plan: &[u8]) -> usize {
    512 * (5 + plan.len().div_ceil(504))
}

/// Whether an action of a basic plan is a product's first factor, and no path finishes behind it.
fn is_stuck(plan: &[u8], place: usize) -> bool {
    let starts = starts(plan);
    let product = (place..plan.len()).find(|&at| plan[at] == 65 && starts[at] == place);
    product.is_some_and(|at| counts(&plan[place + 1..at]).orders == 0)
}

/// The place of the first bracket that is open in 199 others.
fn deep_bracket(text: &[u8]) -> Option<usize> {
    let mut open = 0;
    text.iter().position(|character| {
        match character {
            b'(' => open += 1,
            b')' => open -= 1,
            _ => {}
        }
        open == 200
    })
}

impl Implementation for Damaged {
    fn answer(&self, call: Call) -> Answer {
        match call {
            Call::JudgeTables(tables) => self.judge_tables(tables),
            Call::JudgePlan(tables, plan) => self.judge_plan(tables, plan),
            Call::IsBasic(tables, plan) => self.is_basic(tables, plan),
            Call::CountOrders(tables, plan) => self.count_orders(tables, plan),
            Call::Unfold(tables, plan, allowance, list, a, b) => {
                self.unfold(tables, plan, allowance, list, a, b)
            }
            Call::UnfoldChecked(tables, plan, allowance, list, areas, check_areas) => {
                self.unfold_checked(tables, plan, allowance, list, areas, check_areas)
            }
            Call::Reached(a, b, steps, size, plan_area) => {
                self.reached(a, b, steps, size, plan_area)
            }
            Call::CheckRewriting(tables, start, claimed, rewriting, a, b) => {
                self.check_rewriting(tables, start, claimed, rewriting, a, b)
            }
            Call::ReadStation(file, tables_area, plan_area) => {
                self.read_station(file, tables_area, plan_area)
            }
            Call::WriteStation(tables, plan, file_area) => {
                self.write_station(tables, plan, file_area)
            }
            Call::ListStation(file, out) => self.list_station(file, out),
            Call::ReadText(tables, text, plan_area) => self.read_text(tables, text, plan_area),
            Call::FreshWalk(tables, plan, marks, finish) => {
                self.fresh_walk(tables, plan, marks, finish)
            }
            Call::Walk(tables, plan, marks, message, finish) => {
                self.walk(tables, plan, marks, message, finish)
            }
            Call::Precedes(tables, plan, first, second) => {
                self.precedes(tables, plan, first, second)
            }
            Call::FixForm(tables, plan, area) => self.fix_form(tables, plan, area),
        }
    }
}

#[test]
fn an_undamaged_copy_agrees() {
    let agreement = compare(&Reference, &Damaged(Nothing), 4000, 1).unwrap();
    assert_eq!(agreement.numbers.values().sum::<u64>(), 4000);
    // Every number but some rare ones comes up.
    let met: Vec<u8> = agreement.numbers.into_keys().collect();
    let listed = [1..=8, 11..=18, 31..=36, 51..=55, 61..=63, 70..=75];
    for number in listed.into_iter().flatten() {
        assert!(met.contains(&number), "{number}");
    }
}

/// What the copies change is the one thing that their damage says: the forms are made as they should
/// be where nothing is damaged.
#[test]
fn an_undamaged_copy_makes_forms() {
    let mut made = 0;
    for seed in 0..8000 {
        let case = Case::draw(seed);
        if let (Case::FixForm(fixing), 0 | 74) = (&case, case.run(&Reference).answer.number) {
            let form = form(&fixing.plan);
            assert!(Damaged(Nothing).form(&fixing.plan) == form, "{seed}");
            made += 1;
        }
    }
    assert!(made > 300, "{made}");
}

/// The same of rewritings: the checker's copy answers as the reference where nothing is damaged.
#[test]
fn an_undamaged_copy_checks() {
    let mut checked = 0;
    for seed in 0..60_000 {
        let case = Case::draw(seed);
        if let Case::CheckRewriting(_) | Case::TurnedRound(_) = case {
            let [first, second] = [case.run(&Reference), case.run(&Damaged(Nothing))];
            assert!(first == second, "{seed}");
            checked += 1;
        }
    }
    assert!(checked > 6000, "{checked}");
}

#[test]
fn every_damage_is_found() {
    for damage in ALL {
        let found = compare(&Reference, &Damaged(damage), 40_000, 4);
        let difference = found.expect_err(&format!("{damage:?} is found"));
        assert_ne!(difference.first, difference.second, "{damage:?}");
    }
}

#[test]
fn a_difference_is_made_small_and_printed() {
    let difference = compare(&Reference, &Damaged(Allowance), 10_000, 3).unwrap_err();
    let Case::Unfold(case) = &difference.case else {
        panic!("{difference}");
    };
    // A smallest plan that takes a step, and the least of everything else.
    let words = case.plan.len();
    assert!(words <= 3, "{difference}");
    assert_eq!((case.allowance, case.list.len()), (1, 0));
    assert_eq!((case.a.len(), case.b.len()), (words, words));
    let printed = difference.to_string();
    assert!(printed.contains("allowance: 1\n"), "{printed}");
    assert!(printed.contains("  first: number 35, values [0, "));
    assert!(printed.contains("  second: number 34, values [0, "));
}

#[test]
fn a_count_is_made_small_and_printed() {
    let difference = compare(&Reference, &Damaged(DeadStopOrders), 10_000, 3).unwrap_err();
    let Case::CountOrders(_, plan) = &difference.case else {
        panic!("{difference}");
    };
    assert_eq!(plan[..], [0], "{difference}");
    let printed = difference.to_string();
    assert!(printed.contains("  plan: [0]\n"), "{printed}");
    assert!(printed.contains("  first: number 0, values [0, 1], place 0\n"));
    assert!(printed.contains("  second: number 0, values [1, 0], place 0\n"));
}

#[test]
fn a_text_is_made_small_and_printed() {
    let difference = compare(&Reference, &Damaged(TextSign), 10_000, 3).unwrap_err();
    let Case::ReadText(case) = &difference.case else {
        panic!("{difference}");
    };
    assert_eq!((case.text.len(), case.plan.len()), (7, 3), "{difference}");
    let printed = difference.to_string();
    assert!(printed.contains("  text: \"("), "{printed}");
    assert!(printed.contains(" < "), "{printed}");
    // A fault of a long text needs few of its characters.
    let difference = compare(&Reference, &Damaged(TextZero), 10_000, 6).unwrap_err();
    let printed = difference.to_string();
    assert!(printed.contains("  text: \"00\"\n"), "{printed}");
}

#[test]
fn a_walk_is_made_small_and_printed() {
    let difference = compare(&Reference, &Damaged(WalkBranch), 10_000, 26).unwrap_err();
    let Case::Walk(case) = &difference.case else {
        panic!("{difference}");
    };
    // Two products, each with a mark, and nothing else.
    let marks = [0, 0, 1, 0, 0, 1, 0];
    assert_eq!(
        (case.plan.len(), &case.marks[..]),
        (7, &marks[..]),
        "{difference}"
    );
    let printed = difference.to_string();
    assert!(printed.contains("  marks: [0, 0, 1, 0, 0, 1, 0]\n  finished: false\n"));
    assert!(
        printed.contains(", finish 0\n    [0, 1, 0, 0, 1, 0, 0]\n"),
        "{printed}"
    );
    // A list of messages needs one; each call is printed.
    let difference = compare(&Reference, &Damaged(WalkSum), 10_000, 24).unwrap_err();
    let Case::Messages(case) = &difference.case else {
        panic!("{difference}");
    };
    assert_eq!(
        (case.messages.len(), case.fresh.plan.len()),
        (1, 5),
        "{difference}"
    );
    let printed = difference.to_string();
    assert_eq!(printed.matches("number 0, ").count(), 4, "{printed}");
}

#[test]
fn a_precedence_is_made_small_and_printed() {
    let difference = compare(&Reference, &Damaged(BeforeGreatest), 10_000, 9).unwrap_err();
    let Case::Precedes(case) = &difference.case else {
        panic!("{difference}");
    };
    // The second action twice, and the least actions.
    assert_eq!((case.plan.len(), case.tables[0]), (3, 2), "{difference}");
    let printed = difference.to_string();
    assert!(printed.contains("  first: 2, second: 1\n"), "{printed}");
    assert!(printed.contains("  first: number 0, values [0, 0], place 0\n"));
    assert!(printed.contains("  second: number 0, values [0, 1], place 0\n"));
    // A plan as long as can be needs few of its words.
    let difference = compare(&Reference, &Damaged(BeforeEnd), 10_000, 58).unwrap_err();
    let (drawn, small) = (Case::draw(difference.seed), &difference.case);
    let (Case::Precedes(drawn), Case::Precedes(small)) = (&drawn, small) else {
        panic!("{difference}");
    };
    assert_eq!((drawn.plan.len(), small.plan.len()), (16_383, 3));
}

#[test]
fn a_writing_is_made_small_and_printed() {
    // A plan of many blocks needs one of its words, and the area stays one byte too short.
    let difference = compare(&Reference, &Damaged(WriteShort), 10_000, 14).unwrap_err();
    let (drawn, small) = (Case::draw(difference.seed), &difference.case);
    let (Case::WriteStation(drawn), Case::WriteStation(small)) = (&drawn, small) else {
        panic!("{difference}");
    };
    assert_eq!((drawn.plan.len(), drawn.area.len()), (16_384, 19_455));
    assert_eq!((&small.plan[..], small.area.len()), (&[0][..], 3071));
    let printed = difference.to_string();
    assert!(printed.starts_with("difference in the case of seed "));
    assert!(printed.contains("write_station\n  tables: "), "{printed}");
    assert!(printed.contains("  plan: [0]\n  file area: [255; 3071]\n"));
    assert!(printed.contains("  first: number 74, values [0, 0], place 0\n    [255; 3071]\n"));
    // Of a file, what is not zero.
    let file = "    3071 bytes, zero but 2:1 4:248 5:1 ";
    let second = format!("  second: number 0, values [3072, 0], place 0\n{file}");
    assert!(printed.contains(&second), "{printed}");
}

#[test]
fn a_round_trip_is_made_small_and_printed() {
    let difference = compare(&Reference, &Damaged(WriteRoom), 10_000, 2).unwrap_err();
    let Case::Reread(case) = &difference.case else {
        panic!("{difference}");
    };
    let writing = &case.writing;
    assert_eq!((&writing.plan[..], writing.area.len()), (&[0][..], 3072));
    // The first implementation goes on to read what it wrote, and the second has written nothing.
    assert_eq!(difference.first.before.len(), 1);
    assert_eq!(difference.second.before.len(), 0);
    let printed = difference.to_string();
    assert!(printed.contains("write_station, then read_station\n"));
    assert!(printed.contains("  second: number 74, "), "{printed}");
    // Of a file of 22 blocks six are enough.
    let difference = compare(&Reference, &Damaged(WriteRoom), 10_000, 13).unwrap_err();
    let (drawn, small) = (Case::draw(difference.seed), &difference.case);
    let (Case::Rewrite(drawn), Case::Rewrite(small)) = (&drawn, small) else {
        panic!("{difference}");
    };
    let lengths = [drawn, small].map(|case| (case.reading.file.len(), case.area.len()));
    assert_eq!(lengths, [(11_264, 11_264), (3072, 3072)], "{difference}");
    let printed = difference.to_string();
    assert!(printed.contains("read_station, then write_station\n"));
    assert!(printed.contains("  file area: [255; 3072]\n"), "{printed}");
}

#[test]
fn a_form_is_made_small_and_printed() {
    let difference = compare(&Reference, &Damaged(FormUnsorted), 10_000, 11).unwrap_err();
    let Case::FixForm(case) = &difference.case else {
        panic!("{difference}");
    };
    assert_eq!((case.plan.len(), case.area.len()), (3, 3), "{difference}");
    let printed = difference.to_string();
    assert!(printed.contains("fix_form\n  tables: "), "{printed}");
    assert!(printed.contains("  plan: [2, 1, 64]\n  form area: [255, 255, 255]\n"));
    assert!(printed.contains("  first: number 0, values [3, 0], place 0\n    [1, 2, 64]\n"));
    assert!(printed.contains("  second: number 0, values [3, 0], place 0\n    [2, 1, 64]\n"));
    // Of a plan as long as can be few words are enough, and of two calls one: three summands for
    // the groups of a sum.
    for seed in [24, 17, 51] {
        let difference = compare(&Reference, &Damaged(FormRight), 10_000, seed).unwrap_err();
        let drawn = match Case::draw(difference.seed) {
            Case::FixForm(case) => case,
            Case::FormOfForm(case) => case.fixing,
            Case::TwoForms(case) => case.fixing,
            _ => panic!("{difference}"),
        };
        let Case::FixForm(small) = &difference.case else {
            panic!("{difference}");
        };
        assert_eq!(drawn.plan.len(), 16_383, "{difference}");
        assert_eq!((small.plan.len(), small.area.len()), (5, 5), "{difference}");
    }
}

#[test]
fn a_rewriting_is_made_small_and_printed() {
    let difference = compare(&Reference, &Damaged(BackHigh), 10_000, 3).unwrap_err();
    let Case::CheckRewriting(case) = &difference.case else {
        panic!("{difference}");
    };
    // One step backwards with one word is enough.
    let records = cut(&case.rewriting).unwrap();
    assert_eq!(records.len(), 1, "{difference}");
    assert_eq!(case.rewriting[3..5], [1, 0], "{difference}");
    assert_eq!((&case.start[..], case.a.len()), (&[0][..], 1));
    let printed = difference.to_string();
    assert!(printed.contains("check_rewriting\n  tables: "), "{printed}");
    assert!(printed.contains("  rewriting: [1"), "{printed}");
    assert!(printed.contains("    step 0: law "), "{printed}");
    assert!(printed.contains(", backwards to ["), "{printed}");
    assert!(printed.contains("  second: number 16, values [0, 0], place 0\n"));
    // Whole records are left out, so that what is behind them stays.
    let difference = compare(&Reference, &Damaged(BackOrder), 10_000, 3).unwrap_err();
    let Case::CheckRewriting(case) = &difference.case else {
        panic!("{difference}");
    };
    assert_eq!(case.rewriting.len(), 8, "{difference}");
    let printed = difference.to_string();
    assert!(printed.contains(", backwards to []\n"), "{printed}");
    assert!(printed.contains(": no law "), "{printed}");
    assert!(printed.contains("  first: number 17, values [0, 0], place "));
    assert!(printed.contains("  second: number 75, values [0, 0], place "));
}

#[test]
fn rewritings_are_printed() {
    let case = |rewriting: Vec<u8>| {
        Case::CheckRewriting(CheckCase {
            tables: vec![4],
            start: vec![1],
            claimed: vec![1],
            rewriting,
            a: vec![255; 9],
            b: vec![],
        })
    };
    let both = [
        &[11, 2, 1, 139, 10, 0, 3, 0, 1, 2, 66][..],
        &[128, 0, 0, 129, 1],
    ];
    let printed = case(both.concat()).to_string();
    let steps = [
        "    step 0: law 11 at 258",
        "    step 1: law 11 at 10, backwards to [1, 2, 66]",
        "    step 2: no law 128",
        "    cut short: [129, 1]",
        "  a: [255; 9]",
    ];
    assert!(printed.contains(&steps.join("\n")), "{printed}");
    // Of many steps the first ones.
    let printed = case([1, 2, 0].repeat(42)).to_string();
    let last = "    step 39: law 1 at 2\n    further steps: 6 bytes\n  a: ";
    assert!(printed.contains(last), "{printed}");
    assert!(case(vec![]).to_string().contains("  rewriting: []\n  a: "));
}

#[test]
fn a_rewriting_turned_round_is_made_small_and_printed() {
    let drawn = (0..).map(Case::draw);
    let mut drawn = drawn.filter(|case| matches!(case, Case::TurnedRound(_)));
    let printed = drawn.next().unwrap().to_string();
    let calls = "check_rewriting, then check_rewriting turned round\n  tables: ";
    assert!(printed.starts_with(calls), "{printed}");
    assert!(printed.contains("\n  c: ["), "{printed}");
    assert!(printed.contains("\n  d: ["), "{printed}");
    // Of two calls one is enough, and of its steps one.
    let damaged = (0..200).map(|seed| compare(&Reference, &Damaged(BackSteps), 10_000, seed));
    let turned = damaged.filter_map(Result::err).find(|difference| {
        let drawn = Case::draw(difference.seed);
        matches!(drawn, Case::TurnedRound(_))
    });
    let difference = turned.unwrap();
    let Case::CheckRewriting(case) = &difference.case else {
        panic!("{difference}");
    };
    assert_eq!(cut(&case.rewriting).unwrap().len(), 1, "{difference}");
    let printed = difference.to_string();
    assert!(printed.contains("  first: number "), "{printed}");
    assert!(printed.contains(", values [1, "), "{printed}");
}

#[test]
fn two_forms_are_printed() {
    let drawn = |is_wanted: fn(&Case) -> bool| (0..).map(Case::draw).find(is_wanted).unwrap();
    let of_form = drawn(|case| matches!(case, Case::FormOfForm(_))).to_string();
    assert!(of_form.starts_with("fix_form, then fix_form of the form\n  tables: "));
    assert_eq!(of_form.lines().count(), 5, "{of_form}");
    assert!(of_form.contains("\n  second form area: ["), "{of_form}");
    let two = drawn(|case| matches!(case, Case::TwoForms(_))).to_string();
    assert!(two.starts_with("fix_form, then fix_form of a second plan\n  tables: "));
    assert_eq!(two.lines().count(), 6, "{two}");
    assert!(two.contains("\n  second plan: ["), "{two}");
}

#[test]
fn every_law_is_used() {
    let mut unfolded = BTreeSet::new();
    let mut checked = [BTreeSet::new(), BTreeSet::new()];
    for seed in 0..16_000 {
        let case = Case::draw(seed);
        let outcome = case.run(&Reference);
        let steps = outcome.answer.values[0];
        match case {
            Case::Unfold(_) => {
                let records = outcome.lent[0].chunks(3).take(steps);
                unfolded.extend(records.map(|step| step[0]));
            }
            Case::CheckRewriting(case) => note_laws(&case.rewriting, steps, &mut checked),
            Case::TurnedRound(case) => {
                let second = turned_case(&case.checking).unwrap();
                note_laws(&second.rewriting, steps, &mut checked);
            }
            _ => {}
        }
    }
    assert_eq!(unfolded, (5..=32).collect());
    assert_eq!(checked, [(1..=32).collect(), (1..=32).collect()]);
}

/// Notes the laws of the first so many records, forwards and backwards.
fn note_laws(rewriting: &[u8], steps: usize, laws: &mut [BTreeSet<u8>; 2]) {
    let records = cut(rewriting).unwrap_or_default();
    for record in records.iter().take(steps) {
        let way = usize::from(record.left.is_some());
        laws[way].extend(record.law());
    }
}

#[test]
fn the_same_seed_draws_the_same_case() {
    let mut random = Random::new(4);
    for _ in 0..100 {
        let seed = random.number();
        let (one, other) = (Case::draw(seed), Case::draw(seed));
        assert_eq!(one.to_string(), other.to_string());
    }
}

#[test]
fn every_kind_of_listing_is_drawn() {
    let mut met = BTreeSet::new();
    for seed in 0..16_000 {
        let case = Case::draw(seed);
        if let Case::ListStation(_) = case {
            let outcome = case.run(&Reference);
            let text = String::from_utf8_lossy(&outcome.lent[0]);
            let first = text.lines().next().unwrap_or("");
            let words: Vec<&str> = first.split(' ').collect();
            met.insert(match (outcome.answer.number, &words[..]) {
                (0, ["end", "0", .., "orders", _, "stuck", "0"]) => "end 0, orders".to_string(),
                (0, ["end", "0", .., "orders", "0", "stuck", _]) => "end 0, stuck".to_string(),
                (0, ["end", "0", ..]) => "end 0, orders and stuck".to_string(),
                (0, ["end", number, ..]) => format!("end {number}"),
                (0, ["refused", ..]) => "refused".to_string(),
                _ => "short".to_string(),
            });
        }
    }
    let kinds: Vec<&str> = met.iter().map(String::as_str).collect();
    assert_eq!(
        kinds,
        [
            "end 0, orders",
            "end 0, orders and stuck",
            "end 0, stuck",
            "end 34",
            "end 36",
            "refused",
            "short"
        ]
    );
}

#[test]
fn every_kind_of_count_is_drawn() {
    let (mut met, mut longest) = (BTreeMap::new(), 0);
    for seed in 0..24_000 {
        let case = Case::draw(seed);
        let Case::CountOrders(_, plan) = &case else {
            continue;
        };
        let answer = case.run(&Reference).answer;
        let kind = match (answer.number, answer.values) {
            (1..=8, _) => "tables",
            (11..=14, _) => "plan",
            (_, [0, 0]) => "not basic",
            (_, [0, 1]) if plan[..] == [0] => "dead stop alone",
            (_, [0, 1]) => "one stuck",
            (_, [0, _]) => "several stuck",
            (_, [1, 0]) => "one order",
            (_, [_, 0]) => "several orders",
            (_, [_, _]) => "orders and stuck",
        };
        *met.entry(kind).or_insert(0) += 1;
        if answer.values != [0, 0] {
            longest = longest.max(plan.len());
        }
    }
    let kinds: Vec<&str> = met.keys().copied().collect();
    assert_eq!(
        kinds,
        [
            "dead stop alone",
            "not basic",
            "one order",
            "one stuck",
            "orders and stuck",
            "plan",
            "several orders",
            "several stuck",
            "tables"
        ]
    );
    assert!(met.values().all(|&count| count > 5), "{met:?}");
    assert_eq!(longest, 16_383);
}

#[test]
fn every_kind_of_text_is_drawn() {
    let (mut met, mut longest) = (BTreeSet::new(), 0);
    for seed in 0..8000 {
        let case = Case::draw(seed);
        let Case::ReadText(text) = &case else {
            continue;
        };
        let answer = case.run(&Reference).answer;
        let (text, room) = (&text.text, text.plan.len());
        longest = longest.max(answer.values[0]);
        met.insert(match answer.number {
            1..=8 => "tables",
            0 if answer.values[0] == room => "read, the area full",
            0 => "read",
            61 if answer.place == text.len() => "ends early",
            61 if text[answer.place].is_ascii_digit() => "no action",
            61 => "no character",
            62 => "too deep",
            63 if room < 16_384 => "too long for the area",
            _ => "too long",
        });
    }
    let kinds: Vec<&str> = met.into_iter().collect();
    assert_eq!(
        kinds,
        [
            "ends early",
            "no action",
            "no character",
            "read",
            "read, the area full",
            "tables",
            "too deep",
            "too long",
            "too long for the area"
        ]
    );
    assert_eq!(longest, 16_384);
}

/// The plan of a walk, and the outcome of each of its calls; none for another case.
fn walked(case: &Case) -> Option<(&[u8], Vec<Outcome>)> {
    let plan = match case {
        Case::FreshWalk(case) => &case.plan,
        Case::Walk(case) => &case.plan,
        Case::Messages(case) => &case.fresh.plan,
        _ => return None,
    };
    let last = case.run(&Reference);
    let mut outcomes = last.before.clone();
    outcomes.push(last);
    Some((plan, outcomes))
}

#[test]
fn every_kind_of_walk_is_drawn() {
    let (mut met, mut longest) = (BTreeSet::new(), 0);
    for seed in 0..8000 {
        let case = Case::draw(seed);
        let Some((plan, outcomes)) = walked(&case) else {
            continue;
        };
        let begins = !matches!(case, Case::Walk(_));
        for (index, outcome) in outcomes.iter().enumerate() {
            let marks = &outcome.lent[0];
            let marked = marks.iter().filter(|&&mark| mark != 0).count();
            let begun = begins && index == 0;
            met.insert(match (outcome.answer.number, outcome.finish) {
                (1..=8, _) => "tables",
                (11..=14, _) => "plan",
                (70, _) if !is_basic(plan) => "not basic",
                (70, _) if marks.len() < plan.len() => "marks too short",
                (70, _) => "marks too long",
                (71, _) => "outside",
                (72, _) if marked == 0 => "no path, no mark",
                (72, Some(0)) => "no path",
                (72, _) => "no path, but a finish before",
                (_, _) if begun => "begun",
                (_, Some(0)) if marked > 1 => "taken, several marks",
                (_, Some(0)) => "taken, one mark",
                (_, _) if marked > 0 => "taken, marks and a finish",
                (_, _) => "taken, a finish alone",
            });
            if outcome.answer.number == 0 {
                longest = longest.max(plan.len());
            }
        }
    }
    let kinds: Vec<&str> = met.into_iter().collect();
    assert_eq!(
        kinds,
        [
            "begun",
            "marks too long",
            "marks too short",
            "no path",
            "no path, but a finish before",
            "no path, no mark",
            "not basic",
            "outside",
            "plan",
            "tables",
            "taken, a finish alone",
            "taken, marks and a finish",
            "taken, one mark",
            "taken, several marks"
        ]
    );
    assert_eq!(longest, 16_383);
}

#[test]
fn messages_are_taken_one_after_the_other() {
    let (mut taken, mut turned_back) = (0, 0);
    for seed in 0..8000 {
        let case = Case::draw(seed);
        if let (Case::Messages(_), Some((_, outcomes))) = (&case, walked(&case)) {
            let numbers = outcomes.iter().map(|outcome| outcome.answer.number);
            let numbers: Vec<u8> = numbers.skip(1).collect();
            taken = taken.max(numbers.iter().filter(|&&number| number == 0).count());
            let refused = |pair: &&[u8]| matches!(pair, [71 | 72, 0]);
            turned_back += numbers.windows(2).filter(refused).count();
        }
    }
    // Many in one walk, and some right behind one that was refused.
    assert!(taken > 5 && turned_back > 20, "{taken}, {turned_back}");
}

/// The kind of a case by its answer, and by where the second action appears.
fn kind_of_precedence(case: &PrecedenceCase, answer: Answer) -> &'static str {
    let (plan, first, second) = (&case.plan, case.first, case.second);
    let outside = |action: u8| action == 0 || action > case.tables[0];
    let appears: Vec<usize> = (0..plan.len()).filter(|&at| plan[at] == second).collect();
    match (answer.number, answer.values, &appears[..]) {
        (1..=8, _, _) => "tables",
        (11..=14, _, _) => "plan",
        (73, _, _) if !is_basic(plan) => "73, the plan not basic",
        (73, _, _) if outside(first) && outside(second) => "73, both outside",
        (73, _, _) if outside(first) => "73, the first outside",
        (73, _, _) if outside(second) => "73, the second outside",
        (73, _, _) => "73, equal",
        (70, _, _) => "70",
        (_, [1, _], []) => "yes, none appears",
        (_, [1, _], [_]) => "yes, one appears",
        (_, [1, _], _) => "yes, several appear",
        (_, [_, _], [_]) => "no, one appears",
        (_, [_, at], [least, ..]) if at == *least => "no, the first that appears",
        (_, [_, _], _) => "no, a later one",
    }
}

#[test]
fn every_kind_of_precedence_is_drawn() {
    let (mut met, mut longest) = (BTreeMap::new(), [0, 0]);
    for seed in 0..16_000 {
        let case = Case::draw(seed);
        let answer = case.run(&Reference).answer;
        if let Case::Precedes(case) = &case {
            *met.entry(kind_of_precedence(case, answer)).or_insert(0) += 1;
            if answer.number == 0 {
                let longest = &mut longest[answer.values[0]];
                *longest = case.plan.len().max(*longest);
            }
        }
    }
    let kinds: Vec<&str> = met.keys().copied().collect();
    assert_eq!(
        kinds,
        [
            "70",
            "73, both outside",
            "73, equal",
            "73, the first outside",
            "73, the plan not basic",
            "73, the second outside",
            "no, a later one",
            "no, one appears",
            "no, the first that appears",
            "plan",
            "tables",
            "yes, none appears",
            "yes, one appears",
            "yes, several appear"
        ]
    );
    assert!(met.values().all(|&count| count > 5), "{met:?}");
    assert_eq!(longest, [16_383; 2]);
}

/// The kind of a case by its answer, and by how long the area is beside the file.
fn kind_of_writing(case: &WriteCase, number: u8) -> &'static str {
    let (area, file) = (case.area.len(), file_length(&case.plan));
    match number {
        1..=8 if area < file => "tables, the area too short",
        1..=8 => "tables",
        11..=14 if area < file => "plan, the area too short",
        11..=14 => "plan",
        74 if area == 0 => "74, no area",
        74 if area + 1 == file => "74, one byte too short",
        74 => "74",
        _ if area == file => "written, the area full",
        _ if area == file + 1 => "written, one byte behind",
        _ => "written",
    }
}

#[test]
fn every_kind_of_writing_is_drawn() {
    let (mut met, mut numbers, mut sizes) = (BTreeMap::new(), BTreeSet::new(), BTreeSet::new());
    for seed in 0..32_000 {
        let case = Case::draw(seed);
        if let Case::WriteStation(writing) = &case {
            let number = case.run(&Reference).answer.number;
            *met.entry(kind_of_writing(writing, number)).or_insert(0) += 1;
            numbers.insert(number);
            if number == 0 {
                sizes.insert(writing.plan.len());
            }
        }
    }
    let kinds: Vec<&str> = met.keys().copied().collect();
    assert_eq!(
        kinds,
        [
            "74",
            "74, no area",
            "74, one byte too short",
            "plan",
            "plan, the area too short",
            "tables",
            "tables, the area too short",
            "written",
            "written, one byte behind",
            "written, the area full"
        ]
    );
    assert!(met.values().all(|&count| count > 5), "{met:?}");
    let all = (0..=8).chain(11..=14).chain([74]);
    assert_eq!(numbers, all.collect());
    // A block full, begun, and all of the longest plan's.
    for size in [1, 503, 504, 505, 1008, 16_128, 16_129, 16_384] {
        assert!(sizes.contains(&size), "{size}");
    }
}

/// The kinds of a check by its answer, and by the records around the one that counts.
fn kinds_of_check(case: &CheckCase, answer: Answer) -> Vec<&'static str> {
    let no_plan = |record: &Record| {
        let refused = |left: &[u8]| judge_plan(&case.tables, left).is_err();
        record.left.is_some_and(refused)
    };
    let whole = spans(&case.rewriting).last().map_or(0, |last| last.end);
    let (whole, rest) = case.rewriting.split_at(whole);
    let records = cut(whole).unwrap();
    let unknown = records.iter().any(|record| record.law().is_none());
    let back = |steps: usize| {
        records
            .get(steps)
            .is_some_and(|record| record.left.is_some())
    };
    let [steps, _] = answer.values;
    let mut kinds = Vec::new();
    match answer.number {
        1..=8 => kinds.push("tables"),
        11..=14 => kinds.push("plan"),
        15 => kinds.push("15"),
        18 => kinds.push("18"),
        16 => {
            kinds.push(match rest.len() {
                1 | 2 => "16 in the place",
                3 | 4 => "16 in the length",
                _ => "16 in the words",
            });
            kinds.extend(unknown.then_some("16 before 17"));
            kinds.extend(records.iter().any(no_plan).then_some("16 before 75"));
        }
        17 => {
            kinds.push(match records[answer.place].first {
                0 => "17 for 0",
                128 => "17 for 128",
                161 => "17 for 161",
                _ => "17 for another byte",
            });
            kinds.extend(records.iter().any(no_plan).then_some("17 before 75"));
        }
        75 => {
            let left = records[answer.place].left.unwrap();
            let why = judge_plan(&case.tables, left).unwrap_err().number;
            kinds.push(match (why, left.len()) {
                (11, 0) => "75 for no words",
                (11, _) => "75 for too many words",
                (12, _) => "75 for no word",
                (13, _) => "75 for too few operands",
                _ => "75 for plans left over",
            });
            kinds.extend((answer.place > 0).then_some("75 at a later step"));
        }
        31 if back(steps) => kinds.push("31 backwards"),
        31 => kinds.push("31 forwards"),
        32 if back(steps) => kinds.push("32 backwards"),
        32 => kinds.push("32 forwards"),
        33 => kinds.push("33"),
        _ if steps == 0 => kinds.push("accepted, no step"),
        _ => {
            let backwards = (0..steps).filter(|&step| back(step)).count();
            kinds.push(match backwards {
                0 => "accepted, forwards",
                _ if backwards == steps => "accepted, backwards",
                _ => "accepted, both ways",
            });
        }
    }
    kinds
}

#[test]
fn every_kind_of_check_is_drawn() {
    let (mut met, mut numbers) = (BTreeMap::new(), BTreeSet::new());
    for seed in 0..60_000 {
        let case = Case::draw(seed);
        if let Case::CheckRewriting(check) = &case {
            let answer = case.run(&Reference).answer;
            numbers.insert(answer.number);
            for kind in kinds_of_check(check, answer) {
                *met.entry(kind).or_insert(0) += 1;
            }
        }
    }
    let kinds: Vec<&str> = met.keys().copied().collect();
    assert_eq!(
        kinds,
        [
            "15",
            "16 before 17",
            "16 before 75",
            "16 in the length",
            "16 in the place",
            "16 in the words",
            "17 before 75",
            "17 for 0",
            "17 for 128",
            "17 for 161",
            "17 for another byte",
            "18",
            "31 backwards",
            "31 forwards",
            "32 backwards",
            "32 forwards",
            "33",
            "75 at a later step",
            "75 for no word",
            "75 for no words",
            "75 for plans left over",
            "75 for too few operands",
            "75 for too many words",
            "accepted, backwards",
            "accepted, both ways",
            "accepted, forwards",
            "accepted, no step",
            "plan",
            "tables"
        ]
    );
    assert!(met.values().all(|&count| count > 5), "{met:?}");
    let all = (0..=8).chain(11..=18).chain(31..=33).chain([75]);
    assert_eq!(numbers, all.collect());
}

#[test]
fn rewritings_turned_round_come_back() {
    let (mut accepted, mut others, mut longest) = (0, 0, 0);
    for seed in 0..32_000 {
        let case = Case::draw(seed);
        let Case::TurnedRound(turned) = &case else {
            continue;
        };
        let outcome = case.run(&Reference);
        let [before] = &outcome.before[..] else {
            panic!("{seed}");
        };
        assert_eq!(before.answer.number, 0);
        let start = &turned.checking.start;
        match outcome.answer.number {
            0 => {
                // As many steps, and the start plan is reached.
                let [steps, size] = outcome.answer.values;
                assert_eq!((steps, size), (before.answer.values[0], start.len()));
                let area = &outcome.lent[steps % 2];
                assert_eq!(area[..size], start[..], "{seed}");
                longest = longest.max(steps);
                accepted += 1;
            }
            // The second areas may be too short.
            number => {
                assert!([15, 32].contains(&number), "{seed}");
                others += 1;
            }
        }
    }
    assert!(accepted > 200 && others > 10, "{accepted} {others}");
    assert!(longest > 100, "{longest}");
}

#[test]
fn round_trips_come_back() {
    let (mut reread, mut rewritten) = (Vec::new(), Vec::new());
    for seed in 0..32_000 {
        let case = Case::draw(seed);
        let outcome = case.run(&Reference);
        match &case {
            // The reader finds what the writer was handed.
            Case::Reread(case) => {
                let (writing, size) = (&case.writing, outcome.before[0].answer.values[0]);
                let wanted = [(&writing.tables, &case.tables), (&writing.plan, &case.plan)];
                for (found, (content, area)) in outcome.lent.iter().zip(wanted) {
                    assert!(*found == padded(content, area.len()), "{seed}");
                }
                reread.push(size);
            }
            // The writer leaves the file that the reader was handed.
            Case::Rewrite(case) => {
                let wanted = padded(&case.reading.file, case.area.len());
                assert!(outcome.lent[0] == wanted, "{seed}");
                rewritten.push(case.reading.file.len());
            }
            _ => continue,
        }
        assert_eq!((outcome.answer.number, outcome.before.len()), (0, 1));
    }
    for sizes in [reread, rewritten] {
        assert!(sizes.len() > 100, "{}", sizes.len());
        assert_eq!(sizes.iter().max(), Some(&(38 * 512)));
    }
}

/// Bytes with zeros behind them.
fn padded(content: &[u8], length: usize) -> Vec<u8> {
    let mut padded = content.to_vec();
    padded.resize(length, 0);
    padded
}

/// The kind of a case by its answer, and by how long the area is beside the plan and its form.
fn kind_of_form(case: &FormCase, answer: Answer) -> &'static str {
    let (area, plan, size) = (case.area.len(), case.plan.len(), answer.values[0]);
    match answer.number {
        1..=8 if area == 0 => "tables, no area",
        1..=8 => "tables",
        11..=14 if area == 0 => "plan, no area",
        11..=14 => "plan",
        70 if area == 0 => "70, no area",
        70 if area < plan => "70, the area shorter than the plan",
        70 => "70",
        74 if area == 0 => "74, no area",
        74 if area + 1 == form(&case.plan).len() => "74, one byte too short",
        74 => "74",
        _ if area == size && area < plan => "fixed, the area full and shorter than the plan",
        _ if area == size => "fixed, the area full",
        _ if area < plan => "fixed, the area shorter than the plan",
        _ => "fixed",
    }
}

/// The kind of a plan by how its form differs from it.
fn kind_of_fixed(plan: &[u8], form: &[u8]) -> &'static str {
    match (plan, form) {
        ([0], _) => "dead stop alone",
        ([_], _) => "an action alone",
        _ if form == plan => "in form",
        _ if form.len() == plan.len() => "in another order",
        _ if form.len() > 1 => "in fewer words",
        _ => "in one word",
    }
}

#[test]
fn every_kind_of_form_is_drawn() {
    let (mut met, mut numbers) = (BTreeMap::new(), BTreeSet::new());
    // The words of the longest plan, of the longest form, and of the longest plan with a short one.
    let mut longest = [0; 3];
    for seed in 0..32_000 {
        let case = Case::draw(seed);
        let Case::FixForm(fixing) = &case else {
            continue;
        };
        let outcome = case.run(&Reference);
        *met.entry(kind_of_form(fixing, outcome.answer)).or_insert(0) += 1;
        numbers.insert(outcome.answer.number);
        if let Some(form) = made(&outcome) {
            *met.entry(kind_of_fixed(&fixing.plan, form)).or_insert(0) += 1;
            let words = fixing.plan.len();
            let with_short = if form.len() < 99 { words } else { 0 };
            let found = [words, form.len(), with_short];
            let most = longest.iter_mut().zip(found);
            most.for_each(|(longest, words)| *longest = words.max(*longest));
        }
    }
    let kinds: Vec<&str> = met.keys().copied().collect();
    assert_eq!(
        kinds,
        [
            "70",
            "70, no area",
            "70, the area shorter than the plan",
            "74",
            "74, no area",
            "74, one byte too short",
            "an action alone",
            "dead stop alone",
            "fixed",
            "fixed, the area full",
            "fixed, the area full and shorter than the plan",
            "fixed, the area shorter than the plan",
            "in another order",
            "in fewer words",
            "in form",
            "in one word",
            "plan",
            "plan, no area",
            "tables",
            "tables, no area"
        ]
    );
    assert!(met.values().all(|&count| count > 5), "{met:?}");
    let all = (0..=8).chain(11..=14).chain([70, 74]);
    assert_eq!(numbers, all.collect());
    assert_eq!(longest, [16_383; 3]);
}

#[test]
fn forms_come_again() {
    let (mut again, mut same, mut other) = (0, 0, 0);
    for seed in 0..32_000 {
        let case = Case::draw(seed);
        let (tables, plans) = match &case {
            Case::FormOfForm(case) => (&case.fixing.tables, [&case.fixing.plan; 2]),
            Case::TwoForms(case) => (&case.fixing.tables, [&case.fixing.plan, &case.plan]),
            _ => continue,
        };
        let outcome = case.run(&Reference);
        assert_eq!(outcome.before.len(), 1);
        let found = made(&outcome).unwrap();
        // The first area may be too short.
        let Some(first) = made(&outcome.before[0]) else {
            continue;
        };
        assert_eq!(first == found, alike(tables, plans[0], plans[1]), "{seed}");
        match &case {
            Case::FormOfForm(_) => again += 1,
            _ if first == found => same += 1,
            _ => other += 1,
        }
    }
    assert!(
        again > 50 && same > 50 && other > 50,
        "{again} {same} {other}"
    );
}

/// The form that a call left in its area; none where it was refused.
fn made(outcome: &Outcome) -> Option<&[u8]> {
    let answer = outcome.answer;
    (answer.number == 0).then(|| &outcome.lent[0][..answer.values[0]])
}

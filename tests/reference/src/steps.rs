//! Areas by name, each with a call of choose or promote, what it must answer and
//! what it must leave, worked out by hand.

use crate::area::Area;
use crate::call::{Answer, Call};
use crate::calls::{self, Cause, Choice, Promotion};
use crate::cases;
use crate::grid::{self, HELD_LIMIT};
use crate::jobfile;
use crate::program;

pub struct Case {
    pub name: &'static str,
    pub area: Area,
    /// Choose or promote.
    pub call: Call,
    pub answer: Answer,
    /// What a promotion appends, in order, so many levels as the job has axes. Where
    /// nothing is promoted the area is as it was.
    pub admitted: &'static [&'static [u32]],
}

pub fn cases() -> Vec<Case> {
    [wanted(), root_alone(), neighbours(), one_axis(), limits(), carried(), refused()]
        .into_iter()
        .flatten()
        .collect()
}

fn choose(name: &'static str, area: &Area, choice: Choice) -> Case {
    let answer = Answer::Choice(choice);
    Case { name, area: area.clone(), call: Call::Choose, answer, admitted: &[] }
}

fn promoted(
    name: &'static str,
    area: &Area,
    place: u64,
    admitted: &'static [&'static [u32]],
) -> Case {
    let answer = Answer::Promotion(Promotion::Promoted);
    Case { name, area: area.clone(), call: Call::Promote { place }, answer, admitted }
}

fn spent(name: &'static str, area: &Area, place: u64) -> Case {
    let answer = Answer::Promotion(Promotion::Spent);
    Case { name, area: area.clone(), call: Call::Promote { place }, answer, admitted: &[] }
}

fn refusal(name: &'static str, area: &Area, call: Call, cause: Cause) -> Case {
    Case { name, area: area.clone(), call, answer: Answer::Refused(cause), admitted: &[] }
}

/// A promote that is refused with 11.
fn not_active(name: &'static str, area: &Area, place: u64) -> Case {
    refusal(name, area, Call::Promote { place }, Cause::PlaceNotActive)
}

/// A job just started, in storage no longer than it must be.
fn started(axes: u32, threshold: u64, budget: u32) -> Area {
    let mut area = Area::empty(HELD_LIMIT, budget as usize);
    assert_eq!(calls::start(&mut area, axes, threshold, budget), Ok(()));
    area
}

/// The first wanted block with readings of 0 and this indicator.
fn deliver(area: &mut Area, indicator: u32) {
    let place = calls::first_wanted(area).expect("a block is wanted");
    let size = grid::block_size(&area.records[place].levels);
    assert_eq!(calls::deliver(area, &vec![0; size], indicator), Ok(()));
}

fn promote(area: &mut Area, place: u64) {
    assert_eq!(calls::promote(area, place), Ok(Promotion::Promoted));
}

/// Two axes, budget 64, threshold 40, the root delivered with indicator 40.
fn root_delivered() -> Area {
    let mut area = started(2, 40, 64);
    deliver(&mut area, 40);
    area
}

/// The same job with the root promoted and both neighbours delivered with indicator
/// 30: (2,1) at place 1 and (1,2) at place 2.
fn neighbours_delivered() -> Area {
    let mut area = root_delivered();
    promote(&mut area, 0);
    deliver(&mut area, 30);
    deliver(&mut area, 30);
    area
}

/// One axis, budget 129, indicators all 10, the places below this one promoted in
/// turn and all that is admitted delivered.
fn up_to_place(place: u64, threshold: u64) -> Area {
    let mut area = started(1, threshold, 129);
    deliver(&mut area, 10);
    for at in 0..place {
        promote(&mut area, at);
        if calls::first_wanted(&area).is_some() {
            deliver(&mut area, 10);
        }
    }
    area
}

/// Two axes: old (1,1), (2,1) and (3,1), active (1,2) at place 2 and (4,1) at place
/// 4, 11 readings reserved. By the rule (4,1) is next, which brings (5,1) and 19
/// readings; (1,2) brings (2,2) and (1,3) and 17.
fn two_ways(threshold: u64, budget: u32) -> Area {
    let mut area = started(2, threshold, budget);
    deliver(&mut area, 50);
    promote(&mut area, 0);
    deliver(&mut area, 60);
    deliver(&mut area, 5);
    promote(&mut area, 1);
    deliver(&mut area, 70);
    promote(&mut area, 3);
    deliver(&mut area, 80);
    area
}

/// Two axes, 5 pending for (1,2) at place 2 and 6 carried for (8,1), as the program
/// leaves the job, and then another threshold and budget.
fn five_and_six(threshold: u64, budget: u32) -> Area {
    let mut area = Area::empty(HELD_LIMIT, 137);
    program::run(&jobfile::parse(&cases::two_axes(9, 131)).expect("well-formed"), &mut area);
    (area.job.threshold, area.job.budget) = (threshold, budget);
    area
}

/// Right after start the root is wanted.
fn wanted() -> Vec<Case> {
    let area = started(2, 40, 64);
    let wanted = |name, call| refusal(name, &area, call, Cause::BlockWanted);
    let promote = |place| Call::Promote { place };
    vec![
        wanted("choose right after start", Call::Choose),
        wanted("promote 0 right after start", promote(0)),
        wanted("promote 1 right after start", promote(1)),
        wanted("promote 2^64 - 1 right after start", promote(u64::MAX)),
    ]
}

/// The threshold equal to the pending error, and the root alone.
fn root_alone() -> Vec<Case> {
    let area = root_delivered();
    vec![
        choose("choose at the threshold", &area, Choice::Met),
        not_active("promote 1, the held", &area, 1),
        not_active("promote 512", &area, 512),
        not_active("promote 2^32", &area, 1 << 32),
        not_active("promote 2^63", &area, 1 << 63),
        not_active("promote 2^64 - 1", &area, u64::MAX),
        promoted("promote 0 though met", &area, 0, &[&[2, 1], &[1, 2]]),
    ]
}

/// Two active indices of equal indicators.
fn neighbours() -> Vec<Case> {
    let area = neighbours_delivered();
    vec![
        choose("choose the first of equals", &area, Choice::Place(1)),
        not_active("promote 0, an old place", &area, 0),
        promoted("promote 1, the chosen place", &area, 1, &[&[3, 1]]),
        promoted("promote 2, the last place", &area, 2, &[&[1, 3]]),
        not_active("promote 3, the held", &area, 3),
        not_active("promote 2^32 + 2", &area, (1 << 32) + 2),
        not_active("promote 2^63 + 2", &area, (1 << 63) + 2),
    ]
}

/// One axis up to its last level.
fn one_axis() -> Vec<Case> {
    let last = up_to_place(7, 9);
    vec![
        choose("choose the last level", &last, Choice::Place(7)),
        promoted("promote 7, nothing is admitted", &last, 7, &[]),
        choose("choose at threshold 9, 10 carried", &up_to_place(8, 9), Choice::Capped),
        choose("choose at threshold 10, 10 carried", &up_to_place(8, 10), Choice::Met),
        not_active("promote 7, old and carried", &up_to_place(8, 10), 7),
    ]
}

/// At the edge of the budget.
fn limits() -> Vec<Case> {
    let mut four = started(2, 0, 4);
    deliver(&mut four, 0);
    let mut five = started(2, 0, 5);
    deliver(&mut five, 0);
    vec![
        choose("choose with indicator 0", &four, Choice::Met),
        spent("promote 0 with budget 4, though met", &four, 0),
        promoted("promote 0 with budget 5, though met", &five, 0, &[&[2, 1], &[1, 2]]),
        choose("choose with budget 18", &two_ways(9, 18), Choice::Place(4)),
        spent("promote 4 with budget 18, the chosen place", &two_ways(9, 18), 4),
        promoted("promote 2 with budget 18, another", &two_ways(9, 18), 2, &[&[2, 2], &[1, 3]]),
        spent("promote 2 with budget 16, another", &two_ways(9, 16), 2),
        spent("promote 2 with budget 16, though met", &two_ways(85, 16), 2),
        promoted("promote 4 with budget 19, though met", &two_ways(85, 19), 4, &[&[5, 1]]),
    ]
}

/// Where something is carried.
fn carried() -> Vec<Case> {
    let capped = five_and_six(9, 131);
    let roomy = five_and_six(9, 137);
    vec![
        choose("choose with 5 pending, 6 carried, threshold 9", &capped, Choice::Capped),
        choose("choose with 5 and 6, threshold 5", &five_and_six(5, 131), Choice::Capped),
        choose("choose with 5 and 6, threshold 10", &five_and_six(10, 131), Choice::Capped),
        choose("choose with 5 and 6, threshold 11", &five_and_six(11, 131), Choice::Met),
        choose("choose with 5 and 6, threshold 4", &five_and_six(4, 131), Choice::Place(2)),
        spent("promote 2 though capped, budget 131", &capped, 2),
        promoted("promote 2 though capped, budget 137", &roomy, 2, &[&[2, 2], &[1, 3]]),
    ]
}

/// Causes 3 and 4 and what they come before.
fn refused() -> Vec<Case> {
    let short = |mut area: Area| {
        area.records.truncate(HELD_LIMIT - 1);
        area
    };
    let unsound = |mut area: Area| {
        area.job.pending += 1;
        area
    };
    let (begun, delivered) = (started(2, 40, 64), root_delivered());
    let (past, root) = (Call::Promote { place: u64::MAX }, Call::Promote { place: 0 });
    let broken = unsound(delivered.clone());
    let no_room = short(unsound(begun.clone()));
    let (storage, area) = (Cause::StorageShort, Cause::AreaNotSound);
    vec![
        refusal("choose, 3 before 6", &short(begun.clone()), Call::Choose, storage),
        refusal("promote, 3 before 6", &short(begun.clone()), past.clone(), storage),
        refusal("choose, 3 before 4", &no_room, Call::Choose, storage),
        refusal("promote, 3 before 4", &no_room, past.clone(), storage),
        refusal("choose, 4 before 6", &unsound(begun.clone()), Call::Choose, area),
        refusal("promote, 4 before 6", &unsound(begun), past.clone(), area),
        refusal("promote, 3 before 11", &short(delivered.clone()), past.clone(), storage),
        refusal("promote, 4 before 11", &broken, past, area),
        refusal("promote 0, 511 records", &short(delivered), root.clone(), storage),
        refusal("promote 0, not sound", &broken, root, area),
    ]
}

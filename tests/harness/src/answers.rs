//! One call of a list on either side: performed by the library or by the
//! reference, with the same slots for what it gives back, so that both sides'
//! answers can be compared word for word.

use crate::calls::{self, ChoiceWords, CountWords, OutcomeWord, PointsWords, TotalWords};
use crate::doubles;
use crate::lent::Loan;
use reference::area::Area;
use reference::call::{self, Answer, Call};
use reference::calls::{Choice, PointCounts, Promotion, Totals};
use reference::grid::MOST_AXES;

/// What a call answers at once.
#[derive(Clone, Copy, Debug, PartialEq, Eq)]
pub enum ReturnValue {
    /// 0 if accepted, else the number of the cause.
    Number(u32),
    /// What check says of the area.
    Sound(bool),
}

/// How many bytes lie behind the buffer that a call is lent: those of the
/// longest point, so that a point too many is seen there.
pub const BEHIND: usize = MOST_AXES;

/// What a call may write besides the area. The words that it has no business
/// with, and all of them if it is refused, must stay.
#[derive(Clone, Debug, PartialEq, Eq)]
pub struct Slots {
    pub points: PointsWords,
    pub choice: ChoiceWords,
    pub outcome: OutcomeWord,
    pub counts: CountWords,
    pub total: TotalWords,
    pub doubles: doubles::Bits,
    /// As long as the call's buffer, and the bytes behind it.
    pub buffer: Vec<u8>,
}

/// How many bytes of the buffer a call is lent.
fn lent(call: &Call) -> usize {
    call.buffer_length().unwrap_or(0)
}

/// Performs a call of the library.
pub fn of_library(loan: Loan, call: &Call, slots: &mut Slots) -> ReturnValue {
    let buffer = &mut slots.buffer[..lent(call)];
    ReturnValue::Number(match call {
        Call::Start { axes, threshold, budget } => calls::start(loan, *axes, *threshold, *budget),
        Call::Point { n, .. } => calls::point(loan, *n as usize, buffer),
        Call::Points { n, .. } => calls::points(loan, *n as usize, &mut slots.points, buffer),
        Call::Deliver { readings, indicator } => calls::deliver(loan, readings, *indicator),
        Call::Choose => calls::choose(loan, &mut slots.choice),
        Call::Promote { place } => calls::promote(loan, *place as usize, &mut slots.outcome),
        Call::Result => calls::result(loan, &mut slots.counts),
        Call::CrossTotal => calls::cross_total(loan, &mut slots.total),
        Call::Doubles => doubles::call(loan, &mut slots.doubles),
        Call::Check => return ReturnValue::Sound(calls::check_loan(&loan)),
    })
}

/// Performs a call of the reference, and writes its answer into the slots as
/// the library has to.
pub fn of_reference(area: &mut Area, call: &Call, slots: &mut Slots) -> Answer {
    let answer = call::perform(area, call, &mut slots.buffer[..lent(call)]);
    match &answer {
        Answer::Points { counts, .. } => slots.points = point_words(counts),
        Answer::Choice(choice) => slots.choice = choice_words(*choice),
        Answer::Promotion(promotion) => slots.outcome = [outcome_word(*promotion)],
        Answer::Totals(totals) => slots.counts = count_words(totals),
        Answer::CrossTotal(total) => slots.total = total_words(*total),
        Answer::Doubles(report) => slots.doubles = report.bits(),
        _ => {}
    }
    answer
}

/// What the library has to say when the reference answers so.
pub fn return_value(answer: &Answer) -> ReturnValue {
    match answer {
        Answer::Sound(sound) => ReturnValue::Sound(*sound),
        Answer::Refused(cause) => ReturnValue::Number(cause.number()),
        _ => ReturnValue::Number(0),
    }
}

pub fn point_words(counts: &PointCounts) -> PointsWords {
    [counts.written, counts.block]
}

pub fn choice_words(choice: Choice) -> ChoiceWords {
    match choice {
        Choice::Met => [0, 0],
        Choice::Capped => [3, 0],
        Choice::Place(place) => [4, place.try_into().expect("a held place is below 512")],
    }
}

pub fn outcome_word(promotion: Promotion) -> u32 {
    match promotion {
        Promotion::Spent => 1,
        Promotion::Promoted => 2,
    }
}

pub fn count_words(totals: &Totals) -> CountWords {
    let Totals { old, active, wanted, reserved, pending, carried, mean, ceiling } = *totals;
    let halves = |wide: u64| [wide as u32, (wide >> 32) as u32];
    let [pending, mean, carried] = [pending, mean as u64, carried].map(halves);
    let narrow = [old, active, wanted, reserved, ceiling];
    let words = [&pending[..], &mean, &narrow, &carried].concat();
    words.try_into().expect("each word of result")
}

pub fn total_words(total: i64) -> TotalWords {
    [total as u32, (total >> 32) as u32]
}

#[cfg(test)]
mod tests {
    use super::*;

    /// By the header's numbers, for the comparison takes these words for right.
    #[test]
    fn choose_and_promote_have_the_words_of_the_header() {
        assert_eq!(choice_words(Choice::Met), [0, 0]);
        assert_eq!(choice_words(Choice::Capped), [3, 0]);
        assert_eq!(choice_words(Choice::Place(0)), [4, 0]);
        assert_eq!(choice_words(Choice::Place(511)), [4, 511]);
        assert_eq!(outcome_word(Promotion::Spent), 1);
        assert_eq!(outcome_word(Promotion::Promoted), 2);
    }
}

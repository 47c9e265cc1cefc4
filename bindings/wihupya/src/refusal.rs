//! Why a call was refused.

use std::error::Error;
use std::fmt::{self, Display, Formatter};

/// The cause for which a call was refused. What was lent is then as it was.
/// Where several causes apply, the call names the one of lowest number.
///
/// Numbers 10, 12 and 13 are the program's, for a fault in the header, the
/// entry table or the readings of a job file: no call returns them.
#[derive(Clone, Copy, Debug, PartialEq, Eq, PartialOrd, Ord, Hash)]
#[repr(u32)]
pub enum Refusal {
    /// Start: the axes are not 1 to 8.
    AxesOutOfRange = 1,
    /// Start: the budget is not 1 to 8,192.
    BudgetOutOfRange = 2,
    /// There are fewer than 512 records, or the store is shorter than the
    /// budget, or the buffer of point or points shorter than the axes.
    TooShort = 3,
    /// The work area is not sound: it was never started, or something else
    /// than these calls wrote it.
    NotSound = 4,
    /// Point, points, deliver: all blocks are delivered.
    NoBlockWanted = 5,
    /// Choose, promote: a block is not delivered yet.
    BlockWanted = 6,
    /// Deliver: the block has another number of readings.
    WrongCount = 7,
    /// Deliver: a reading is below -1,048,576 or above 1,048,576.
    ReadingOutOfRange = 8,
    /// Point, points: the number is not below that of the block's points.
    NoSuchPoint = 9,
    /// Promote: the place is not that of an active index. It is refined
    /// already, or no index is there.
    NotActive = 11,
}

impl Refusal {
    /// Every cause, in the order of the numbers.
    pub const ALL: [Refusal; 10] = [
        Refusal::AxesOutOfRange,
        Refusal::BudgetOutOfRange,
        Refusal::TooShort,
        Refusal::NotSound,
        Refusal::NoBlockWanted,
        Refusal::BlockWanted,
        Refusal::WrongCount,
        Refusal::ReadingOutOfRange,
        Refusal::NoSuchPoint,
        Refusal::NotActive,
    ];

    /// The number of the cause.
    pub fn number(self) -> u32 {
        self as u32
    }

    /// What a call's number says: 0 that it was not refused, another its cause.
    pub(crate) fn judge(number: u32) -> Result<(), Refusal> {
        if number == 0 {
            return Ok(());
        }
        let cause = Refusal::ALL.into_iter().find(|cause| cause.number() == number);
        Err(cause.unwrap_or_else(|| panic!("{number} is no answer of a call")))
    }
}

impl Display for Refusal {
    fn fmt(&self, text: &mut Formatter) -> fmt::Result {
        let said = match self {
            Refusal::AxesOutOfRange => "the axes are not 1 to 8",
            Refusal::BudgetOutOfRange => "the budget is not 1 to 8,192",
            Refusal::TooShort => {
                "fewer than 512 records, a store shorter than the budget, \
                 or a point buffer shorter than the axes"
            }
            Refusal::NotSound => "the work area is not sound",
            Refusal::NoBlockWanted => "no block is wanted",
            Refusal::BlockWanted => "a block is wanted",
            Refusal::WrongCount => "the block has another number of readings",
            Refusal::ReadingOutOfRange => "a reading is outside -1,048,576 to 1,048,576",
            Refusal::NoSuchPoint => "the block has no point of this number",
            Refusal::NotActive => "the place is not that of an active index",
        };
        write!(text, "refused with {}: {said}", self.number())
    }
}

impl Error for Refusal {}

#[cfg(test)]
mod tests {
    use super::Refusal;

    #[test]
    fn a_number_names_its_cause() {
        assert_eq!(Refusal::judge(0), Ok(()));
        assert_eq!(Refusal::ALL.map(Refusal::number), [1, 2, 3, 4, 5, 6, 7, 8, 9, 11]);
        for cause in Refusal::ALL {
            assert_eq!(Refusal::judge(cause.number()), Err(cause));
        }
    }

    #[test]
    fn another_number_is_no_answer_of_a_call() {
        for number in [10, 12, 13] {
            let judged = std::panic::catch_unwind(|| Refusal::judge(number));
            let said = judged.expect_err("no cause has this number");
            let said = said.downcast_ref::<String>().expect("a message");
            assert_eq!(*said, format!("{number} is no answer of a call"));
        }
    }

    #[test]
    fn each_cause_says_its_number_and_something_of_its_own() {
        let texts = Refusal::ALL.map(|cause| cause.to_string());
        for (cause, text) in Refusal::ALL.iter().zip(&texts) {
            assert!(text.starts_with(&format!("refused with {}: ", cause.number())), "{text}");
            let said = text.split_once(": ").map(|(_, said)| said);
            let alike = texts.iter().filter(|other| other.split_once(": ").map(|(_, s)| s) == said);
            assert_eq!(alike.count(), 1, "{text}");
        }
    }
}

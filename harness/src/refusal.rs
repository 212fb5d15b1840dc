//! The causes for which a call is turned back, by the numbers of documents 01 and 02.

use std::fmt;

/// The number is the discriminant. It is not the place in the order of the checks: 12 comes directly
/// after 3, and 13 comes up beside 10 while the lists are built, before 11.
#[derive(Clone, Copy, Debug, PartialEq, Eq)]
pub enum Refusal {
    RecordingLength = 1,
    Head = 2,
    Change = 3,
    DrillLength = 4,
    DrillForm = 5,
    Letter = 6,
    Band = 7,
    Depth = 8,
    WorkShort = 9,
    ListFull = 10,
    AnswerShort = 11,
    /// A sheet of drills that is not one to eight lines, each ended by a newline and none empty.
    SheetForm = 12,
    /// A round beyond those left.
    RoundsSpent = 13,
}

impl Refusal {
    /// All numbers that are returned are below this one, 0 for acceptance included.
    pub const NUMBERS: usize = 14;

    /// What a drill may be refused by that is run by itself.
    pub const OF_FIND: &[Refusal] = &[
        Refusal::RecordingLength,
        Refusal::Head,
        Refusal::Change,
        Refusal::DrillLength,
        Refusal::DrillForm,
        Refusal::Letter,
        Refusal::Band,
        Refusal::Depth,
        Refusal::WorkShort,
        Refusal::ListFull,
        Refusal::AnswerShort,
    ];

    /// What only a call that is told the rounds left adds to that.
    pub const OF_ROUNDS: &[Refusal] = &[Refusal::RoundsSpent];

    /// What a whole sheet may be refused by.
    pub const OF_LESSON: &[Refusal] = &[
        Refusal::RecordingLength,
        Refusal::Head,
        Refusal::Change,
        Refusal::SheetForm,
    ];

    pub fn number(self) -> u32 {
        self as u32
    }

    /// Whether a list was begun before the cause came up, so that the work buffer is cleared.
    pub fn clears_work(self) -> bool {
        matches!(
            self,
            Refusal::ListFull | Refusal::AnswerShort | Refusal::RoundsSpent
        )
    }
}

/// As `marks` and `lesson` print it.
impl fmt::Display for Refusal {
    fn fmt(&self, out: &mut fmt::Formatter) -> fmt::Result {
        write!(out, "refused {}", self.number())
    }
}

//! Why a call is refused, and by which number.

/// A refused call.
#[derive(Clone, Copy, Debug, PartialEq, Eq)]
pub enum Refusal {
    BadCores,
    BadUnit,
    BadFrames,
    BadTaskCount,
    BadRate(usize),
    Overload,
    Over,
    NoSuchTask,
    NotAwaited,
    TooEarly,
    TooLate,
    ShortList,
    Awaited(usize),
}

impl Refusal {
    /// The row of the table.
    pub fn number(self) -> u32 {
        match self {
            Refusal::BadCores => 1,
            Refusal::BadUnit => 2,
            Refusal::BadFrames => 3,
            Refusal::BadTaskCount => 4,
            Refusal::BadRate(_) => 5,
            Refusal::Overload => 6,
            Refusal::Over => 11,
            Refusal::NoSuchTask => 12,
            Refusal::NotAwaited => 13,
            Refusal::TooEarly => 14,
            Refusal::TooLate => 15,
            Refusal::ShortList => 21,
            Refusal::Awaited(_) => 22,
        }
    }

    /// The task that the row names, if it names one.
    pub fn task(self) -> Option<usize> {
        match self {
            Refusal::BadRate(task) | Refusal::Awaited(task) => Some(task),
            _ => None,
        }
    }
}

/// Refuses if the condition holds.
pub fn refuse_if(condition: bool, refusal: Refusal) -> Result<(), Refusal> {
    if condition {
        Err(refusal)
    } else {
        Ok(())
    }
}

//! The numbers that the library answers, as Rust types.

use crate::ENTRIES_PER_TASK;
use std::error::Error;
use std::fmt;

/// Why a request was refused. Each case but the last is one of the specification's numbers, 1 to 9.
///
/// After every refusal but [`Refusal::Overtaken`] each table holds what it held before.
#[derive(Clone, Copy, Debug, PartialEq, Eq, Hash)]
pub enum Refusal {
    /// The tables are unsound: their lengths or what they hold.
    Unsound,
    /// Opening with a size or a first version outside its range.
    OutOfRange,
    /// The task number is not below the number of tasks.
    NoSuchTask,
    /// The task's phase does not allow the request.
    WrongPhase,
    /// The address is not below the number of words.
    NoSuchAddress,
    /// A new address, and the transaction already has [`ENTRIES_PER_TASK`].
    Full,
    /// Wait with no entries: there is nothing to sleep on.
    NothingToSleepOn,
    /// Write where the record's version is already the highest.
    VersionsUsedUp,
    /// A new address whose record has changed since this transaction first used it.
    /// The transaction has ended, as by an abort.
    Overtaken,
    /// A number that this package does not know: the archive that was linked is of another version.
    Unknown(u32),
}

/// The refusals that the specification has, in the order of their numbers, which begin at 1.
const KNOWN: [Refusal; 9] = [
    Refusal::Unsound,
    Refusal::OutOfRange,
    Refusal::NoSuchTask,
    Refusal::WrongPhase,
    Refusal::NoSuchAddress,
    Refusal::Full,
    Refusal::NothingToSleepOn,
    Refusal::VersionsUsedUp,
    Refusal::Overtaken,
];

impl Refusal {
    /// The specification's number.
    pub fn number(self) -> u32 {
        match self {
            Refusal::Unsound => 1,
            Refusal::OutOfRange => 2,
            Refusal::NoSuchTask => 3,
            Refusal::WrongPhase => 4,
            Refusal::NoSuchAddress => 5,
            Refusal::Full => 6,
            Refusal::NothingToSleepOn => 7,
            Refusal::VersionsUsedUp => 8,
            Refusal::Overtaken => 9,
            Refusal::Unknown(number) => number,
        }
    }

    /// The refusal with a number, if the specification has one.
    pub fn from_number(number: u32) -> Option<Refusal> {
        KNOWN.into_iter().find(|refusal| refusal.number() == number)
    }
}

impl fmt::Display for Refusal {
    fn fmt(&self, f: &mut fmt::Formatter<'_>) -> fmt::Result {
        let text = match self {
            Refusal::Unknown(number) => return write!(f, "the library answered {number}, which is not known here"),
            Refusal::Full => return write!(f, "the transaction has {ENTRIES_PER_TASK} addresses already"),
            Refusal::Unsound => "the tables are unsound",
            Refusal::OutOfRange => "a size or the first version is out of range",
            Refusal::NoSuchTask => "there is no task with this number",
            Refusal::WrongPhase => "the task's phase does not allow this request",
            Refusal::NoSuchAddress => "there is no word at this address",
            Refusal::NothingToSleepOn => "the transaction has no address to sleep on",
            Refusal::VersionsUsedUp => "the record has the highest version already",
            Refusal::Overtaken => "overtaken: the record has changed, and the transaction has ended",
        };
        f.write_str(text)
    }
}

impl Error for Refusal {}

/// How a transaction ended. The task is idle again.
#[must_use = "a transaction that failed or was woken has to be begun again"]
#[derive(Clone, Copy, Debug, PartialEq, Eq, Hash)]
#[repr(u32)]
pub enum Outcome {
    /// Everything written is on the board, and everything read stood on one board with it.
    Committed = 21,
    /// Nothing was written. Another task was there first: start again.
    Failed = 22,
    /// The task slept, and one that would commit has come for one of its records, or for one of a
    /// sleeper whose list it was on. Read again and compare: nothing need have changed here.
    Woken = 23,
}

impl fmt::Display for Outcome {
    fn fmt(&self, f: &mut fmt::Formatter<'_>) -> fmt::Result {
        f.write_str(match self {
            Outcome::Committed => "committed",
            Outcome::Failed => "failed: nothing was written, so begin again",
            Outcome::Woken => "woken: read again, and compare",
        })
    }
}

/// Where a task is after a step.
#[must_use = "a step may have ended the transaction, or left the task asleep"]
#[derive(Clone, Copy, Debug, PartialEq, Eq, Hash)]
pub enum Progress {
    /// On its way to commit, to sleep or to end.
    Going,
    /// Asleep until another task clashes with it. Further steps change nothing.
    Asleep,
    /// The transaction has ended, and the task is idle.
    Ended(Outcome),
}

/// What a request that answers 0 or a refusal has answered.
pub(crate) fn done(number: u32) -> Result<(), Refusal> {
    match number {
        0 => Ok(()),
        other => Err(refusal(other)),
    }
}

/// What a step has answered.
pub(crate) fn progress(number: u32) -> Result<Progress, Refusal> {
    match number {
        0 => Ok(Progress::Going),
        20 => Ok(Progress::Asleep),
        21 => Ok(Progress::Ended(Outcome::Committed)),
        22 => Ok(Progress::Ended(Outcome::Failed)),
        23 => Ok(Progress::Ended(Outcome::Woken)),
        other => Err(refusal(other)),
    }
}

fn refusal(number: u32) -> Refusal {
    Refusal::from_number(number).unwrap_or(Refusal::Unknown(number))
}

#[cfg(test)]
mod tests {
    use super::*;

    #[test]
    fn a_number_that_is_not_known_is_a_refusal() {
        for number in [10, 19, 24, u32::MAX] {
            assert_eq!(done(number), Err(Refusal::Unknown(number)));
            assert_eq!(progress(number), Err(Refusal::Unknown(number)));
            assert_eq!(Refusal::Unknown(number).number(), number);
        }
        assert_eq!(done(20), Err(Refusal::Unknown(20)));
        assert_eq!(Refusal::Unknown(24).to_string(), "the library answered 24, which is not known here");
    }

    #[test]
    fn outcomes_are_said_in_words() {
        let said = [Outcome::Committed, Outcome::Failed, Outcome::Woken].map(|outcome| outcome.to_string());
        assert_eq!(
            said,
            ["committed", "failed: nothing was written, so begin again", "woken: read again, and compare"]
        );
    }
}

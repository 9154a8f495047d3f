//! Why a step was not taken.

use std::error::Error;
use std::fmt;

/// Why a step was refused. The box is then exactly as it was. docs/OPERATING.md has what to do on each.
///
/// ```
/// use hire_depots::{Configuration, DepotBox, Event, Refusal};
/// let mut b = DepotBox::fresh(Configuration::majority(3, 1))?;
/// let refused = b.step(Event::Propose { entries: &[] }).unwrap_err();
/// assert_eq!(refused, Refusal::Unfit);
/// assert_eq!(refused.number(), 4);
/// assert_eq!(refused.to_string(), "refused 4: the message or proposal is unfit");
/// # Ok::<(), Refusal>(())
/// ```
#[derive(Clone, Copy, Debug, PartialEq, Eq, Hash)]
#[non_exhaustive]
#[repr(u32)]
pub enum Refusal {
    /// 1: the call is wrong: depots, own pid or a quorum size out of range, read + write not above the depots, or a slice of the
    /// wrong length. Mend the program or its configuration.
    WrongCall = 1,
    /// 2: the record is broken. Stop the box: no step leads there, so its memory or its disk was altered.
    BrokenRecord = 2,
    /// 3: the sender, or the depot named by a reconnect or a leader event, is none, or the sender is oneself.
    NoSuchDepot = 3,
    /// 4: the message or proposal is unfit. Drop it; a proposal has 1 to 16 entries of at most 33,554,431.
    Unfit = 4,
    /// 5: the proposal would take the leader's log past 512. Nothing is trimmed: the log is full for good.
    LogFull = 5,
    /// 6: the queue would pass 64 messages or 4,096 entries. Drain and give the event again: from an empty queue there is room.
    QueueFull = 6,
    /// 7: a session or counter is at 2^64 - 1, which no honest run reaches. Elect a leader by a higher ballot: it starts the numbers anew.
    CounterAtTop = 7,
    /// 8: more than 16 buffered proposals would result. Wait for a leader and propose again.
    BufferFull = 8,
}

impl Refusal {
    /// Every refusal, in the order of the numbers.
    pub const ALL: [Refusal; 8] = [
        Refusal::WrongCall,
        Refusal::BrokenRecord,
        Refusal::NoSuchDepot,
        Refusal::Unfit,
        Refusal::LogFull,
        Refusal::QueueFull,
        Refusal::CounterAtTop,
        Refusal::BufferFull,
    ];

    /// Its number in the table of the rules, 1 to 8.
    pub const fn number(self) -> u32 {
        self as u32
    }

    /// The refusal of a number; `None` where the table has none, as for 0, which is taken.
    pub fn of(number: u32) -> Option<Refusal> {
        Refusal::ALL.into_iter().find(|r| r.number() == number)
    }

    /// What it means, in a few words.
    pub const fn text(self) -> &'static str {
        match self {
            Refusal::WrongCall => "a size is out of range, read + write is not above the depots, or a slice has the wrong length",
            Refusal::BrokenRecord => "the record is broken",
            Refusal::NoSuchDepot => "there is no such depot",
            Refusal::Unfit => "the message or proposal is unfit",
            Refusal::LogFull => "the proposal would take the leader's log past 512",
            Refusal::QueueFull => "the queue would pass 64 messages or 4,096 entries",
            Refusal::CounterAtTop => "a session or counter is at its top",
            Refusal::BufferFull => "more than 16 buffered proposals would result",
        }
    }
}

impl fmt::Display for Refusal {
    fn fmt(&self, f: &mut fmt::Formatter<'_>) -> fmt::Result {
        write!(f, "refused {}: {}", self.number(), self.text())
    }
}

impl Error for Refusal {}

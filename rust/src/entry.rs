//! The entries of the hire book.

use crate::words::ENTRY_MOST;
use std::fmt;

/// An entry of the hire book: a pump goes out, or comes back, on a day. In the log it is a number.
///
/// ```
/// use hire_depots::Entry;
/// let back = Entry::back(7, 14);
/// assert_eq!(back.number(), 7431);
/// assert_eq!(Entry::of(7431), Some(back));
/// assert_eq!(Entry::of(33_554_432), None);
/// assert_eq!(back.to_string(), "back:7:14");
/// ```
#[derive(Clone, Copy, Debug, PartialEq, Eq, Hash)]
pub enum Entry {
    /// The pump is hired from this day on.
    Out {
        /// The pump.
        pump: u8,
        /// The day, counted from 0.
        day: u16,
    },
    /// The pump is back in the yard; this day is not charged.
    Back {
        /// The pump.
        pump: u8,
        /// The day, counted from 0.
        day: u16,
    },
}

impl Entry {
    /// The entry of a pump that goes out.
    pub const fn out(pump: u8, day: u16) -> Entry {
        Entry::Out { pump, day }
    }

    /// The entry of a pump that comes back.
    pub const fn back(pump: u8, day: u16) -> Entry {
        Entry::Back { pump, day }
    }

    /// The number that stands for it in a log: (day x 2 + kind) x 256 + pump.
    pub const fn number(self) -> u64 {
        let (kind, pump, day) = match self {
            Entry::Out { pump, day } => (0, pump, day),
            Entry::Back { pump, day } => (1, pump, day),
        };
        (day as u64 * 2 + kind) * 256 + pump as u64
    }

    /// What a number of a log stands for; `None` above 33,554,431.
    pub const fn of(number: u64) -> Option<Entry> {
        if number > ENTRY_MOST {
            return None;
        }
        let (pump, day) = ((number % 256) as u8, (number / 512) as u16);
        match number / 256 % 2 {
            0 => Some(Entry::Out { pump, day }),
            _ => Some(Entry::Back { pump, day }),
        }
    }
}

impl From<Entry> for u64 {
    fn from(entry: Entry) -> u64 {
        entry.number()
    }
}

impl fmt::Display for Entry {
    fn fmt(&self, f: &mut fmt::Formatter<'_>) -> fmt::Result {
        match self {
            Entry::Out { pump, day } => write!(f, "out:{pump}:{day}"),
            Entry::Back { pump, day } => write!(f, "back:{pump}:{day}"),
        }
    }
}

/// Numbers of a log as text: `[out:7:10 back:7:14]`; one that is no entry as a plain number.
pub(crate) fn told(entries: &[u64]) -> String {
    let all: Vec<String> = entries.iter().map(|&e| Entry::of(e).map_or(e.to_string(), |e| e.to_string())).collect();
    format!("[{}]", all.join(" "))
}

//! The box in types.

use crate::ballot::Ballot;
use crate::configuration::Configuration;
use crate::depot::Depot;
use crate::event::Event;
use crate::message::{Message, Outgoing};
use crate::refusal::Refusal;
use crate::words::*;
use std::fmt;

/// What a depot is to the others.
#[derive(Clone, Copy, Debug, PartialEq, Eq, Hash)]
pub enum Role {
    /// It follows the depot of its promise.
    Follower,
    /// It leads by its promise.
    Leader,
}

impl fmt::Display for Role {
    fn fmt(&self, f: &mut fmt::Formatter<'_>) -> fmt::Result {
        fmt::Debug::fmt(self, f)
    }
}

/// How far a depot is with its leader.
#[derive(Clone, Copy, Debug, PartialEq, Eq, Hash)]
pub enum Phase {
    /// Promises are asked and given.
    Prepare,
    /// Entries are taken up.
    Accept,
    /// Something was missed: it waits for a leader to prepare it anew.
    Recover,
    /// It never ran.
    None,
}

impl fmt::Display for Phase {
    fn fmt(&self, f: &mut fmt::Formatter<'_>) -> fmt::Result {
        fmt::Debug::fmt(self, f)
    }
}

/// What a step that was taken did beside the box's own state.
#[derive(Clone, Copy, Debug, Default, PartialEq, Eq, Hash)]
pub struct Taken {
    /// How many of the buffered entries were dropped because the log was full, from the end, when a read quorum was reached.
    pub dropped: u64,
    /// How many messages a drain handed out.
    pub handed_out: u64,
}

impl fmt::Display for Taken {
    fn fmt(&self, f: &mut fmt::Formatter<'_>) -> fmt::Result {
        write!(f, "taken")?;
        if self.dropped > 0 {
            write!(f, ", {} buffered entries dropped", self.dropped)?;
        }
        if self.handed_out > 0 {
            write!(f, ", {} messages handed out", self.handed_out)?;
        }
        Ok(())
    }
}

/// What must outlive a power cut, as it stands after a step. Keep it on disk, whole, before what that step queued is sent.
#[derive(Clone, Debug, Default, PartialEq, Eq, Hash)]
pub struct Kept {
    /// The highest ballot that the depot has promised.
    pub promise: Ballot,
    /// The ballot by which its log was last taken up.
    pub accepted_round: Ballot,
    /// How many entries of the log are decided.
    pub decided: u64,
    /// The log.
    pub log: Vec<u64>,
}

/// A depot's box: its record and all that its steps need, on the heap. A refused call leaves it as it was.
///
/// One thread at a time steps a box; it may go from thread to thread, and the calls keep nothing between them.
///
/// ```
/// use hire_depots::{Ballot, Configuration, DepotBox, Event, Message, Phase, Role};
/// let mut b = DepotBox::fresh(Configuration::majority(3, 1))?;
/// assert_eq!((b.role(), b.phase()), (Role::Follower, Phase::None));
///
/// b.step(Event::Leader { ballot: Ballot::new(1, 0, 1) })?;
/// assert_eq!((b.role(), b.phase()), (Role::Leader, Phase::Prepare));
///
/// let kept = b.kept(); // on disk before the drain
/// let sent = b.drain()?;
/// assert_eq!(sent.iter().map(|m| m.to).collect::<Vec<_>>(), [2, 3]);
/// assert!(sent.iter().all(|m| matches!(m.message, Message::Prepare { .. })));
///
/// // A power cut: the box is made anew from what was kept.
/// let b = DepotBox::restarted(Configuration::majority(3, 1), &kept)?;
/// assert_eq!(b.promise(), Ballot::new(1, 0, 1));
/// assert_eq!((b.role(), b.phase()), (Role::Follower, Phase::Recover));
/// # Ok::<(), hire_depots::Refusal>(())
/// ```
#[derive(Clone)]
pub struct DepotBox {
    configuration: Configuration,
    words: Box<Depot>,
}

impl DepotBox {
    /// A box that never ran. Refused with [`Refusal::WrongCall`] where the configuration does not stand.
    pub fn fresh(configuration: Configuration) -> Result<DepotBox, Refusal> {
        let mut made = DepotBox::of(configuration);
        // A reconnect to oneself changes nothing, and is refused where the configuration does not stand.
        made.step(Event::Reconnect { pid: configuration.pid })?;
        Ok(made)
    }

    /// A box made anew from what was kept: as a box of these parts is after a [`Event::Restart`], its book made again from the decided
    /// entries. Refused with [`Refusal::BrokenRecord`] where they make a broken record; that they are older than the last kept is not noticed.
    ///
    /// It waits in [`Phase::Recover`]; an [`Event::Resend`] asks the others for a leader.
    pub fn restarted(configuration: Configuration, kept: &Kept) -> Result<DepotBox, Refusal> {
        let mut made = DepotBox::of(configuration);
        let words = &mut made.words;
        kept.promise.write(&mut words.record[PROMISE..]);
        kept.accepted_round.write(&mut words.record[ACCEPTED_ROUND..]);
        words.record[DECIDED] = kept.decided;
        words.record[LENGTH] = kept.log.len() as u64;
        let fits = kept.log.len().min(LOG);
        words.log[..fits].copy_from_slice(&kept.log[..fits]);
        made.step(Event::Restart)?;
        Ok(made)
    }

    fn of(configuration: Configuration) -> DepotBox {
        DepotBox { configuration, words: Box::new(Depot::fresh_of(configuration.words())) }
    }

    /// One step. What it sends waits in the queue for a [`DepotBox::drain`].
    pub fn step(&mut self, event: Event<'_>) -> Result<Taken, Refusal> {
        let (event, entries) = event.words();
        let answer = self.words.step(&event, entries);
        taken(answer.no)?;
        Ok(Taken { dropped: answer.dropped, handed_out: answer.handed_out })
    }

    /// Hands out the queue, in order, and empties it. Before this, what [`DepotBox::kept`] gives must be on disk.
    pub fn drain(&mut self) -> Result<Vec<Outgoing>, Refusal> {
        let taken = self.step(Event::Drain)?;
        Ok((0..taken.handed_out as usize).map(|k| self.handed_out(k)).collect())
    }

    /// Message k of the queue that the last step, a drain, handed out: heads and store are still as they were.
    fn handed_out(&self, k: usize) -> Outgoing {
        let (head, entries) = self.words.head(k);
        let message = Message::of(&head).expect("a head that is handed out is a message: any other is refused with 2");
        Outgoing { to: head[TO], message, entries: entries.to_vec() }
    }

    /// The report of the book: `pump days`, a line for each pump with at least one charged day, and `total`.
    pub fn report(&self) -> Result<String, Refusal> {
        self.words.report().map_err(refused)
    }

    /// What must be on disk before the next drain.
    pub fn kept(&self) -> Kept {
        Kept { promise: self.promise(), accepted_round: self.accepted_round(), decided: self.decided_index() as u64, log: self.log().to_vec() }
    }

    /// The configuration that it was made of.
    pub fn configuration(&self) -> Configuration {
        self.configuration
    }

    /// Its own pid.
    pub fn pid(&self) -> u64 {
        self.configuration.pid
    }

    /// Whether it leads or follows.
    pub fn role(&self) -> Role {
        match self.words.record[ROLE] {
            0 => Role::Follower,
            _ => Role::Leader,
        }
    }

    /// How far it is with its leader.
    pub fn phase(&self) -> Phase {
        match self.words.record[PHASE] {
            0 => Phase::Prepare,
            1 => Phase::Accept,
            2 => Phase::Recover,
            _ => Phase::None,
        }
    }

    /// The highest ballot that it has promised.
    pub fn promise(&self) -> Ballot {
        self.ballot(PROMISE)
    }

    /// The ballot by which its log was last taken up.
    pub fn accepted_round(&self) -> Ballot {
        self.ballot(ACCEPTED_ROUND)
    }

    fn ballot(&self, at: usize) -> Ballot {
        Ballot::read(&self.words.record[at..]).expect("a box keeps ballots: any other words are refused with 2")
    }

    /// The depot that it follows, or itself where it leads; `None` before the first promise.
    pub fn leader(&self) -> Option<u64> {
        Some(self.promise().pid).filter(|&pid| pid != 0)
    }

    /// A ballot for this depot that is above what it has promised: the next round. `None` after the last round.
    pub fn next_ballot(&self, priority: u32) -> Option<Ballot> {
        let next = self.promise().next(self.pid())?;
        Some(Ballot { priority, ..next })
    }

    /// How many entries of the log are decided.
    pub fn decided_index(&self) -> usize {
        self.words.record[DECIDED] as usize
    }

    /// The log, decided or not.
    pub fn log(&self) -> &[u64] {
        &self.words.log[..self.words.record[LENGTH] as usize]
    }

    /// The decided entries: the same on every depot, as far as each has come, and there for good.
    pub fn decided(&self) -> &[u64] {
        self.words.decided()
    }

    /// The proposals that wait for a leader. A restart loses them.
    pub fn buffered(&self) -> &[u64] {
        &self.words.record[BUFFER..][..self.words.record[BUFFERED] as usize]
    }

    /// How many messages wait for a drain.
    pub fn waiting(&self) -> usize {
        self.words.record[OUTGOING] as usize
    }

    /// The charged days of a pump.
    pub fn days(&self, pump: u8) -> u64 {
        self.words.book[3 * pump as usize + 2]
    }

    /// The day since when a pump is away; `None` where it stands in the yard.
    pub fn away_since(&self, pump: u8) -> Option<u16> {
        self.words.book[3 * pump as usize + 1].checked_sub(1).map(|day| day as u16)
    }

    /// The charged days of all pumps.
    pub fn total_days(&self) -> u64 {
        (0..=u8::MAX).map(|pump| self.days(pump)).sum()
    }

    /// Whether two boxes have the same book.
    pub fn same_book(&self, other: &DepotBox) -> bool {
        self.words.book == other.words.book
    }

    /// The box as words, for tools that look closer.
    pub fn words(&self) -> &Depot {
        &self.words
    }
}

/// The answer as a result: 0 is taken.
fn taken(no: u32) -> Result<(), Refusal> {
    if no == 0 {
        return Ok(());
    }
    Err(refused(no))
}

fn refused(no: u32) -> Refusal {
    Refusal::of(no).unwrap_or_else(|| panic!("the library answered {no}, which this crate does not know: take both from one clone"))
}

/// `depot 1: Leader Accept, promise 1.0.1, log 2, decided 2, buffered 0, waiting 0`
impl fmt::Display for DepotBox {
    fn fmt(&self, f: &mut fmt::Formatter<'_>) -> fmt::Result {
        write!(f, "depot {}: {} {}, promise {}", self.pid(), self.role(), self.phase(), self.promise())?;
        write!(f, ", log {}, decided {}", self.log().len(), self.decided_index())?;
        write!(f, ", buffered {}, waiting {}", self.buffered().len(), self.waiting())
    }
}

impl fmt::Debug for DepotBox {
    fn fmt(&self, f: &mut fmt::Formatter<'_>) -> fmt::Result {
        f.debug_struct("DepotBox")
            .field("configuration", &self.configuration)
            .field("role", &self.role())
            .field("phase", &self.phase())
            .field("kept", &self.kept())
            .field("buffered", &self.buffered())
            .field("waiting", &self.waiting())
            .finish_non_exhaustive()
    }
}

//! The box as plain words, and the calls of the linked library.

use crate::words::*;
use std::fmt;

#[rustfmt::skip]
extern "C" {
    fn depots_fresh(record: *mut u64, record_words: usize) -> u32;
    fn depots_step(
        configuration: *const u64, configuration_words: usize, record: *mut u64, record_words: usize,
        row: *mut u64, row_words: usize, log: *mut u64, log_words: usize,
        cached: *mut u64, cached_words: usize, best: *mut u64, best_words: usize,
        store: *mut u64, store_words: usize, book: *mut u64, book_words: usize,
        event: *const u64, event_words: usize, entries: *const u64, entries_words: usize,
        dropped: *mut u64, handed_out: *mut u64,
    ) -> u32;
    fn depots_report(book: *const u64, book_words: usize, out: *mut u8, out_bytes: usize, count: *mut u64) -> u32;
}

/// What the linked step answers.
#[derive(Clone, Copy, Debug, PartialEq, Eq)]
pub struct Answer {
    /// The number: 0 taken, 1 to 8 refused.
    pub no: u32,
    /// How many buffered entries a read quorum dropped.
    pub dropped: u64,
    /// How many messages a drain handed out.
    pub handed_out: u64,
}

/// A depot's box as words (docs/LAYOUT.md): its configuration, its record and all that is lent to its steps, 61,056 bytes. Stepping
/// allocates nothing. For tools and tests; programs use [`DepotBox`](crate::DepotBox).
#[derive(Clone, PartialEq, Eq)]
pub struct Depot {
    /// The configuration.
    pub configuration: [u64; CONFIGURATION],
    /// The record.
    pub record: [u64; RECORD],
    /// The heads of the queue.
    pub row: [u64; ROW],
    /// The log.
    pub log: [u64; LOG],
    /// The entries of the cached promise's sync.
    pub cached: [u64; LOG],
    /// The entries of the best promise's sync.
    pub best: [u64; LOG],
    /// The entries of the queued messages.
    pub store: [u64; STORE],
    /// The hire book.
    pub book: [u64; BOOK],
}

impl Depot {
    /// A box that never ran: one of `depots`, with majorities or with a read and a write size.
    pub fn fresh(depots: u64, pid: u64, sizes: Option<(u64, u64)>) -> Depot {
        let configuration = match sizes {
            None => crate::Configuration::majority(depots, pid),
            Some((read, write)) => crate::Configuration::flexible(depots, pid, read, write),
        };
        Depot::fresh_of(configuration.words())
    }

    /// A box that never ran, of a configuration in words.
    pub fn fresh_of(configuration: [u64; CONFIGURATION]) -> Depot {
        let mut record = [0; RECORD];
        // SAFETY: the record is lent with its own length.
        let no = unsafe { depots_fresh(record.as_mut_ptr(), record.len()) };
        assert_eq!(no, 0, "a record of {RECORD} words is fresh");
        Depot { configuration, record, row: [0; ROW], log: [0; LOG], cached: [0; LOG], best: [0; LOG], store: [0; STORE], book: [0; BOOK] }
    }

    /// One step, taken or refused by a number; refused, the box is as it was.
    #[rustfmt::skip]
    pub fn step(&mut self, event: &[u64; EVENT], entries: &[u64]) -> Answer {
        let (mut dropped, mut handed_out) = (0, 0);
        // SAFETY: each slice is lent with its own length, the fields of a box lie apart, and the two numbers are locals.
        let no = unsafe {
            depots_step(
                self.configuration.as_ptr(), self.configuration.len(),
                self.record.as_mut_ptr(), self.record.len(),
                self.row.as_mut_ptr(), self.row.len(),
                self.log.as_mut_ptr(), self.log.len(),
                self.cached.as_mut_ptr(), self.cached.len(),
                self.best.as_mut_ptr(), self.best.len(),
                self.store.as_mut_ptr(), self.store.len(),
                self.book.as_mut_ptr(), self.book.len(),
                event.as_ptr(), event.len(),
                entries.as_ptr(), entries.len(),
                &mut dropped, &mut handed_out,
            )
        };
        Answer { no, dropped, handed_out }
    }

    /// The messages that wait, in order: each head's block and its entries. Read them before the drain that hands them out.
    pub fn queue(&self) -> impl Iterator<Item = ([u64; BLOCK], &[u64])> + '_ {
        let waiting = (self.record[OUTGOING] as usize).min(MESSAGES_MOST);
        (0..waiting).map(move |k| self.head(k))
    }

    /// Block k of the row, and the entries that it names.
    pub(crate) fn head(&self, k: usize) -> ([u64; BLOCK], &[u64]) {
        let mut head = [0; BLOCK];
        head.copy_from_slice(&self.row[k * BLOCK..(k + 1) * BLOCK]);
        let start = (head[START] as usize).min(STORE);
        let end = start.saturating_add(head[COUNT] as usize).min(STORE);
        (head, &self.store[start..end])
    }

    /// A message from another depot's queue arrives.
    pub fn receive(&mut self, from: u64, head: &[u64; BLOCK], entries: &[u64]) -> Answer {
        let mut event = *head;
        event[TO] = from;
        event[WHAT] = MESSAGE;
        event[15] = 0;
        self.step(&event, entries)
    }

    /// Entries are proposed.
    pub fn propose(&mut self, entries: &[u64]) -> Answer {
        self.step(&event(PROPOSE), entries)
    }

    /// A leader event of a ballot: round, priority, pid.
    pub fn leader(&mut self, round: u32, priority: u32, pid: u64) -> Answer {
        let mut e = event(LEADER);
        e[N] = round as u64;
        e[N + 1] = priority as u64;
        e[N + 2] = pid;
        self.step(&e, &[])
    }

    /// The link to a depot stands again.
    pub fn reconnect(&mut self, pid: u64) -> Answer {
        let mut e = event(RECONNECT);
        e[TO] = pid;
        self.step(&e, &[])
    }

    /// The timer for unanswered messages.
    pub fn resend(&mut self) -> Answer {
        self.step(&event(RESEND), &[])
    }

    /// The queue is emptied; read it before ([`Depot::queue`]).
    pub fn drain(&mut self) -> Answer {
        self.step(&event(DRAIN), &[])
    }

    /// Promise, accepted round, log and decided index stay; all else is as fresh.
    pub fn restart(&mut self) -> Answer {
        self.step(&event(RESTART), &[])
    }

    /// The decided entries.
    pub fn decided(&self) -> &[u64] {
        &self.log[..(self.record[DECIDED] as usize).min(LOG)]
    }

    /// The report of the book: `pump days`, a line for each pump with at least one charged day, `total`.
    pub fn report(&self) -> Result<String, u32> {
        let mut out = [0u8; REPORT];
        let mut count = 0;
        // SAFETY: both slices are lent with their own lengths.
        let no = unsafe { depots_report(self.book.as_ptr(), self.book.len(), out.as_mut_ptr(), out.len(), &mut count) };
        if no != 0 {
            return Err(no);
        }
        Ok(String::from_utf8_lossy(&out[..count as usize]).into_owned())
    }
}

/// A line on the record's first words; the words themselves are public.
impl fmt::Debug for Depot {
    fn fmt(&self, f: &mut fmt::Formatter<'_>) -> fmt::Result {
        f.debug_struct("Depot").field("configuration", &&self.configuration[..=WRITE]).field("record", &&self.record[..BLOCK]).finish_non_exhaustive()
    }
}

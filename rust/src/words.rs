//! The words of a box (docs/LAYOUT.md): how many there are, where things lie in them, and the numbers of kinds and events.
//!
//! Everything is laid out in blocks of 16 words: word k of block i is word 16 i + k of the slice. A word that a kind or a tag does
//! not use is 0 after a step that is taken; a word above its most makes its block mean nothing, used or not (docs/LAYOUT.md).

/// Words of a block.
pub const BLOCK: usize = 16;
/// Words of a configuration.
pub const CONFIGURATION: usize = BLOCK;
/// Words of a record.
pub const RECORD: usize = 12 * BLOCK;
/// Words of a row of heads: 64 messages.
pub const ROW: usize = 64 * BLOCK;
/// Words of an event.
pub const EVENT: usize = BLOCK;
/// Words of the log, and of each of the two sync buffers: the most entries of a log.
pub const LOG: usize = 512;
/// Words of the store: the most entries that the queued messages carry together.
pub const STORE: usize = 4096;
/// Words of the book, three a pump.
pub const BOOK: usize = 768;
/// Bytes that a report needs at most.
pub const REPORT: usize = 2585;

/// The most depots of a cluster.
pub const DEPOTS_MOST: u64 = 7;
/// The most buffered proposals, and the most entries of one proposal.
pub const BUFFERED_MOST: usize = 16;
/// The most messages of the queue.
pub const MESSAGES_MOST: usize = ROW / BLOCK;
/// The largest entry.
pub const ENTRY_MOST: u64 = 33_554_431;

/// Of the configuration: how many depots there are.
pub const DEPOTS: usize = 0;
/// Of the configuration: the own pid.
pub const PID: usize = 1;
/// Of the configuration: 0 for a majority, 1 for a read and a write size.
pub const QUORUM: usize = 2;
/// Of the configuration: the majority's size, or the read size.
pub const READ: usize = 3;
/// Of the configuration: the write size.
pub const WRITE: usize = 4;

/// Of the record: the promise, a ballot of three words (round, priority, pid).
pub const PROMISE: usize = 0;
/// Of the record: the accepted round, a ballot.
pub const ACCEPTED_ROUND: usize = 3;
/// Of the record: the decided index.
pub const DECIDED: usize = 6;
/// Of the record: the log's length.
pub const LENGTH: usize = 7;
/// Of the record: its first words, which with the log must outlive a power cut (promise, accepted round, decided index, length).
pub const KEPT: usize = 8;
/// Of the record: the role, 0 Follower, 1 Leader.
pub const ROLE: usize = 8;
/// Of the record: the phase, 0 Prepare, 1 Accept, 2 Recover, 3 None.
pub const PHASE: usize = 9;
/// Of the record: how many messages wait.
pub const OUTGOING: usize = 10;
/// Of the record: how many proposals are buffered.
pub const BUFFERED: usize = 13;
/// Of the record: the first of the buffered proposals.
pub const BUFFER: usize = BLOCK;
/// Of the record: the first depot's place.
pub const PLACES: usize = 5 * BLOCK;

/// Of a head: the receiver's pid. Of an event: the sender's pid, or the depot that a reconnect names.
pub const TO: usize = 0;
/// Of a head or a message: its kind.
pub const KIND: usize = 1;
/// Of a head or a message: its ballot. Of a leader event: the leader's ballot.
pub const N: usize = 2;
/// Of a head or a message: the accepted round that it tells, a ballot.
pub const N_ACCEPTED: usize = 5;
/// Of a head or a message: its number, two words (session, counter).
pub const SEQ_NUM: usize = 8;
/// Of a head or a message: the decided index that it tells.
pub const TOLD_DECIDED: usize = 10;
/// Of a head or a message: the accepted index that it tells.
pub const TOLD_ACCEPTED: usize = 11;
/// Of a head or a message: 1 where a Promise comes with a log sync.
pub const SYNCS: usize = 12;
/// Of a head or a message: where its log sync starts.
pub const SYNC_FROM: usize = 13;
/// Of a head: where its entries begin in the store.
pub const START: usize = 14;
/// Of a head: how many entries it has.
pub const COUNT: usize = 15;
/// Of an event: what happens.
pub const WHAT: usize = 14;

/// The kind of a PrepareReq.
pub const PREPARE_REQ: u64 = 0;
/// The kind of a Prepare.
pub const PREPARE: u64 = 1;
/// The kind of a Promise.
pub const PROMISE_KIND: u64 = 2;
/// The kind of an AcceptSync.
pub const ACCEPT_SYNC: u64 = 3;
/// The kind of an AcceptDecide.
pub const ACCEPT_DECIDE: u64 = 4;
/// The kind of an Accepted.
pub const ACCEPTED: u64 = 5;
/// The kind of a NotAccepted.
pub const NOT_ACCEPTED: u64 = 6;
/// The kind of a Decide.
pub const DECIDE: u64 = 7;
/// The kind of a ProposalForward.
pub const PROPOSAL_FORWARD: u64 = 8;

/// A message arrives.
pub const MESSAGE: u64 = 0;
/// Entries are proposed.
pub const PROPOSE: u64 = 1;
/// A leader is elected.
pub const LEADER: u64 = 2;
/// A link stands again.
pub const RECONNECT: u64 = 3;
/// The timer for unanswered messages.
pub const RESEND: u64 = 4;
/// The queue is handed out.
pub const DRAIN: u64 = 5;
/// The box starts again with what it kept.
pub const RESTART: u64 = 6;

/// An event of a kind, all other words 0.
pub fn event(kind: u64) -> [u64; EVENT] {
    let mut e = [0; EVENT];
    e[WHAT] = kind;
    e
}

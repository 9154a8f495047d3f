// A window on the leader record of the text, whose parts are private to util.rs.
use super::*;
use crate::plain;

pub(crate) fn to_ballot(b: Ballot) -> plain::Ballot {
    plain::Ballot { round: b.n, priority: b.priority, pid: b.pid }
}

pub(crate) fn of_ballot(b: plain::Ballot) -> Ballot {
    Ballot::with(0, b.round, b.priority, b.pid)
}

pub(crate) fn to_number(n: SequenceNumber) -> plain::Number {
    (n.session, n.counter)
}

pub(crate) fn of_number(n: plain::Number) -> SequenceNumber {
    SequenceNumber { session: n.0, counter: n.1 }
}

pub(crate) fn to_sync(s: &LogSync<u64>) -> plain::Sync {
    assert!(s.decided_snapshot.is_none() && s.stopsign.is_none());
    plain::Sync { start: s.sync_idx, entries: s.suffix.clone() }
}

pub(crate) fn of_sync(s: &plain::Sync) -> LogSync<u64> {
    LogSync { decided_snapshot: None, suffix: s.entries.clone(), sync_idx: s.start, stopsign: None }
}

fn to_meta(m: &PromiseMetaData) -> plain::Meta {
    plain::Meta { n_accepted: to_ballot(m.n_accepted), accepted: m.accepted_idx, decided: m.decided_idx, pid: m.pid }
}

fn of_meta(m: plain::Meta) -> PromiseMetaData {
    PromiseMetaData { n_accepted: of_ballot(m.n_accepted), accepted_idx: m.accepted, decided_idx: m.decided, pid: m.pid }
}

/// The leader record into the state. A remembered position holds only under the leader's own ballot.
pub(crate) fn read_leader(l: &LeaderState<u64>, s: &mut plain::State) {
    s.n_leader = to_ballot(l.n_leader);
    s.best = to_meta(&l.max_promise_meta);
    s.held = l.max_promise_sync.as_ref().map(to_sync);
    s.places = (0..l.max_pid)
        .map(|i| plain::Place {
            promised: match &l.promises_meta[i] {
                PromiseState::NotPromised => plain::Promised::No,
                PromiseState::Promised(m) => plain::Promised::Yes(to_meta(m)),
                PromiseState::PromisedHigher => plain::Promised::Higher,
            },
            number: to_number(l.follower_seq_nums[i]),
            accepted: l.accepted_indexes[i],
            latest: l.latest_accept_meta[i].map(|(b, at)| {
                assert!(b == l.n_leader, "a position remembered under another ballot");
                at
            }),
        })
        .collect();
}

pub(crate) fn write_leader(l: &mut LeaderState<u64>, s: &plain::State) {
    l.n_leader = of_ballot(s.n_leader);
    l.max_promise_meta = of_meta(s.best);
    l.max_promise_sync = s.held.as_ref().map(of_sync);
    for (i, p) in s.places.iter().enumerate() {
        l.promises_meta[i] = match p.promised {
            plain::Promised::No => PromiseState::NotPromised,
            plain::Promised::Yes(m) => PromiseState::Promised(of_meta(m)),
            plain::Promised::Higher => PromiseState::PromisedHigher,
        };
        l.follower_seq_nums[i] = of_number(p.number);
        l.accepted_indexes[i] = p.accepted;
        l.latest_accept_meta[i] = p.latest.map(|at| (l.n_leader, at));
    }
}

//! What mends a lost message: the table of docs/OPERATING.md, row by row. Three depots; depot 1 leads in round 1.
use hire_depots::{Ballot, Configuration, DepotBox, Event, Message, Outgoing, Phase, Role};

const LEADER: usize = 0;

struct Cluster(Vec<DepotBox>);

impl Cluster {
    fn fresh() -> Cluster {
        Cluster((1..=3).map(|pid| DepotBox::fresh(Configuration::majority(3, pid)).unwrap()).collect())
    }

    fn step(&mut self, at: usize, event: Event<'_>) {
        self.0[at].step(event).unwrap();
    }

    /// Delivers until nothing waits, but for what is lost: `lost(from, message)`, pids from 1.
    fn settle_but(&mut self, lost: impl Fn(u64, &Outgoing) -> bool) {
        while self.0.iter().any(|b| b.waiting() > 0) {
            for at in 0..3 {
                let from = at as u64 + 1;
                for sent in self.0[at].drain().unwrap() {
                    if !lost(from, &sent) {
                        self.0[sent.to as usize - 1].step(sent.arrives_from(from)).unwrap();
                    }
                }
            }
        }
    }

    fn settle(&mut self) {
        self.settle_but(|_, _| false);
    }

    fn elect_but(lost: impl Fn(u64, &Outgoing) -> bool) -> Cluster {
        let mut c = Cluster::fresh();
        c.step(LEADER, Event::Leader { ballot: Ballot::new(1, 0, 1) });
        c.settle_but(lost);
        c
    }

    fn led() -> Cluster {
        Cluster::elect_but(|_, _| false)
    }

    /// The leader proposes, and what is lost is lost.
    fn propose_but(&mut self, entry: u64, lost: impl Fn(u64, &Outgoing) -> bool) {
        self.step(LEADER, Event::Propose { entries: &[entry] });
        self.settle_but(lost);
    }

    fn resend_everywhere(&mut self) {
        for at in 0..3 {
            self.step(at, Event::Resend);
        }
        self.settle();
    }

    fn decided(&self) -> [usize; 3] {
        [0, 1, 2].map(|at| self.0[at].decided_index())
    }
}

#[test]
fn prepare_by_a_resend_at_the_leader() {
    let mut c = Cluster::elect_but(|_, m| m.to == 2 && matches!(m.message, Message::Prepare { .. }));
    assert_eq!(c.0[1].phase(), Phase::None);
    c.step(LEADER, Event::Resend);
    c.settle();
    assert_eq!(c.0[1].phase(), Phase::Accept);
}

#[test]
fn promise_by_a_resend_at_the_depot_that_promised() {
    let mut c = Cluster::elect_but(|from, m| from == 2 && matches!(m.message, Message::Promise { .. }));
    c.step(LEADER, Event::Resend);
    c.settle();
    assert_eq!(c.0[1].phase(), Phase::Prepare);
    c.step(1, Event::Resend);
    c.settle();
    assert_eq!(c.0[1].phase(), Phase::Accept);
}

#[test]
fn accept_sync_by_a_resend_at_its_receiver() {
    let mut c = Cluster::elect_but(|_, m| m.to == 2 && matches!(m.message, Message::AcceptSync { .. }));
    assert_eq!(c.0[1].phase(), Phase::Prepare);
    c.step(1, Event::Resend);
    c.settle();
    assert_eq!(c.0[1].phase(), Phase::Accept);
}

#[test]
fn accept_decide_by_the_next_message() {
    let mut c = Cluster::led();
    c.propose_but(1, |_, m| m.to == 2 && matches!(m.message, Message::AcceptDecide { .. }));
    assert_eq!(c.decided(), [1, 1, 1]);
}

/// The last message to a depot is lost: no resend tells, a reconnect at that depot mends it, and so would the next message.
#[test]
fn the_last_accept_decide_by_a_reconnect_at_its_receiver() {
    let mut c = Cluster::led();
    c.propose_but(1, |_, m| matches!(m.message, Message::AcceptDecide { .. }));
    c.resend_everywhere();
    assert_eq!(c.decided(), [0, 0, 0]);
    c.step(LEADER, Event::Reconnect { pid: 2 });
    c.settle();
    assert_eq!(c.decided(), [0, 0, 0]);
    c.step(1, Event::Reconnect { pid: 1 });
    c.settle();
    assert_eq!(c.decided(), [1, 1, 1]);
}

#[test]
fn the_last_decide_by_a_reconnect_at_its_receiver() {
    let mut c = Cluster::led();
    c.propose_but(1, |_, m| m.to == 2 && matches!(m.message, Message::Decide { .. }));
    c.resend_everywhere();
    assert_eq!(c.decided(), [1, 0, 1]);
    c.step(1, Event::Reconnect { pid: 1 });
    c.settle();
    assert_eq!(c.decided(), [1, 1, 1]);
}

#[test]
fn the_last_decide_by_the_next_entry() {
    let mut c = Cluster::led();
    c.propose_but(1, |_, m| m.to == 2 && matches!(m.message, Message::Decide { .. }));
    c.propose_but(2, |_, _| false);
    assert_eq!(c.decided(), [2, 2, 2]);
}

#[test]
fn accepted_by_a_reconnect_at_its_sender_or_the_next_entry() {
    for next in [false, true] {
        let mut c = Cluster::led();
        c.propose_but(1, |_, m| matches!(m.message, Message::Accepted { .. }));
        c.resend_everywhere();
        assert_eq!(c.decided(), [0, 0, 0]);
        if next {
            c.propose_but(2, |_, _| false);
            assert_eq!(c.decided(), [2, 2, 2]);
        } else {
            c.step(2, Event::Reconnect { pid: 1 });
            c.settle();
            assert_eq!(c.decided(), [1, 1, 1]);
        }
    }
}

#[test]
fn prepare_req_by_a_resend_at_its_sender() {
    let mut c = Cluster::led();
    c.step(1, Event::Reconnect { pid: 1 });
    c.settle_but(|_, m| matches!(m.message, Message::PrepareReq { .. }));
    assert_eq!(c.0[1].phase(), Phase::Recover);
    c.step(1, Event::Resend);
    c.settle();
    assert_eq!(c.0[1].phase(), Phase::Accept);
}

/// A forwarded proposal that is lost is gone: no event brings it back.
#[test]
fn proposal_forward_by_proposing_again_alone() {
    let mut c = Cluster::led();
    c.step(1, Event::Propose { entries: &[1] });
    c.settle_but(|_, m| matches!(m.message, Message::ProposalForward));
    c.resend_everywhere();
    for at in [1, 2] {
        c.step(at, Event::Reconnect { pid: 1 });
        c.settle();
    }
    assert_eq!(c.decided(), [0, 0, 0]);
    c.step(1, Event::Propose { entries: &[1] });
    c.settle();
    assert_eq!(c.decided(), [1, 1, 1]);
}

/// A leader that restarts leads no more, though the others go on following it: a new round must be elected.
#[test]
fn a_leader_that_restarts_must_be_elected_anew() {
    let mut c = Cluster::led();
    c.step(LEADER, Event::Restart);
    c.resend_everywhere();
    assert!(c.0.iter().all(|b| b.role() == Role::Follower));
    c.step(1, Event::Propose { entries: &[1] });
    c.settle();
    assert_eq!(c.decided(), [0, 0, 0]);
    assert_eq!(c.0[LEADER].buffered(), [1]);
    let ballot = c.0[LEADER].next_ballot(0).unwrap();
    c.step(LEADER, Event::Leader { ballot });
    c.settle();
    assert_eq!(c.decided(), [1, 1, 1]);
}

/// A ballot below what the others have promised gets no answer at all: the round must be above theirs.
#[test]
fn a_ballot_must_be_above_what_the_others_promised() {
    let mut c = Cluster::fresh();
    c.step(2, Event::Leader { ballot: Ballot::new(5, 0, 3) });
    c.settle_but(|_, m| m.to == 1);
    c.step(LEADER, Event::Leader { ballot: Ballot::new(2, 0, 1) });
    c.settle();
    assert_eq!((c.0[LEADER].role(), c.0[LEADER].phase()), (Role::Leader, Phase::Prepare));
    c.resend_everywhere();
    assert_eq!((c.0[LEADER].role(), c.0[LEADER].phase()), (Role::Follower, Phase::Accept));
}

/// A ballot that is not above what the depot itself has promised is taken and changes nothing.
#[test]
fn a_ballot_that_does_not_grow_changes_nothing() {
    let mut c = Cluster::led();
    c.step(1, Event::Leader { ballot: Ballot::new(1, 0, 1) });
    c.step(LEADER, Event::Leader { ballot: Ballot::new(1, 0, 1) });
    assert_eq!((c.0[LEADER].phase(), c.0[1].role(), c.0[1].phase()), (Phase::Accept, Role::Follower, Phase::Accept));
    assert!(c.0.iter().all(|b| b.waiting() == 0));
}

// A window on the box of the text: a node that runs any step, and can be read and set.
use super::*;
use crate::plain;
use crate::storage::{NoSnapshot, StorageOp, StorageResult};
use crate::util::window::*;
use crate::ServerConfig;
use std::cell::RefCell;
use std::panic::{catch_unwind, AssertUnwindSafe};
use std::rc::Rc;

impl Entry for u64 {
    type Snapshot = NoSnapshot;
}

#[derive(Default)]
struct Kept {
    log: Vec<u64>,
    promise: Option<Ballot>,
    accepted_round: Option<Ballot>,
    decided: usize,
}

/// Storage in memory, which a restart finds again.
#[derive(Clone, Default)]
struct Disk(Rc<RefCell<Kept>>);

impl Storage<u64> for Disk {
    fn write_atomically(&mut self, ops: Vec<StorageOp<u64>>) -> StorageResult<()> {
        for op in ops {
            match op {
                StorageOp::AppendEntry(e) => self.append_entry(e)?,
                StorageOp::AppendEntries(e) => self.append_entries(e)?,
                StorageOp::AppendOnPrefix(from, e) => self.append_on_prefix(from, e)?,
                StorageOp::SetPromise(b) => self.set_promise(b)?,
                StorageOp::SetDecidedIndex(i) => self.set_decided_idx(i)?,
                StorageOp::SetAcceptedRound(b) => self.set_accepted_round(b)?,
                _ => unimplemented!("not in the port: docs/RULES.md, R1.16"),
            }
        }
        Ok(())
    }
    fn append_entry(&mut self, e: u64) -> StorageResult<()> {
        Ok(self.0.borrow_mut().log.push(e))
    }
    fn append_entries(&mut self, e: Vec<u64>) -> StorageResult<()> {
        Ok(self.0.borrow_mut().log.extend(e))
    }
    fn append_on_prefix(&mut self, from: usize, e: Vec<u64>) -> StorageResult<()> {
        let log = &mut self.0.borrow_mut().log;
        log.truncate(from);
        Ok(log.extend(e))
    }
    fn set_promise(&mut self, b: Ballot) -> StorageResult<()> {
        Ok(self.0.borrow_mut().promise = Some(b))
    }
    fn set_decided_idx(&mut self, i: usize) -> StorageResult<()> {
        Ok(self.0.borrow_mut().decided = i)
    }
    fn get_decided_idx(&self) -> StorageResult<usize> {
        Ok(self.0.borrow().decided)
    }
    fn set_accepted_round(&mut self, b: Ballot) -> StorageResult<()> {
        Ok(self.0.borrow_mut().accepted_round = Some(b))
    }
    fn get_accepted_round(&self) -> StorageResult<Option<Ballot>> {
        Ok(self.0.borrow().accepted_round)
    }
    fn get_entries(&self, from: usize, to: usize) -> StorageResult<Vec<u64>> {
        Ok(self.0.borrow().log.get(from..to).map_or(vec![], |e| e.to_vec()))
    }
    fn get_log_len(&self) -> StorageResult<usize> {
        Ok(self.0.borrow().log.len())
    }
    fn get_suffix(&self, from: usize) -> StorageResult<Vec<u64>> {
        Ok(self.0.borrow().log.get(from..).map_or(vec![], |e| e.to_vec()))
    }
    fn get_promise(&self) -> StorageResult<Option<Ballot>> {
        Ok(self.0.borrow().promise)
    }
    fn set_stopsign(&mut self, _: Option<StopSign>) -> StorageResult<()> {
        unimplemented!("not in the port: docs/RULES.md, R1.16")
    }
    fn get_stopsign(&self) -> StorageResult<Option<StopSign>> {
        Ok(None)
    }
    fn trim(&mut self, _: usize) -> StorageResult<()> {
        unimplemented!("not in the port: docs/RULES.md, R1.16")
    }
    fn set_compacted_idx(&mut self, _: usize) -> StorageResult<()> {
        unimplemented!("not in the port: docs/RULES.md, R1.16")
    }
    fn get_compacted_idx(&self) -> StorageResult<usize> {
        Ok(0)
    }
    fn set_snapshot(&mut self, _: Option<NoSnapshot>) -> StorageResult<()> {
        unimplemented!("not in the port: docs/RULES.md, R1.16")
    }
    fn get_snapshot(&self) -> StorageResult<Option<NoSnapshot>> {
        Ok(None)
    }
}

fn to_msg(m: &PaxosMsg<u64>) -> plain::Msg {
    use plain::Msg;
    match m {
        PaxosMsg::PrepareReq(m) => Msg::PrepareReq { n: to_ballot(m.n) },
        PaxosMsg::Prepare(m) => Msg::Prepare { n: to_ballot(m.n), n_accepted: to_ballot(m.n_accepted), decided: m.decided_idx, accepted: m.accepted_idx },
        PaxosMsg::Promise(m) => Msg::Promise(to_promise(m)),
        PaxosMsg::AcceptSync(m) => Msg::AcceptSync { n: to_ballot(m.n), number: to_number(m.seq_num), decided: m.decided_idx, sync: to_sync(&m.log_sync) },
        PaxosMsg::AcceptDecide(m) => Msg::AcceptDecide { n: to_ballot(m.n), number: to_number(m.seq_num), decided: m.decided_idx, entries: m.entries.clone() },
        PaxosMsg::Accepted(m) => Msg::Accepted { n: to_ballot(m.n), accepted: m.accepted_idx },
        PaxosMsg::NotAccepted(m) => Msg::NotAccepted { n: to_ballot(m.n) },
        PaxosMsg::Decide(m) => Msg::Decide { n: to_ballot(m.n), number: to_number(m.seq_num), decided: m.decided_idx },
        PaxosMsg::ProposalForward(e) => Msg::Forward { entries: e.clone() },
        _ => unimplemented!("not in the port: docs/RULES.md, R1.16"),
    }
}

fn of_msg(m: &plain::Msg) -> PaxosMsg<u64> {
    use plain::Msg;
    match m {
        Msg::PrepareReq { n } => PaxosMsg::PrepareReq(PrepareReq { n: of_ballot(*n) }),
        Msg::Prepare { n, n_accepted, decided, accepted } => {
            PaxosMsg::Prepare(Prepare { n: of_ballot(*n), decided_idx: *decided, n_accepted: of_ballot(*n_accepted), accepted_idx: *accepted })
        }
        Msg::Promise(p) => PaxosMsg::Promise(of_promise(p)),
        Msg::AcceptSync { n, number, decided, sync } => {
            PaxosMsg::AcceptSync(AcceptSync { n: of_ballot(*n), seq_num: of_number(*number), decided_idx: *decided, log_sync: of_sync(sync) })
        }
        Msg::AcceptDecide { n, number, decided, entries } => {
            PaxosMsg::AcceptDecide(AcceptDecide { n: of_ballot(*n), seq_num: of_number(*number), decided_idx: *decided, entries: entries.clone() })
        }
        Msg::Accepted { n, accepted } => PaxosMsg::Accepted(Accepted { n: of_ballot(*n), accepted_idx: *accepted }),
        Msg::NotAccepted { n } => PaxosMsg::NotAccepted(NotAccepted { n: of_ballot(*n) }),
        Msg::Decide { n, number, decided } => PaxosMsg::Decide(Decide { n: of_ballot(*n), seq_num: of_number(*number), decided_idx: *decided }),
        Msg::Forward { entries } => PaxosMsg::ProposalForward(entries.clone()),
    }
}

fn to_promise(p: &Promise<u64>) -> plain::Promise {
    plain::Promise {
        n: to_ballot(p.n),
        n_accepted: to_ballot(p.n_accepted),
        decided: p.decided_idx,
        accepted: p.accepted_idx,
        sync: p.log_sync.as_ref().map(to_sync),
    }
}

fn of_promise(p: &plain::Promise) -> Promise<u64> {
    Promise { n: of_ballot(p.n), n_accepted: of_ballot(p.n_accepted), decided_idx: p.decided, accepted_idx: p.accepted, log_sync: p.sync.as_ref().map(of_sync) }
}

fn to_sent(pid: u64, m: &Message<u64>) -> plain::Sent {
    let Message::SequencePaxos(m) = m else { unreachable!() };
    assert!(m.from == pid, "a message in another's name");
    plain::Sent { to: m.to, msg: to_msg(&m.msg) }
}

/// A depot's box as the text has it.
pub struct Node {
    paxos: SequencePaxos<u64, Disk>,
    disk: Disk,
    cluster: plain::Cluster,
    pid: u64,
}

fn started(cluster: plain::Cluster, pid: u64, disk: &Disk) -> SequencePaxos<u64, Disk> {
    let config = OmniPaxosConfig {
        cluster_config: ClusterConfig {
            configuration_id: 0,
            nodes: (1..=cluster.depots).collect(),
            flexible_quorum: cluster.flexible.map(|(read, write)| FlexibleQuorum { read_quorum_size: read as usize, write_quorum_size: write as usize }),
        },
        server_config: ServerConfig { pid, buffer_size: 64, batch_size: 1, leader_priority: 0 },
    };
    SequencePaxos::with(config.into(), disk.clone())
}

impl Node {
    pub fn fresh(cluster: plain::Cluster, pid: u64) -> Node {
        let disk = Disk::default();
        Node { paxos: started(cluster, pid, &disk), disk, cluster, pid }
    }

    /// Everything that the box keeps, or what is wrong with it: what it caches of its storage must be what the storage holds.
    pub fn state(&self) -> Result<plain::State, String> {
        catch_unwind(AssertUnwindSafe(|| self.read())).map_err(said)
    }

    fn read(&self) -> plain::State {
        let p = &self.paxos;
        let kept = self.disk.0.borrow();
        let stored = &p.internal_storage;
        assert!(stored.get_promise() == kept.promise.unwrap_or_default(), "promise and storage came apart");
        assert!(stored.get_accepted_round() == kept.accepted_round.unwrap_or_default(), "accepted round and storage came apart");
        assert!(stored.get_decided_idx() == kept.decided, "decided index and storage came apart");
        assert!(stored.get_batched_len() == 0 && p.buffered_stopsign.is_none());
        let mut s = plain::State {
            promise: to_ballot(stored.get_promise()),
            accepted_round: to_ballot(stored.get_accepted_round()),
            decided: kept.decided,
            length: stored.get_accepted_idx(),
            log: kept.log.clone(),
            leader: p.state.0 == Role::Leader,
            phase: match p.state.1 {
                Phase::Prepare => plain::Phase::Prepare,
                Phase::Accept => plain::Phase::Accept,
                Phase::Recover => plain::Phase::Recover,
                Phase::None => plain::Phase::None,
            },
            buffered: p.buffered_proposals.clone(),
            number: to_number(p.current_seq_num),
            cached: p.cached_promise_message.as_ref().map(to_promise),
            remembered: p.latest_accepted_meta.map(|(b, at)| (to_ballot(b), at)),
            queue: p.outgoing.iter().map(|m| to_sent(self.pid, m)).collect(),
            ..plain::State::default()
        };
        read_leader(&p.leader_state, &mut s);
        s
    }

    /// Puts the box into any state.
    pub fn load(&mut self, s: &plain::State) {
        let disk = Disk::default();
        {
            let mut kept = disk.0.borrow_mut();
            kept.log = s.log.clone();
            kept.promise = Some(of_ballot(s.promise));
            kept.accepted_round = Some(of_ballot(s.accepted_round));
            kept.decided = s.decided;
        }
        let mut p = started(self.cluster, self.pid, &disk);
        let phase = match s.phase {
            plain::Phase::Prepare => Phase::Prepare,
            plain::Phase::Accept => Phase::Accept,
            plain::Phase::Recover => Phase::Recover,
            plain::Phase::None => Phase::None,
        };
        p.state = (if s.leader { Role::Leader } else { Role::Follower }, phase);
        p.buffered_proposals = s.buffered.clone();
        p.current_seq_num = of_number(s.number);
        p.cached_promise_message = s.cached.as_ref().map(of_promise);
        p.latest_accepted_meta = s.remembered.map(|(b, at)| (of_ballot(b), at));
        p.outgoing = s.queue.iter().map(|m| Message::SequencePaxos(PaxosMessage { from: self.pid, to: m.to, msg: of_msg(&m.msg) })).collect();
        write_leader(&mut p.leader_state, s);
        self.paxos = p;
        self.disk = disk;
    }

    fn run(&mut self, e: &plain::Event) -> Vec<plain::Sent> {
        let p = &mut self.paxos;
        match e {
            plain::Event::Message { from, msg } => p.handle(PaxosMessage { from: *from, to: self.pid, msg: of_msg(msg) }),
            // the crate's own call for one entry, and the forwarded one for several: a local proposal is treated as a forwarded one
            plain::Event::Propose { entries } if entries.len() == 1 && entries[0] % 2 == 0 => p.append(entries[0]).unwrap(),
            plain::Event::Propose { entries } => p.handle_forwarded_proposal(entries.clone()),
            plain::Event::Leader { n } => p.handle_leader(of_ballot(*n)),
            plain::Event::Reconnect { pid } => p.reconnected(*pid),
            plain::Event::Resend => p.resend_message_timeout(),
            plain::Event::Drain => {
                let mut out = vec![];
                p.take_outgoing_msgs(&mut out);
                return out.iter().map(|m| to_sent(self.pid, m)).collect();
            }
            plain::Event::Restart => *p = started(self.cluster, self.pid, &self.disk),
        }
        vec![]
    }

    /// One step: the messages that a drain handed out, or what the text panicked with.
    pub fn step(&mut self, e: &plain::Event) -> Result<Vec<plain::Sent>, String> {
        catch_unwind(AssertUnwindSafe(|| self.run(e))).map_err(said)
    }
}

/// The text of a panic.
fn said(p: Box<dyn std::any::Any + Send>) -> String {
    let text = p.downcast_ref::<String>().cloned();
    text.or(p.downcast_ref::<&str>().map(|s| s.to_string())).unwrap_or_default()
}

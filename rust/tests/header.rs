//! The C header says the same as this crate: each constant, and each refusal's text.
use hire_depots::{words::*, Refusal, STACK};

const HEADER: &str = include_str!("../../include/depots.h");

/// The value of a constant in the header.
fn constant(name: &str) -> u64 {
    let start = HEADER.find(&format!(" {name} = ")).unwrap_or_else(|| panic!("{name} is not in the header"));
    let value: String = HEADER[start + name.len() + 4..].chars().take_while(char::is_ascii_digit).collect();
    value.parse().unwrap_or_else(|_| panic!("{name} has no number"))
}

#[test]
fn lengths_and_limits() {
    for (name, value) in [
        ("DEPOTS_BLOCK", BLOCK),
        ("DEPOTS_CONFIGURATION", CONFIGURATION),
        ("DEPOTS_RECORD", RECORD),
        ("DEPOTS_ROW", ROW),
        ("DEPOTS_LOG", LOG),
        ("DEPOTS_STORE", STORE),
        ("DEPOTS_BOOK", BOOK),
        ("DEPOTS_EVENT", EVENT),
        ("DEPOTS_KEPT", KEPT),
        ("DEPOTS_REPORT", REPORT),
        ("DEPOTS_STACK", STACK),
        ("DEPOTS_DEPOTS_MOST", DEPOTS_MOST as usize),
        ("DEPOTS_LOG_MOST", LOG),
        ("DEPOTS_BUFFERED_MOST", BUFFERED_MOST),
        ("DEPOTS_MESSAGES_MOST", MESSAGES_MOST),
        ("DEPOTS_STORE_MOST", STORE),
        ("DEPOTS_ENTRY_MOST", ENTRY_MOST as usize),
    ] {
        assert_eq!(constant(name), value as u64, "{name}");
    }
}

#[test]
fn offsets() {
    for (name, value) in [
        ("CONFIGURATION_AT_DEPOTS", DEPOTS),
        ("CONFIGURATION_AT_PID", PID),
        ("CONFIGURATION_AT_QUORUM", QUORUM),
        ("CONFIGURATION_AT_READ", READ),
        ("CONFIGURATION_AT_WRITE", WRITE),
        ("RECORD_AT_PROMISE", PROMISE),
        ("RECORD_AT_ACCEPTED_ROUND", ACCEPTED_ROUND),
        ("RECORD_AT_DECIDED", DECIDED),
        ("RECORD_AT_LENGTH", LENGTH),
        ("RECORD_AT_ROLE", ROLE),
        ("RECORD_AT_PHASE", PHASE),
        ("RECORD_AT_OUTGOING", OUTGOING),
        ("RECORD_AT_BUFFERED", BUFFERED),
        ("RECORD_AT_BUFFER", BUFFER),
        ("RECORD_AT_PLACES", PLACES),
        ("HEAD_AT_TO", TO),
        ("HEAD_AT_KIND", KIND),
        ("HEAD_AT_N", N),
        ("HEAD_AT_N_ACCEPTED", N_ACCEPTED),
        ("HEAD_AT_SEQ_NUM", SEQ_NUM),
        ("HEAD_AT_DECIDED", TOLD_DECIDED),
        ("HEAD_AT_ACCEPTED", TOLD_ACCEPTED),
        ("HEAD_AT_SYNCS", SYNCS),
        ("HEAD_AT_SYNC_FROM", SYNC_FROM),
        ("HEAD_AT_START", START),
        ("HEAD_AT_COUNT", COUNT),
        ("EVENT_AT_FROM", TO),
        ("EVENT_AT_BALLOT", N),
        ("EVENT_AT_WHAT", WHAT),
    ] {
        assert_eq!(constant(&format!("DEPOTS_{name}")), value as u64, "{name}");
    }
}

#[test]
fn kinds_and_events() {
    for (name, value) in [
        ("KIND_PREPARE_REQ", PREPARE_REQ),
        ("KIND_PREPARE", PREPARE),
        ("KIND_PROMISE", PROMISE_KIND),
        ("KIND_ACCEPT_SYNC", ACCEPT_SYNC),
        ("KIND_ACCEPT_DECIDE", ACCEPT_DECIDE),
        ("KIND_ACCEPTED", ACCEPTED),
        ("KIND_NOT_ACCEPTED", NOT_ACCEPTED),
        ("KIND_DECIDE", DECIDE),
        ("KIND_PROPOSAL_FORWARD", PROPOSAL_FORWARD),
        ("EVENT_MESSAGE", MESSAGE),
        ("EVENT_PROPOSE", PROPOSE),
        ("EVENT_LEADER", LEADER),
        ("EVENT_RECONNECT", RECONNECT),
        ("EVENT_RESEND", RESEND),
        ("EVENT_DRAIN", DRAIN),
        ("EVENT_RESTART", RESTART),
    ] {
        assert_eq!(constant(&format!("DEPOTS_{name}")), value, "{name}");
    }
}

#[test]
fn refusals() {
    for (name, refusal) in [
        ("WRONG_CALL", Refusal::WrongCall),
        ("BROKEN_RECORD", Refusal::BrokenRecord),
        ("NO_SUCH_DEPOT", Refusal::NoSuchDepot),
        ("UNFIT", Refusal::Unfit),
        ("LOG_FULL", Refusal::LogFull),
        ("QUEUE_FULL", Refusal::QueueFull),
        ("COUNTER_AT_TOP", Refusal::CounterAtTop),
        ("BUFFER_FULL", Refusal::BufferFull),
    ] {
        assert_eq!(constant(&format!("DEPOTS_{name}")), refusal.number().into(), "{name}");
        let line = format!("case DEPOTS_{name}: return \"{}\";", refusal.text());
        assert!(HEADER.contains(&line), "{name}");
    }
}

/// What docs/OPERATING.md and the header say of a box's memory.
#[test]
fn memory() {
    assert_eq!(std::mem::size_of::<hire_depots::Depot>(), 61_056);
    assert!(HEADER.contains("61,056 bytes"));
}

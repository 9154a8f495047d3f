//! The box in types: every message goes through words and back, a box is made anew from what it kept, and each refusal has its name.
use hire_depots::{words, Ballot, Configuration, Depot, DepotBox, Entry, Event, Kept, Message, Number, Outgoing, Phase, Refusal, Role};

fn cluster(depots: u64) -> Vec<DepotBox> {
    (1..=depots).map(|pid| DepotBox::fresh(Configuration::majority(depots, pid)).unwrap()).collect()
}

/// Hands every message to its receiver until none waits.
fn settle(boxes: &mut [DepotBox]) {
    while boxes.iter().any(|b| b.waiting() > 0) {
        for from in 0..boxes.len() {
            for sent in boxes[from].drain().unwrap() {
                boxes[sent.to as usize - 1].step(sent.arrives_from(from as u64 + 1)).unwrap();
            }
        }
    }
}

/// Three depots, depot 1 leading.
fn led() -> Vec<DepotBox> {
    let mut boxes = cluster(3);
    boxes[0].step(Event::Leader { ballot: Ballot::new(1, 0, 1) }).unwrap();
    settle(&mut boxes);
    boxes
}

fn every_message() -> Vec<Message> {
    let (n, n_accepted) = (Ballot::new(u32::MAX, 5, 3), Ballot::new(4, u32::MAX, 2));
    let number = Number { session: u64::MAX, counter: 7 };
    let (decided, accepted) = (11, 12);
    vec![
        Message::PrepareReq { n },
        Message::Prepare { n, n_accepted, decided, accepted },
        Message::Promise { n, n_accepted, decided, accepted, sync: None },
        Message::Promise { n, n_accepted, decided, accepted, sync: Some(9) },
        Message::AcceptSync { n, number, decided, sync: 8 },
        Message::AcceptDecide { n, number, decided },
        Message::Accepted { n, accepted },
        Message::NotAccepted { n },
        Message::Decide { n, number, decided },
        Message::ProposalForward,
    ]
}

#[test]
fn messages_read_back() {
    for message in every_message() {
        assert_eq!(Message::of(&message.words()), Some(message));
    }
    let kinds: Vec<u64> = every_message().iter().map(Message::kind).collect();
    assert_eq!(kinds, [0, 1, 2, 2, 3, 4, 5, 6, 7, 8]);
}

/// Words that a kind does not use may hold anything.
#[test]
fn words_that_a_kind_does_not_use_do_not_matter() {
    for message in every_message() {
        let w = message.words();
        let mut full = w;
        for word in 0..words::BLOCK {
            let mut other = w;
            other[word] ^= 1;
            if Message::of(&other) == Some(message) {
                full[word] = u64::MAX;
            }
        }
        assert_eq!(Message::of(&full), Some(message), "{message}");
    }
}

#[test]
fn words_that_mean_no_message() {
    let mut w = [0; words::BLOCK];
    w[words::KIND] = 9;
    assert_eq!(Message::of(&w), None);
    let mut w = Message::PrepareReq { n: Ballot::default() }.words();
    w[words::N] = 1 << 32;
    assert_eq!(Message::of(&w), None);
    let n = Ballot::new(1, 0, 1);
    let mut w = Message::Promise { n, n_accepted: n, decided: 0, accepted: 0, sync: None }.words();
    w[words::SYNCS] = 2;
    assert_eq!(Message::of(&w), None);
}

#[test]
fn every_entry_reads_back() {
    for number in (0..=words::ENTRY_MOST).step_by(97).chain([words::ENTRY_MOST]) {
        assert_eq!(Entry::of(number).unwrap().number(), number);
    }
    assert_eq!(Entry::of(words::ENTRY_MOST + 1), None);
    assert_eq!((Entry::out(7, 10).number(), Entry::back(7, 14).number()), (5127, 7431));
}

#[test]
fn a_leader_is_elected_and_entries_are_decided() {
    let mut boxes = led();
    assert_eq!((boxes[0].role(), boxes[0].phase()), (Role::Leader, Phase::Accept));
    boxes[1].step(Event::Propose { entries: &[5127, 7431] }).unwrap();
    settle(&mut boxes);
    for b in &boxes {
        assert_eq!(b.decided(), [5127, 7431]);
        assert_eq!(b.leader(), Some(1));
        assert_eq!((b.days(7), b.total_days(), b.away_since(7)), (4, 4, None));
        assert!(b.same_book(&boxes[0]));
    }
}

#[test]
fn a_box_made_anew_is_a_box_restarted() {
    let mut boxes = led();
    boxes[0].step(Event::Propose { entries: &[5127, 7431] }).unwrap();
    settle(&mut boxes);
    boxes[0].step(Event::Propose { entries: &[1] }).unwrap();
    for b in &mut boxes {
        let made = DepotBox::restarted(b.configuration(), &b.kept()).unwrap();
        b.step(Event::Restart).unwrap();
        assert_eq!(made.kept(), b.kept());
        assert_eq!((made.role(), made.phase(), made.waiting()), (Role::Follower, Phase::Recover, 0));
        assert!(made.same_book(b));
        assert_eq!(made.report().unwrap(), b.report().unwrap());
    }
}

/// A box is made anew from what it kept after each proposal: nothing that was decided is lost, and the cluster goes on.
#[test]
fn power_cuts_lose_nothing_that_was_decided() {
    let mut boxes = led();
    for day in 0..20u16 {
        let lead = boxes.iter().position(|b| b.role() == Role::Leader);
        if lead.is_none() {
            let ballot = boxes[day as usize % 3].next_ballot(0).unwrap();
            boxes[day as usize % 3].step(Event::Leader { ballot }).unwrap();
            settle(&mut boxes);
        }
        boxes[day as usize % 3].step(Event::Propose { entries: &[Entry::out(day as u8, day).number()] }).unwrap();
        settle(&mut boxes);
        let cut = day as usize % 3;
        let before = boxes[cut].decided().to_vec();
        boxes[cut] = DepotBox::restarted(boxes[cut].configuration(), &boxes[cut].kept()).unwrap();
        assert_eq!(boxes[cut].decided(), before);
        boxes[cut].step(Event::Resend).unwrap();
        settle(&mut boxes);
        let longest = boxes.iter().map(|b| b.decided().to_vec()).max_by_key(Vec::len).unwrap();
        for b in &boxes {
            assert!(longest.starts_with(b.decided()));
        }
    }
    assert!(boxes[0].decided_index() >= 15);
}

/// Why `kept` is on disk before a drain: depot 2 tells that it has accepted an entry, and then forgets it. Depot 1 has decided the
/// entry; depots 2 and 3 decide another in its place.
#[test]
fn an_entry_told_and_then_forgotten_breaks_agreement() {
    let mut boxes = led();
    let forgotten = boxes[1].kept();
    boxes[0].step(Event::Propose { entries: &[5127] }).unwrap();
    let first = boxes[0].drain().unwrap().remove(0);
    assert_eq!(first.to, 2);
    boxes[1].step(first.arrives_from(1)).unwrap();
    let told = boxes[1].drain().unwrap().remove(0);
    boxes[0].step(told.arrives_from(2)).unwrap();
    assert_eq!(boxes[0].decided(), [5127]);

    boxes[1] = DepotBox::restarted(boxes[1].configuration(), &forgotten).unwrap();
    let mut two = boxes.split_off(1);
    two[1].step(Event::Leader { ballot: Ballot::new(2, 0, 3) }).unwrap();
    two[1].step(Event::Propose { entries: &[7431] }).unwrap();
    while two.iter().any(|b| b.waiting() > 0) {
        for from in [0, 1] {
            for sent in two[from].drain().unwrap().into_iter().filter(|m| m.to != 1) {
                two[sent.to as usize - 2].step(sent.arrives_from(from as u64 + 2)).unwrap();
            }
        }
    }
    assert_eq!((two[0].decided(), two[1].decided()), ([7431].as_slice(), [7431].as_slice()));
    assert_ne!(two[0].decided(), boxes[0].decided());
}

#[test]
fn what_no_box_kept_is_a_broken_record() {
    let c = Configuration::majority(3, 1);
    let refused = |kept: Kept| DepotBox::restarted(c, &kept).map(|_| ()).unwrap_err();
    assert_eq!(refused(Kept { decided: 1, ..Kept::default() }), Refusal::BrokenRecord);
    assert_eq!(refused(Kept { log: vec![0; 513], ..Kept::default() }), Refusal::BrokenRecord);
    assert_eq!(refused(Kept { log: vec![words::ENTRY_MOST + 1], ..Kept::default() }), Refusal::BrokenRecord);
    assert_eq!(refused(Kept { promise: Ballot::new(1, 0, 4), ..Kept::default() }), Refusal::BrokenRecord);
    assert!(DepotBox::restarted(c, &Kept { log: vec![0; 512], decided: 512, ..Kept::default() }).is_ok());
}

#[test]
fn a_configuration_that_does_not_stand_is_refused() {
    let wrong = [
        Configuration::majority(1, 1),
        Configuration::majority(8, 1),
        Configuration::majority(3, 0),
        Configuration::majority(3, 4),
        Configuration::flexible(5, 1, 3, 2),
        Configuration::flexible(5, 1, 6, 1),
        Configuration::flexible(5, 1, 0, 5),
    ];
    for c in wrong {
        assert_eq!(DepotBox::fresh(c).map(|_| ()).unwrap_err(), Refusal::WrongCall, "{c}");
    }
    assert!(DepotBox::fresh(Configuration::flexible(5, 1, 4, 2)).is_ok());
}

/// Each refusal that an honest caller can meet, and that the box is as it was.
#[test]
fn each_refusal_by_name() {
    let refused = |b: &mut DepotBox, event: Event<'_>| {
        let before = b.words().clone();
        let refusal = b.step(event).unwrap_err();
        assert!(b.words() == &before, "{refusal}");
        refusal
    };
    let mut b = cluster(3).remove(0);
    assert_eq!(refused(&mut b, Event::Reconnect { pid: 4 }), Refusal::NoSuchDepot);
    assert_eq!(refused(&mut b, Event::Message { from: 1, message: Message::ProposalForward, entries: &[1] }), Refusal::NoSuchDepot);
    assert_eq!(refused(&mut b, Event::Propose { entries: &[] }), Refusal::Unfit);
    b.step(Event::Propose { entries: &[0; 16] }).unwrap();
    assert_eq!(refused(&mut b, Event::Propose { entries: &[0] }), Refusal::BufferFull);

    for _ in 0..64 {
        b.step(Event::Reconnect { pid: 2 }).unwrap();
    }
    assert_eq!(refused(&mut b, Event::Reconnect { pid: 2 }), Refusal::QueueFull);
    assert_eq!(b.drain().unwrap().len(), 64);
    b.step(Event::Reconnect { pid: 2 }).unwrap();

    let mut boxes = led();
    for _ in 0..32 {
        boxes[0].step(Event::Propose { entries: &[3; 16] }).unwrap();
        settle(&mut boxes);
    }
    assert_eq!(boxes[2].decided_index(), 512);
    assert_eq!(refused(&mut boxes[0], Event::Propose { entries: &[3] }), Refusal::LogFull);
}

/// A number at its top is refused with 7; a new round starts the numbers anew.
#[test]
fn a_new_round_starts_the_numbers_anew() {
    let n = Ballot::new(1, 0, 2);
    let top = Number { session: 1, counter: u64::MAX };
    let mut b = cluster(3).remove(0);
    let prepare = |n| Event::Message { from: 2, message: Message::Prepare { n, n_accepted: Ballot::default(), decided: 0, accepted: 0 }, entries: &[] };
    let sync = |n, number| Event::Message { from: 2, message: Message::AcceptSync { n, number, decided: 0, sync: 0 }, entries: &[] };
    b.step(prepare(n)).unwrap();
    b.step(sync(n, top)).unwrap();
    let decide = Event::Message { from: 2, message: Message::Decide { n, number: Number { session: 1, counter: 1 }, decided: 0 }, entries: &[] };
    assert_eq!(b.step(decide), Err(Refusal::CounterAtTop));
    let n = Ballot::new(2, 0, 2);
    b.step(prepare(n)).unwrap();
    b.step(sync(n, Number { session: 1, counter: 1 })).unwrap();
    assert_eq!(b.phase(), Phase::Accept);
}

#[test]
fn buffered_entries_past_the_log_are_dropped_and_counted() {
    let kept = Kept { log: vec![0; 511], ..Kept::default() };
    let mut b = DepotBox::restarted(Configuration::majority(2, 1), &kept).unwrap();
    let n = Ballot::new(1, 0, 1);
    b.step(Event::Leader { ballot: n }).unwrap();
    b.step(Event::Propose { entries: &[1, 2, 3] }).unwrap();
    assert_eq!(b.buffered(), [1, 2, 3]);
    let promise = Message::Promise { n, n_accepted: Ballot::default(), decided: 0, accepted: 0, sync: None };
    let taken = b.step(Event::Message { from: 2, message: promise, entries: &[] }).unwrap();
    assert_eq!((taken.dropped, taken.handed_out), (2, 0));
    assert_eq!(taken.to_string(), "taken, 2 buffered entries dropped");
    assert_eq!((b.log().len(), b.log()[511]), (512, 1));
}

#[test]
fn refusals_have_numbers_and_texts() {
    for (i, refusal) in Refusal::ALL.into_iter().enumerate() {
        assert_eq!(refusal.number() as usize, i + 1);
        assert_eq!(Refusal::of(refusal.number()), Some(refusal));
        let error: Box<dyn std::error::Error> = Box::new(refusal);
        assert_eq!(error.to_string(), format!("refused {}: {}", i + 1, refusal.text()));
    }
    assert_eq!((Refusal::of(0), Refusal::of(9)), (None, None));
}

#[test]
fn what_is_told_reads_well() {
    let n = Ballot::new(1, 0, 2);
    let sent = Outgoing { to: 3, message: Message::AcceptDecide { n, number: Number { session: 1, counter: 2 }, decided: 4 }, entries: vec![5127, u64::MAX] };
    assert_eq!(sent.to_string(), "to 3: AcceptDecide 1.0.2 number 1.2 decided 4 [out:7:10 18446744073709551615]");
    assert_eq!(sent.arrives_from(2).to_string(), "from 2: AcceptDecide 1.0.2 number 1.2 decided 4 [out:7:10 18446744073709551615]");
    let b = cluster(3).remove(0);
    assert_eq!(b.to_string(), "depot 1: Follower None, promise 0.0.0, log 0, decided 0, buffered 0, waiting 0");
    assert!(format!("{b:?}").starts_with("DepotBox { configuration: Configuration { depots: 3, pid: 1, quorum: Majority }, role: Follower"));
    assert!(format!("{:?}", Depot::fresh(3, 1, None)).starts_with("Depot { configuration: [3, 1, 0, 2, 0]"));
    assert_eq!(Configuration::flexible(5, 2, 4, 2).to_string(), "depot 2 of 5, read 4 write 2");
}

/// A box goes from thread to thread, and the stated stack is enough for it.
#[test]
fn a_box_goes_to_another_thread() {
    let b = cluster(3).remove(0);
    let there = std::thread::Builder::new().stack_size(hire_depots::STACK).spawn(move || {
        let mut b = b;
        b.step(Event::Leader { ballot: Ballot::new(1, 0, 1) }).unwrap();
        b
    });
    assert_eq!(there.unwrap().join().unwrap().role(), Role::Leader);
}

//! Words that mean nothing, one at a time: 2 for the record and the row, 3 or 4 for the event, in the table's order, and nothing is
//! altered. Only words that are in use are tried: what the others hold is nobody's business.
use hire_depots::{words, words::BLOCK, Ballot, Depot, Message};

const ROUND: u64 = u32::MAX as u64;

/// Each word of the record in use that has a most, by block.
fn record_mosts(depots: usize) -> Vec<(usize, u64)> {
    let mut mosts = vec![(0, ROUND), (1, ROUND), (3, ROUND), (4, ROUND), (8, 1), (9, 3)];
    mosts.extend([(32, ROUND), (33, ROUND), (35, 1), (36, ROUND), (37, ROUND)]);
    mosts.extend([(48, ROUND), (49, ROUND), (54, 1)]);
    mosts.extend([(64, 1), (65, ROUND), (66, ROUND), (68, ROUND), (69, ROUND), (73, 1)]);
    for place in 0..depots {
        let at = words::PLACES + place * BLOCK;
        mosts.extend([(at, 2), (at + 1, ROUND), (at + 2, ROUND), (at + 10, 1)]);
    }
    mosts
}

/// Those of a head or a message that is a Promise with a sync, which uses them all.
const PROMISE_MOSTS: [(usize, u64); 6] = [(1, 8), (2, ROUND), (3, ROUND), (5, ROUND), (6, ROUND), (12, 1)];

const BALLOT: [u64; 3] = [1, 0, 2];

fn promise() -> [u64; BLOCK] {
    let n = Ballot::new(1, 0, 2);
    Message::Promise { n, n_accepted: n, decided: 0, accepted: 0, sync: Some(0) }.words()
}

/// Depot 1 of three, every tag of its record on: two messages wait, promises and syncs are held, positions are remembered.
fn full() -> Depot {
    let mut d = Depot::fresh(3, 1, None);
    for (at, head) in [(0, promise()), (1, promise())] {
        d.row[at * BLOCK..][..BLOCK].copy_from_slice(&head);
        d.row[at * BLOCK] = 2;
    }
    d.record[words::OUTGOING] = 2;
    for at in [words::PROMISE, words::ACCEPTED_ROUND, 32, 36, 48, 65, 68] {
        d.record[at..at + 3].copy_from_slice(&BALLOT);
    }
    for tag in [35, 54, 64, 73] {
        d.record[tag] = 1;
    }
    for place in 0..3 {
        let at = words::PLACES + place * BLOCK;
        d.record[at] = 1;
        d.record[at + 1..at + 4].copy_from_slice(&BALLOT);
        d.record[at + 6] = place as u64 + 1;
        d.record[at + 10] = 1;
    }
    d
}

/// The number that a step gets that is refused; the box is as it was.
fn refused(depot: &Depot, event: &[u64; words::EVENT]) -> u32 {
    let mut after = depot.clone();
    let answer = after.step(event, &[]);
    assert!(&after == depot);
    assert_eq!((answer.dropped, answer.handed_out), (0, 0));
    answer.no
}

/// An event that means nothing, from no depot: 3 where nothing before applies.
fn nothing() -> [u64; words::EVENT] {
    let mut event = words::event(words::RESTART + 1);
    event[0] = 9;
    event
}

#[test]
fn a_record_with_every_tag_on_is_not_broken() {
    let mut depot = full();
    assert_eq!(refused(&depot, &nothing()), 3);
    assert_eq!(depot.reconnect(1).no, 0);
}

#[test]
fn a_word_above_its_most_means_no_record() {
    for (word, most) in record_mosts(3) {
        let mut depot = full();
        depot.record[word] = most + 1;
        assert_eq!(refused(&depot, &nothing()), 2, "word {word}");
        depot.configuration[2] = 2;
        assert_eq!(refused(&depot, &nothing()), 1, "word {word}");
    }
}

#[test]
fn a_word_above_its_most_means_no_row() {
    for head in [0, 1] {
        for (word, most) in PROMISE_MOSTS {
            let mut depot = full();
            depot.row[head * BLOCK + word] = most + 1;
            assert_eq!(refused(&depot, &nothing()), 2, "head {head}, word {word}");
        }
    }
}

#[test]
fn an_event_that_means_nothing_is_an_unfit_message() {
    let depot = Depot::fresh(3, 1, None);
    for (word, most) in PROMISE_MOSTS.into_iter().chain([(14, 6)]) {
        for (from, number) in [(0, 3), (1, 3), (4, 3), (2, 4), (3, 4)] {
            let mut event = promise();
            event[word] = most + 1;
            event[0] = from;
            assert_eq!(refused(&depot, &event), number, "word {word} from {from}");
        }
    }
}

#[test]
fn the_largest_words_are_kept() {
    let mut depot = Depot::fresh(3, 1, None);
    assert_eq!(depot.leader(u32::MAX, u32::MAX, 1).no, 0);
    assert_eq!(depot.record[..3], [ROUND, ROUND, 1]);
    assert_eq!(depot.reconnect(1).no, 0);
    assert_eq!(depot.record[..3], [ROUND, ROUND, 1]);
}

/// What words hold that nothing uses does not matter: the same step is taken and leaves the same in use.
#[test]
fn unused_words_do_not_matter() {
    let mut clean = Depot::fresh(3, 1, None);
    let mut depot = clean.clone();
    for word in [14, 15, 40, 57, 76, 92, 191] {
        depot.record[word] = 5;
    }
    depot.row[40 * BLOCK + 8] = 5;
    for d in [&mut clean, &mut depot] {
        assert_eq!(d.leader(1, 0, 1).no, 0);
    }
    assert_eq!(depot.record[..14], clean.record[..14]);
    let queued = |d: &Depot| d.queue().map(|(head, entries)| (head[0], Message::of(&head), entries.to_vec())).collect::<Vec<_>>();
    assert_eq!(queued(&depot), queued(&clean));
    assert_eq!(queued(&depot).len(), 2);
}

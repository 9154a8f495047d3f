//! Words that mean nothing, one at a time: 2 for the record and the row, 3 or 4 for the event, in the table's order, and nothing is altered.
use hire_depots::{words, Depot};

const ROUND: u64 = u32::MAX as u64;

/// Each word of the record that has a most, of every block.
fn record_mosts() -> Vec<(usize, u64)> {
    let mut mosts = vec![(0, ROUND), (1, ROUND), (3, ROUND), (4, ROUND), (8, 1), (9, 3)];
    mosts.extend([(32, ROUND), (33, ROUND), (35, 1), (36, ROUND), (37, ROUND)]);
    mosts.extend([(48, ROUND), (49, ROUND), (54, 1)]);
    mosts.extend([(64, 1), (65, ROUND), (66, ROUND), (68, ROUND), (69, ROUND), (73, 1)]);
    for place in 0..7 {
        let at = words::PLACES + place * words::BLOCK;
        mosts.extend([(at, 2), (at + 1, ROUND), (at + 2, ROUND), (at + 10, 1)]);
    }
    mosts
}

const HEAD_MOSTS: [(usize, u64); 6] = [(1, 8), (2, ROUND), (3, ROUND), (5, ROUND), (6, ROUND), (12, 1)];

/// The number that a step gets that is refused; the box is as it was.
fn refused(depot: &Depot, event: &[u64; words::EVENT]) -> u32 {
    let mut after = depot.clone();
    let answer = after.step(event, &[]);
    assert!(&after == depot);
    assert_eq!((answer.dropped, answer.handed_out), (0, 0));
    answer.no
}

#[test]
fn a_word_above_its_most_means_no_record() {
    let fresh = Depot::fresh(3, 1, None);
    let mut nothing = words::event(words::RESTART + 1);
    nothing[0] = 9;
    for (word, most) in record_mosts() {
        let mut depot = fresh.clone();
        depot.record[word] = most + 1;
        assert_eq!(refused(&depot, &nothing), 2, "word {word}");
        depot.configuration[2] = 2;
        assert_eq!(refused(&depot, &nothing), 1, "word {word}");
    }
    for block in [0, 31, 63] {
        for (word, most) in HEAD_MOSTS {
            let mut depot = fresh.clone();
            depot.row[block * words::BLOCK + word] = most + 1;
            assert_eq!(refused(&depot, &nothing), 2, "head {block}, word {word}");
        }
    }
}

#[test]
fn an_event_that_means_nothing_is_an_unfit_message() {
    let depot = Depot::fresh(3, 1, None);
    let mut mosts = HEAD_MOSTS.to_vec();
    mosts.push((14, 6));
    for (word, most) in mosts {
        for (from, number) in [(0, 3), (1, 3), (4, 3), (2, 4), (3, 4)] {
            let mut event = words::event(words::RESEND);
            event[word] = most + 1;
            event[0] = from;
            assert_eq!(refused(&depot, &event), number, "word {word} from {from}");
        }
    }
}

#[test]
fn the_largest_words_are_kept() {
    let mut depot = Depot::fresh(3, 1, None);
    assert_eq!(depot.leader(u32::MAX, u32::MAX, 1).no, 0);
    assert_eq!(depot.record[..3], [ROUND, ROUND, 1]);
    let before = depot.clone();
    assert_eq!(depot.reconnect(1).no, 0);
    assert!(depot == before);
}

#[test]
fn unused_words_are_zero_after_a_step() {
    let mut depot = Depot::fresh(3, 1, None);
    let clean = depot.clone();
    for word in [14, 15, 40, 57, 76, 92, 191] {
        depot.record[word] = 5;
    }
    depot.row[16 + 8] = 5;
    assert_eq!(depot.reconnect(1).no, 0);
    assert!(depot == clean);
}

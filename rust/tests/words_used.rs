//! An event in which a word that its kind uses is above its most, one at a time: 3 or 4, in the table's order, and nothing is altered.
use hire_depots::{words, Depot};

const ROUND: u64 = u32::MAX as u64;

/// Each word of a message that has a most, and a kind that uses it.
const HEAD_MOSTS: [(usize, u64, u64); 6] = [(1, 8, 0), (2, ROUND, 4), (3, ROUND, 6), (5, ROUND, 1), (6, ROUND, 2), (12, 1, 2)];

/// The number that a step gets that is refused; the box is as it was.
fn refused(depot: &Depot, event: &[u64; words::EVENT]) -> u32 {
    let mut after = depot.clone();
    let answer = after.step(event, &[]);
    assert!(&after == depot);
    assert_eq!((answer.dropped, answer.handed_out), (0, 0));
    answer.no
}

#[test]
fn an_event_that_means_nothing_is_an_unfit_message() {
    let depot = Depot::fresh(3, 1, None);
    for (word, most, kind) in HEAD_MOSTS.into_iter().chain([(14, 6, 0)]) {
        for (from, number) in [(0, 3), (1, 3), (4, 3), (2, 4), (3, 4)] {
            let mut event = words::event(words::MESSAGE);
            event[1] = kind;
            event[word] = most + 1;
            event[0] = from;
            assert_eq!(refused(&depot, &event), number, "word {word} from {from}");
        }
    }
}

// Records broken in one way: in a part of the state, or in words that no state has.
use crate::expect::{Rule, MAX_ENTRY, MAX_LOG, MAX_STORE};
use crate::pair::Pair;
use crate::port::Words;
use crate::random::Random;
use omnipaxos::plain::*;

const IN_STATE: u64 = 24;
const IN_WORDS: u64 = 6;

/// Breaks a record in one way. Where only the words show it, the rule is told.
pub fn one(random: &mut Random, pair: &mut Pair) -> Option<Rule> {
    let way = random.below(IN_STATE + IN_WORDS);
    let mut s = pair.state.clone();
    if way < IN_STATE {
        in_state(random, &mut s, pair.cluster.depots, pair.pid, way);
    } else {
        s.queue.truncate(60);
        forget(&mut s);
        s.queue.push(Sent { to: 1, msg: Msg::Forward { entries: vec![1, 2, 3] } });
        s.queue.push(Sent { to: 1, msg: Msg::Forward { entries: vec![4] } });
    }
    // a queue whose entries no longer fit the store is another matter
    while s.queued_entries() > MAX_STORE {
        s.queue.remove(0);
        forget(&mut s);
    }
    pair.load(&s, random);
    if way < IN_STATE {
        return None;
    }
    in_words(random, &mut pair.words, 16 * (s.queue.len() - 1), way - IN_STATE)
}

fn in_state(random: &mut Random, s: &mut State, depots: u64, pid: u64, way: u64) {
    let far = *random.pick(&[0, 0, 1, usize::MAX / 2]);
    let any = random.below(depots) as usize;
    let away = Ballot { round: 1, priority: random.below(2) as u32, pid: *random.pick(&[0, depots + 1, u64::MAX]) };
    let fine = Ballot { round: 1, priority: 0, pid: 1 };
    let too_large = MAX_ENTRY + 1 + random.below(3);
    let past = Sync { start: MAX_LOG - 1, entries: vec![0; 2] };
    let kept = Meta { pid: any as u64 + 1, ..Meta::default() };
    let promise = Promise { n: fine, ..Promise::default() };
    match way {
        0 => s.decided = s.length + 1 + far,
        1 => s.length = MAX_LOG + 1 + far,
        2 => s.queue = vec![Sent { to: 1, msg: Msg::NotAccepted { n: s.promise } }; 65 + random.below(3) as usize],
        3 => s.buffered = vec![0; 17 + random.below(2) as usize],
        4 => {
            s.log.truncate(MAX_LOG - 1);
            s.log.push(too_large);
            s.length = s.log.len();
            s.decided = s.decided.min(s.length);
        }
        5 => {
            s.buffered.truncate(15);
            s.buffered.push(too_large);
        }
        6 => s.cached = Some(Promise { sync: Some(Sync { start: 0, entries: vec![too_large] }), ..promise }),
        7 => s.held = Some(Sync { start: 1, entries: vec![1, too_large] }),
        8 => {
            s.queue.truncate(6);
            s.queue.push(Sent { to: 1, msg: Msg::Forward { entries: vec![too_large] } });
            forget(s);
        }
        9 => s.places[any].latest = Some(s.queue.len() + far),
        10 => s.remembered = Some((s.promise, s.queue.len() + far)),
        11 => s.places[any].promised = Promised::Yes(Meta { pid: (any as u64 + 2) % (depots + 1), ..kept }),
        12 => s.held = Some(past),
        13 => s.cached = Some(Promise { sync: Some(past), ..promise }),
        14 => {
            s.leader = true;
            s.n_leader = Ballot { pid: 1 + pid % depots, ..fine };
        }
        15 => s.promise = away,
        16 => s.accepted_round = away,
        17 => {
            s.leader = false;
            s.n_leader = away;
        }
        18 => s.best.n_accepted = away,
        19 => s.places[any].promised = Promised::Yes(Meta { n_accepted: away, ..kept }),
        20 => s.cached = Some(if random.one_in(2) { Promise { n: away, ..promise } } else { Promise { n_accepted: away, ..promise } }),
        21 => {
            s.queue.push(Sent { to: 1, msg: Msg::Accepted { n: s.promise, accepted: 0 } });
            s.queue.truncate(64);
            s.remembered = Some((away, s.queue.len() - 1));
        }
        22 => {
            s.queue.truncate(63);
            forget(s);
            let decide = Msg::Decide { n: away, number: (1, 1), decided: 0 };
            let prepare = Msg::Prepare { n: fine, n_accepted: away, decided: 0, accepted: 0 };
            s.queue.push(Sent { to: 1, msg: if random.one_in(2) { decide } else { prepare } });
        }
        _ => s.cached = Some(Promise::default()),
    }
}

/// `last` is where the last head begins; it and the one before carry entries.
fn in_words(random: &mut Random, w: &mut Words, last: usize, way: u64) -> Option<Rule> {
    let pump = 3 * random.below(256) as usize;
    let day = 1 + random.below(100);
    match way {
        0 => {
            w.row[last + 14] = *random.pick(&[4096, 4097, u64::MAX, u64::MAX - 1]);
            Some("2: head's entries outside the store")
        }
        1 => {
            w.row[last + 14] = w.row[last - 16 + 14] + random.below(3);
            Some("2: head's entries overlap another's")
        }
        2 => {
            let of_back = random.one_in(2);
            w.book[pump] = if of_back { 65_536 } else { 0 };
            w.book[pump + 1] = if of_back { 0 } else { 65_537 };
            None
        }
        3 => {
            w.book[pump] = day;
            w.book[pump + 2] = day + 1;
            None
        }
        4 => {
            w.book[pump] = day;
            w.book[pump + 1] = 1 + random.below(day);
            None
        }
        _ => {
            meaningless(random, w);
            Some("2: words that mean no record or no row")
        }
    }
}

/// A word above its most, in the record or in any head.
fn meaningless(random: &mut Random, w: &mut Words) {
    if random.one_in(3) {
        let head = 16 * random.below(64) as usize;
        let (at, word) = *random.pick(&[(1, 9), (12, 2), (2, 1 << 32), (6, 1 << 32)]);
        w.row[head + at] = word;
        return;
    }
    let tags = [(8, 2), (9, 4), (35, 2), (54, 2), (64, 2), (73, 2), (80, 3), (176, 3), (90, 2)];
    let ballots = [(0, 1 << 32), (1, 1 << 32), (4, u64::MAX), (66, 1 << 40)];
    let (at, word) = if random.one_in(2) { *random.pick(&tags) } else { *random.pick(&ballots) };
    w.record[at] = word;
}

fn forget(s: &mut State) {
    s.remembered = None;
    s.places.iter_mut().for_each(|p| p.latest = None);
}

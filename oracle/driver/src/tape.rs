// A tape of what is compared, from which the fixed list is cut: where each box started, and every step with what the Rust and document 01 make of it.
use crate::port::Words;
use std::cell::RefCell;

pub struct Taped {
    pub event: Vec<u64>,
    pub entries: Vec<u64>,
    pub answer: [u64; 3],
    pub checksum: u64,
}

pub struct Reel {
    pub id: u64,
    pub start: Words,
    pub steps: Vec<Taped>,
}

thread_local! {
    static TAPE: RefCell<Option<Vec<Reel>>> = const { RefCell::new(None) };
}

pub fn start() {
    TAPE.with(|t| *t.borrow_mut() = Some(vec![]));
}

pub fn take() -> Vec<Reel> {
    TAPE.with(|t| t.borrow_mut().take()).unwrap_or_default()
}

pub fn runs() -> bool {
    TAPE.with(|t| t.borrow().is_some())
}

/// A step of a box; `found` is everything lent to it.
pub fn put(id: u64, found: &Words, step: Taped) {
    TAPE.with(|t| {
        let mut tape = t.borrow_mut();
        let Some(reels) = tape.as_mut() else { return };
        match reels.iter_mut().find(|r| r.id == id) {
            Some(reel) => reel.steps.push(step),
            None => reels.push(Reel { id, start: found.clone(), steps: vec![step] }),
        }
    });
}

const MODULUS: u64 = (1 << 40) - 87;
const FACTOR: u64 = 4_194_301;

fn mix(sum: u64, word: u64) -> u64 {
    let low = (sum * FACTOR + (word & 0xffff_ffff)) % MODULUS;
    (low * FACTOR + (word >> 32)) % MODULUS
}

fn mix_all(sum: u64, words: &[u64]) -> u64 {
    words.iter().fold(sum, |s, w| mix(s, *w))
}

/// A part, as far as it goes.
fn part(words: &[u64], from: u64, count: u64) -> &[u64] {
    let from = from.min(words.len() as u64) as usize;
    &words[from..from + (count as usize).min(words.len() - from)]
}

/// The checksum of all that means something: record, log, both syncs, book, and the queue message by message with its entries.
pub fn checksum(w: &Words) -> u64 {
    let r = &w.record;
    let mut sum = mix_all(1, &r[..16]);
    sum = mix_all(sum, part(&r[16..32], 0, r[13]));
    sum = mix_all(sum, &r[32..]);
    sum = mix_all(sum, part(&w.log, 0, r[7]));
    sum = mix_all(sum, part(&w.cached, 0, r[75]));
    sum = mix_all(sum, part(&w.best, 0, r[56]));
    sum = mix_all(sum, &w.book);
    for head in w.row.chunks(16).take(r[10].min(64) as usize) {
        sum = mix_all(sum, &head[..14]);
        sum = mix(sum, head[15]);
        sum = mix_all(sum, part(&w.store, head[14], head[15]));
    }
    sum
}

// The fixed list: a sample of the steps compared, over all rules, with the answer and a checksum of the outcome of each (crates/replay/README.md).
use crate::port::{Words, EVENT};
use crate::rules::{Rule, Table, RULES};
use crate::script::Found;
use crate::tape::{self, Reel};
use crate::{cluster, limits, made};
use std::collections::HashMap;
use std::fmt::Write;

/// How many times each rule is to be met, and how many steps there are to be at least.
const EACH: u64 = 6;
const STEPS: u64 = 5500;

/// The program lends slices of the right length, so these are not in the list.
fn left_out(rule: Rule) -> bool {
    rule.ends_with("of the wrong length")
}

/// Where each slice begins in the program's memory.
fn slices(w: &Words) -> [(usize, &[u64]); 8] {
    [(0, &w.configuration), (16, &w.record), (208, &w.row), (1232, &w.log), (1744, &w.cached), (2256, &w.best), (2768, &w.store), (6864, &w.book)]
}

/// Runs of equal words, as (start, count, word).
fn runs(words: &[u64]) -> Vec<(usize, usize, u64)> {
    let mut all = vec![];
    let mut at = 0;
    for run in words.chunk_by(|a, b| a == b) {
        all.push((at, run.len(), run[0]));
        at += run.len();
    }
    all
}

fn text(reel: &Reel) -> String {
    let mut t = "1\n".to_string();
    for (base, words) in slices(&reel.start) {
        for (at, count, word) in runs(words).into_iter().filter(|r| r.2 != 0) {
            writeln!(t, "2 {} {count} {word}", base + at).unwrap();
        }
    }
    for s in &reel.steps {
        for at in (0..EVENT).filter(|at| s.event[*at] != 0) {
            writeln!(t, "3 {at} {}", s.event[at]).unwrap();
        }
        for (_, count, word) in runs(&s.entries) {
            writeln!(t, "4 {count} {word}").unwrap();
        }
        writeln!(t, "5 {} {} {} {}", s.answer[0], s.answer[1], s.answer[2], s.checksum).unwrap();
    }
    t
}

struct List {
    text: String,
    steps: u64,
    met: HashMap<Rule, u64>,
}

impl List {
    /// Takes a run onto the list where it meets a rule that is still wanted, or where it is asked for.
    fn offer(&mut self, longest: usize, asked: bool, run: impl FnOnce(&mut Table) -> Result<u64, Box<Found>>) {
        let mut table = Table::empty();
        tape::start();
        let outcome = run(&mut table);
        let reels = tape::take();
        if let Err(found) = outcome {
            eprintln!("compare: a difference, so no list: {}", found.difference.0);
            std::process::exit(1);
        }
        let met: Vec<Rule> = RULES.iter().copied().filter(|r| table.count(r) > 0 && !left_out(r)).collect();
        let wanted = met.iter().any(|r| self.met.get(r).copied().unwrap_or(0) < EACH);
        let text: String = reels.iter().map(text).collect();
        if reels.is_empty() || text.len() > longest || !(wanted || asked) {
            return;
        }
        self.text += &text;
        self.steps += reels.iter().map(|r| r.steps.len() as u64).sum::<u64>();
        met.iter().for_each(|r| *self.met.entry(r).or_insert(0) += table.count(r));
    }

    fn wants(&self) -> Vec<Rule> {
        RULES.iter().copied().filter(|r| !left_out(r) && self.met.get(r).copied().unwrap_or(0) < EACH).collect()
    }
}

/// The list, and how many steps it has.
pub fn list() -> (String, u64) {
    let mut list = List { text: String::new(), steps: 0, met: HashMap::new() };
    for (i, profile) in cluster::PROFILES.iter().enumerate() {
        for seed in 0..4 {
            list.offer(20_000, true, |t| cluster::run(profile, 1000 * i as u64 + seed, 170, t));
        }
    }
    for seed in 0..200_000 {
        // large records only where small ones do not do
        let longest = [600, 1500, 4000, 20_000][(seed / 30_000).min(3) as usize];
        list.offer(longest, false, |t| made::run(seed, t));
        list.offer(longest, false, |t| limits::run(seed, seed, t));
        if list.wants().is_empty() {
            break;
        }
    }
    list.wants().iter().for_each(|r| eprintln!("compare: not in the list: {r}"));
    let mut seed = 500_000;
    while list.steps < STEPS {
        list.offer(600, true, |t| made::run(seed, t));
        seed += 1;
    }
    (list.text, list.steps)
}

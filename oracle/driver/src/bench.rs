// How fast a step is: the same steps of three depots through the linked library and through the Rust text, one after the other in one run.
use crate::cluster;
use crate::port::{event_words, By, Words};
use crate::rules::Table;
use omnipaxos::plain::*;
use omnipaxos::Node;
use std::hint::black_box;
use std::time::{Duration, Instant};

const CLUSTERS: u64 = 100;
const STEPS: usize = 1000;
const DEPOTS: Cluster = Cluster { depots: 3, flexible: None };

/// The port: an event goes in as words, and what a drain hands out is read from them.
fn port(by: By, steps: &[(usize, Event)]) -> Duration {
    let mut boxes: Vec<Words> = (1..=3).map(|pid| Words::fresh(DEPOTS, pid)).collect();
    let started = Instant::now();
    for (at, e) in steps {
        let (event, entries) = event_words(e);
        let answer = boxes[*at].step_words_by(by, &event, &entries);
        assert_eq!(answer.no, 0);
        for k in 0..answer.handed_out as usize {
            black_box(boxes[*at].sent(k));
        }
    }
    started.elapsed()
}

/// The Rust text: an event goes in as its message, and what a drain hands out is read from it.
fn rust(steps: &[(usize, Event)]) -> Duration {
    let mut boxes: Vec<Node> = (1..=3).map(|pid| Node::fresh(DEPOTS, pid)).collect();
    let started = Instant::now();
    for (at, e) in steps {
        black_box(boxes[*at].step(e)).expect("a step that both sides take");
    }
    started.elapsed()
}

pub fn run(base: u64) -> bool {
    let (mut ours, mut lent, mut theirs, mut count) = (Duration::ZERO, Duration::ZERO, Duration::ZERO, 0);
    for i in 0..CLUSTERS {
        let Ok(steps) = cluster::calm(base.wrapping_mul(1_000_000_007).wrapping_add(i), STEPS, &mut Table::empty()) else {
            println!("the two sides differ: run oracle/compare");
            return false;
        };
        ours += port(By::Value, &steps);
        lent += port(By::Lent, &steps);
        theirs += rust(&steps);
        count += steps.len();
    }
    let rate = |d: Duration| count as f64 / d.as_secs_f64();
    println!("{count} taken steps of three depots, {CLUSTERS} clusters, the same on both sides");
    println!("port, through the linked library:            {:.0} steps a second", rate(ours));
    println!("port, its row of heads lent to depot::step:  {:.0} steps a second", rate(lent));
    println!("Rust text, release build:                    {:.0} steps a second", rate(theirs));
    println!("ratio port to Rust:                          {:.3}; with the row lent: {:.3}", rate(ours) / rate(theirs), rate(lent) / rate(theirs));
    println!("memory of a box through the linked library: {} bytes, all lent by the caller; a step allocates nothing", Words::fresh(DEPOTS, 1).bytes());
    true
}

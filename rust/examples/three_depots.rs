//! Three depots in one process: a leader is elected, entries are proposed, a message is lost, a box loses its power, and in the end
//! the books are equal. From the project's root:
//!
//!     cargo run --offline --manifest-path rust/Cargo.toml --example three_depots
//!
//! The links are queues in memory and the disk is a variable; the loop of a box is the one that docs/OPERATING.md asks for. The same
//! story is told in C by examples/c/three_depots.c, line by line.

use hire_depots::{Configuration, DepotBox, Entry, Event, Kept, Outgoing, Refusal};
use std::collections::VecDeque;

const DEPOTS: usize = 3;

/// Three boxes, their disks, and a link from each to each.
struct Cluster {
    boxes: Vec<DepotBox>,
    disks: Vec<Kept>,
    links: [[VecDeque<Outgoing>; DEPOTS]; DEPOTS],
}

fn configuration(at: usize) -> Configuration {
    Configuration::majority(DEPOTS as u64, at as u64 + 1)
}

impl Cluster {
    fn fresh() -> Result<Cluster, Refusal> {
        let boxes: Vec<DepotBox> = (0..DEPOTS).map(|at| DepotBox::fresh(configuration(at))).collect::<Result<_, _>>()?;
        let disks = boxes.iter().map(DepotBox::kept).collect();
        Ok(Cluster { boxes, disks, links: Default::default() })
    }

    /// The loop of a box: step, keep on disk, then drain and send. A refused step changed nothing, so nothing is kept or sent.
    fn step(&mut self, at: usize, event: Event<'_>) -> Result<(), Refusal> {
        match self.boxes[at].step(event) {
            Ok(taken) => println!("depot {}, {event}: {taken}", at + 1),
            Err(refusal) => {
                println!("depot {}, {event}: {refusal}", at + 1);
                return Ok(());
            }
        }
        self.disks[at] = self.boxes[at].kept();
        for sent in self.boxes[at].drain()? {
            self.links[at][sent.to as usize - 1].push_back(sent);
        }
        Ok(())
    }

    /// The first message of the first link that has one.
    fn next(&mut self) -> Option<(usize, Outgoing)> {
        for (from, row) in self.links.iter_mut().enumerate() {
            if let Some(sent) = row.iter_mut().find_map(VecDeque::pop_front) {
                return Some((from, sent));
            }
        }
        None
    }

    /// Delivers until nothing is on its way.
    fn settle(&mut self) -> Result<(), Refusal> {
        while let Some((from, sent)) = self.next() {
            self.step(sent.to as usize - 1, sent.arrives_from(from as u64 + 1))?;
        }
        Ok(())
    }

    fn lose(&mut self, from: usize, to: usize) {
        if let Some(lost) = self.links[from][to].pop_front() {
            println!("lost on the way from {} {lost}", from + 1);
        }
    }

    /// The power goes: the box is gone, and what was on its links too. It is made anew from its disk.
    fn power_cut(&mut self, at: usize) -> Result<(), Refusal> {
        for other in 0..DEPOTS {
            self.links[at][other].clear();
            self.links[other][at].clear();
        }
        self.boxes[at] = DepotBox::restarted(configuration(at), &self.disks[at])?;
        println!("power cut; {}", self.boxes[at]);
        Ok(())
    }

    fn show(&self) {
        for b in &self.boxes {
            println!("{b}");
        }
    }
}

fn main() -> Result<(), Refusal> {
    let mut c = Cluster::fresh()?;

    println!("# Depot 1 is elected.");
    let ballot = c.boxes[0].next_ballot(0).expect("a round is left");
    c.step(0, Event::Leader { ballot })?;
    c.settle()?;
    c.show();

    println!("# Pump 7 goes out at the leader; its return is told at depot 3, which forwards it.");
    c.step(0, Event::Propose { entries: &[Entry::out(7, 10).number()] })?;
    c.settle()?;
    c.step(2, Event::Propose { entries: &[Entry::back(7, 14).number()] })?;
    c.settle()?;
    c.show();

    println!("# A proposal of nothing is refused, and the box is as it was.");
    c.step(1, Event::Propose { entries: &[] })?;

    println!("# A message to depot 2 is lost; the next one shows it the gap, and it asks the leader to sync it anew.");
    c.step(0, Event::Propose { entries: &[Entry::out(9, 20).number()] })?;
    c.lose(0, 1);
    c.settle()?;
    c.show();

    println!("# Depot 3 loses its power while an entry is on its way, and comes back from its disk.");
    c.step(0, Event::Propose { entries: &[Entry::back(9, 25).number()] })?;
    c.power_cut(2)?;
    c.settle()?;
    c.step(2, Event::Resend)?;
    c.settle()?;
    c.show();

    println!("# The books.");
    for b in &c.boxes {
        println!("depot {}: {}", b.pid(), b.report()?.trim_end().replace('\n', ", "));
    }
    let equal = c.boxes.iter().all(|b| b.same_book(&c.boxes[0]) && b.decided() == c.boxes[0].decided());
    assert!(equal, "the books differ");
    println!("the books are equal");
    Ok(())
}

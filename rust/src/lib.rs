//! A depot's box over the linked library: every step is the proved one.
//!
//! [`DepotBox`] is the box in types: [`Event`]s go in, [`Outgoing`] messages come out of a drain, and a step that is not taken
//! answers a [`Refusal`] and leaves the box as it was. What a caller owes a box stands in docs/OPERATING.md; in short:
//!
//! 1. give the box an event ([`DepotBox::step`]);
//! 2. keep [`DepotBox::kept`] on disk where it changed;
//! 3. then drain ([`DepotBox::drain`]) and send what it hands out, each message to its receiver, in order.
//!
//! A message that is sent before what it tells is on disk can be forgotten by a power cut, and then the depots may come to differ.
//!
//! ```
//! use hire_depots::{Configuration, DepotBox, Entry, Event};
//! # fn main() -> Result<(), hire_depots::Refusal> {
//! let mut boxes: Vec<DepotBox> = (1..=3).map(|pid| DepotBox::fresh(Configuration::majority(3, pid))).collect::<Result<_, _>>()?;
//!
//! let ballot = boxes[0].next_ballot(0).expect("a round is left");
//! boxes[0].step(Event::Leader { ballot })?;
//! settle(&mut boxes)?;
//!
//! let hired = [Entry::out(7, 10).number(), Entry::back(7, 14).number()];
//! boxes[2].step(Event::Propose { entries: &hired })?;
//! settle(&mut boxes)?;
//!
//! for b in &boxes {
//!     assert_eq!(b.decided(), [5127, 7431]);
//!     assert_eq!(b.report()?, "pump days\n7 4\ntotal 4\n");
//! }
//! # Ok(())
//! # }
//!
//! /// Hands every message to its receiver until none waits. A real box keeps its `kept()` on disk before each drain.
//! fn settle(boxes: &mut [DepotBox]) -> Result<(), hire_depots::Refusal> {
//!     while boxes.iter().any(|b| b.waiting() > 0) {
//!         for from in 0..boxes.len() {
//!             for sent in boxes[from].drain()? {
//!                 boxes[sent.to as usize - 1].step(sent.arrives_from(from as u64 + 1))?;
//!             }
//!         }
//!     }
//!     Ok(())
//! }
//! ```
//!
//! The types cover everything that a box is asked and answers. Below them lies [`Depot`], the same box as plain words
//! (docs/LAYOUT.md), for tools and tests that look at the words themselves.
//!
//! A step touches about 160 KB of stack; [`STACK`] is what a thread that steps should have at least.
#![warn(missing_docs)]

mod ballot;
mod configuration;
mod depot;
mod depot_box;
mod entry;
mod event;
mod message;
mod refusal;
pub mod words;

pub use ballot::{Ballot, Number};
pub use configuration::{Configuration, Quorum};
pub use depot::{Answer, Depot};
pub use depot_box::{DepotBox, Kept, Phase, Role, Taken};
pub use entry::Entry;
pub use event::Event;
pub use message::{Message, Outgoing};
pub use refusal::Refusal;

/// The stack, in bytes, that a thread should have to step a box: a step touches about 160 KB, and a thread of 128 KB dies. A thread that `std` starts has 2 MiB.
pub const STACK: usize = 256 * 1024;

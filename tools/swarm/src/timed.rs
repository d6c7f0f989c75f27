//! A picker whose calls are counted and timed.

use crate::rule::{Ask, Block, Came, Fault, Rule};
use std::cell::Cell;
use std::rc::Rc;
use std::time::Instant;

/// Calls and their time by the clock, in nanoseconds.
#[derive(Clone, Copy, Debug, Default, PartialEq, Eq)]
pub struct Spent {
    pub calls: u64,
    pub nanoseconds: u64,
}

/// A rule with a count that many pickers share.
pub struct Timed {
    rule: Box<dyn Rule>,
    spent: Rc<Cell<Spent>>,
}

impl Timed {
    /// The same rule, counted.
    pub fn new(rule: Box<dyn Rule>, spent: &Rc<Cell<Spent>>) -> Timed {
        Timed { rule, spent: Rc::clone(spent) }
    }

    fn time<T>(&mut self, call: impl FnOnce(&mut dyn Rule) -> T) -> T {
        let start = Instant::now();
        let result = call(self.rule.as_mut());
        let Spent { calls, nanoseconds } = self.spent.get();
        self.spent.set(Spent { calls: calls + 1, nanoseconds: nanoseconds + start.elapsed().as_nanos() as u64 });
        result
    }
}

impl Rule for Timed {
    fn next(&mut self, slot: u8, word: u64) -> Result<Ask, Fault> {
        self.time(|rule| rule.next(slot, word))
    }

    fn join(&mut self, slot: u8, flags: &[u8]) -> Result<(), Fault> {
        self.time(|rule| rule.join(slot, flags))
    }

    fn leave(&mut self, slot: u8) -> Result<(), Fault> {
        self.time(|rule| rule.leave(slot))
    }

    fn have(&mut self, slot: u8, piece: u32) -> Result<(), Fault> {
        self.time(|rule| rule.have(slot, piece))
    }

    fn choke(&mut self, slot: u8, is_choked: bool) -> Result<(), Fault> {
        self.time(|rule| rule.choke(slot, is_choked))
    }

    fn depth(&mut self, slot: u8, depth: u32) -> Result<(), Fault> {
        self.time(|rule| rule.depth(slot, depth))
    }

    fn arrived(&mut self, slot: u8, block: Block) -> Result<Came, Fault> {
        self.time(|rule| rule.arrived(slot, block))
    }

    /// The query is too short to be timed.
    fn epoch(&self) -> u64 {
        self.rule.epoch()
    }
}

//! The choices at open.

use crate::sys;
use std::mem::size_of;

/// What a picker keeps of what is reported.
#[derive(Clone, Copy, Debug, Default, PartialEq, Eq, Hash)]
pub enum Keeps {
    /// Neither content nor journal: the caller keeps the content and hashes it, and passes the digest
    /// ([`settle`](crate::Picker::settle)).
    #[default]
    Nothing = 0,
    /// The blocks of pieces that are begun, until these are complete: a [`Job`](crate::Job) hashes them, and hands them out.
    Begun = 1,
    /// All content, and each call with its answer, until the picker is dropped: for simulators and audits.
    Journal = 2,
}

/// The choices at open. What isn't said is as the header's `PIECEPICK_OPTIONS` has it.
#[derive(Clone, Copy, Debug, PartialEq, Eq)]
pub struct Options {
    keeps: Keeps,
    workers: u32,
    depth: u32,
    deepest: u32,
    random: u32,
    askers: u32,
    open: u32,
    rush: u32,
    shown: bool,
}

impl Default for Options {
    fn default() -> Options {
        Options { keeps: Keeps::Nothing, workers: 50, depth: 16, deepest: 500, random: 1, askers: 2, open: 8, rush: 32, shown: true }
    }
}

impl Options {
    /// The choices of the header.
    #[must_use]
    pub fn new() -> Options {
        Options::default()
    }

    /// What the picker keeps; nothing, where it isn't said.
    #[must_use]
    pub fn keeps(self, keeps: Keeps) -> Options {
        Options { keeps, ..self }
    }

    /// Peers at a time, 1 to 1,024: a worker is a number below it. 50, where it isn't said.
    #[must_use]
    pub fn workers(self, workers: u32) -> Options {
        Options { workers, ..self }
    }

    /// Blocks requested from a peer at a time until another depth is set, 1 to 64. 16, where it isn't said.
    #[must_use]
    pub fn depth(self, depth: u32) -> Options {
        Options { depth, ..self }
    }

    /// The greatest depth that may be set, 1 to 4,096. 500, where it isn't said.
    #[must_use]
    pub fn deepest(self, deepest: u32) -> Options {
        Options { deepest, ..self }
    }

    /// Pieces that are complete before the rarest come first, no more than there are. 1, where it isn't said.
    #[must_use]
    pub fn random(self, random: u32) -> Options {
        Options { random, ..self }
    }

    /// From how many peers one block is requested at most in endgame, 1 (no endgame) to 1,024 (no bound). 2, where it isn't said.
    #[must_use]
    pub fn askers(self, askers: u32) -> Options {
        Options { askers, ..self }
    }

    /// Pieces that may be open, begun and with an unrequested block, before those come first: 0, where they always do, to 1,024. 8, where it
    /// isn't said. While no more are open, a piece that fewest peers have comes first.
    #[must_use]
    pub fn open(self, open: u32) -> Options {
        Options { open, ..self }
    }

    /// In endgame a block is requested again only from a peer with fewer requests than this, 0 (no endgame) to 4,096 (no bound). 32, where it
    /// isn't said.
    #[must_use]
    pub fn rush(self, rush: u32) -> Options {
        Options { rush, ..self }
    }

    /// Whether endgame waits only for pieces that a joined peer shows, and not for all wanted ones. It does, where it isn't said.
    #[must_use]
    pub fn shown(self, shown: bool) -> Options {
        Options { shown, ..self }
    }

    /// The depth at first, and the greatest one that may be set.
    pub(crate) fn depths(&self) -> (u32, u32) {
        (self.depth, self.deepest)
    }

    pub(crate) fn to_c(self) -> sys::piecepick_options {
        sys::piecepick_options {
            size: size_of::<sys::piecepick_options>() as u32,
            keeps: self.keeps as u32,
            workers: self.workers,
            depth: self.depth,
            deepest: self.deepest,
            random: self.random,
            askers: self.askers,
            open: self.open,
            rush: self.rush,
            shown: self.shown.into(),
        }
    }
}

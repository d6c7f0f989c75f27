//! The swarm and its events.

use crate::meter::{Outcome, Sample};
use crate::peer::{slots, Peer};
use crate::queue::{Micros, Queue, SECOND};
use crate::random::Random;
use crate::rule::{Block, Fault};
use crate::rules::Chooser;
use crate::setup::Setup;
use crate::timed::Spent;
use std::cell::Cell;
use std::rc::Rc;

/// The first seed's number. The other seeds follow, and then the guests.
pub const SEED: u32 = 0;

/// The time between two choices of whom to unchoke.
pub const ROUND: Micros = 10 * SECOND;

/// What one peer says to another.
#[derive(Clone, Copy, Debug, PartialEq, Eq)]
pub enum Message {
    Interested(bool),
    Choked(bool),
    Request(Block),
    Cancel(Block),
    /// The last byte of a block reaches the line down.
    Reaches(Block),
    /// The block is through that line.
    Comes(Block),
}

/// What happens.
#[derive(Clone, Copy, Debug, PartialEq, Eq)]
pub enum Event {
    Said {
        peer: u32,
        slot: u8,
        serial: u32,
        message: Message,
    },
    /// The peer sent a block.
    Sent {
        peer: u32,
    },
    /// The neighbours of the peer hear that it has the piece.
    Have {
        peer: u32,
        piece: u32,
    },
    /// The peer chooses whom to unchoke.
    Round {
        peer: u32,
    },
    /// The peer tells its picker the depths.
    Depths {
        peer: u32,
    },
    Come {
        peer: u32,
    },
    Leave {
        peer: u32,
    },
    Sample,
}

/// A swarm that runs.
pub struct Swarm<'a> {
    pub(crate) setup: &'a Setup,
    pub(crate) chooser: &'a Chooser,
    pub(crate) random: Random,
    pub(crate) queue: Queue<Event>,
    pub(crate) peers: Vec<Peer>,
    /// Who is here, in no order.
    pub(crate) here: Vec<u32>,
    /// How many of those who are here have each piece.
    pub(crate) copies: Vec<u32>,
    /// Whether somebody beside the seeds ever had the piece, and how many pieces that isn't so of.
    pub(crate) is_out: Vec<bool>,
    pub(crate) unspread: u32,
    pub(crate) connections: u32,
    /// When a peer or a block came the last time.
    pub(crate) last_move: Micros,
    pub(crate) spent: Rc<Cell<Spent>>,
    pub(crate) outcome: Outcome,
}

/// Runs a swarm to its end.
pub fn run(setup: &Setup, chooser: &Chooser, seed: u64) -> Result<Outcome, Fault> {
    let mut swarm = Swarm::new(setup, chooser, seed);
    while !swarm.is_over() && swarm.step()? {}
    Ok(swarm.end())
}

impl<'a> Swarm<'a> {
    /// The swarm before anybody came.
    pub fn new(setup: &'a Setup, chooser: &'a Chooser, seed: u64) -> Swarm<'a> {
        let lines = setup.seeds.iter().copied().chain(setup.guests.iter().map(|guest| guest.line));
        let mut swarm = Swarm {
            setup,
            chooser,
            random: Random::new(seed),
            queue: Queue::default(),
            peers: lines.map(Peer::new).collect(),
            here: Vec::new(),
            copies: vec![0; setup.content.pieces as usize],
            is_out: vec![false; setup.content.pieces as usize],
            unspread: setup.content.pieces,
            connections: 0,
            last_move: 0,
            spent: Rc::default(),
            outcome: Outcome { guests: setup.guests.len() as u32, ..Outcome::default() },
        };
        swarm.queue.put(0, Event::Come { peer: SEED });
        swarm.queue.put(0, Event::Sample);
        swarm
    }

    /// Whether the peer is there from the beginning, with everything.
    pub(crate) fn is_seed(&self, peer: u32) -> bool {
        (peer as usize) < self.setup.seeds.len()
    }

    /// All are whole, or nothing moves any more.
    pub fn is_over(&self) -> bool {
        let is_stuck = self.queue.now() > self.last_move + self.setup.patience;
        is_stuck || self.outcome.times.len() == self.setup.guests.len()
    }

    /// The next event happens, if there is one.
    pub fn step(&mut self) -> Result<bool, Fault> {
        let Some(event) = self.queue.take() else { return Ok(false) };
        self.happen(event)?;
        Ok(true)
    }

    fn happen(&mut self, event: Event) -> Result<(), Fault> {
        match event {
            Event::Said { peer, slot, serial, message } => self.hear(peer, slot, serial, message),
            Event::Sent { peer } => self.sent(peer),
            Event::Have { peer, piece } => self.tell_have(peer, piece),
            Event::Round { peer } => self.round(peer),
            Event::Depths { peer } => self.tell_depths(peer),
            Event::Come { peer } => self.come(peer),
            Event::Leave { peer } => self.leave(peer),
            Event::Sample => {
                self.sample();
                Ok(())
            }
        }
    }

    fn hear(&mut self, peer: u32, slot: u8, serial: u32, message: Message) -> Result<(), Fault> {
        let receiver = &self.peers[peer as usize];
        let is_connected = receiver.used >> slot & 1 == 1 && receiver.links[slot as usize].serial == serial;
        if !is_connected {
            let is_block = matches!(message, Message::Reaches(_) | Message::Comes(_));
            self.outcome.blocks.lost += u64::from(is_block);
            return Ok(());
        }
        match message {
            Message::Interested(is_interested) => self.note_interest(peer, slot, is_interested),
            Message::Request(block) => self.enqueue(peer, slot, block),
            Message::Cancel(block) => self.forget(peer, slot, block),
            Message::Choked(is_choked) => return self.note_choke(peer, slot, is_choked),
            Message::Reaches(block) => return self.block_reaches(peer, slot, block),
            Message::Comes(block) => return self.block_comes(peer, slot, block),
        }
        Ok(())
    }

    /// Sends a message to a neighbour, which is on its way after a while.
    pub(crate) fn say(&mut self, peer: u32, slot: u8, after: Micros, message: Message) {
        let link = &self.peers[peer as usize].links[slot as usize];
        let event = Event::Said { peer: link.peer, slot: link.back, serial: link.serial, message };
        self.queue.put(after + link.delay, event);
    }

    fn sample(&mut self) {
        let downloaders = self.here.iter().map(|&peer| &self.peers[peer as usize]).filter(|peer| peer.whole.is_none());
        let mut sample = Sample {
            at: self.queue.now(),
            rarest: self.copies.iter().copied().min().unwrap_or(0),
            copies: self.copies.iter().map(|&copies| u64::from(copies)).sum(),
            peers: self.here.len() as u32,
            downloaders: downloaders.clone().count() as u32,
            pairs: 0,
            interested: 0,
        };
        for link in downloaders.flat_map(|peer| slots(peer.used).map(|slot| &peer.links[slot as usize])) {
            if self.peers[link.peer as usize].whole.is_none() {
                sample.pairs += 1;
                sample.interested += u64::from(link.wanted > 0);
            }
        }
        self.outcome.samples.push(sample);
        self.queue.put(self.setup.sampled, Event::Sample);
    }

    /// What the run was.
    pub fn end(mut self) -> Outcome {
        self.sample();
        let is_block = |event: &&Event| matches!(event, Event::Said { message: Message::Reaches(_) | Message::Comes(_), .. });
        let mut outcome = self.outcome;
        outcome.blocks.under_way = self.queue.waiting().filter(is_block).count() as u64;
        outcome.times.sort_unstable();
        outcome.mixed_in.sort_unstable();
        outcome.missing = self.copies.iter().filter(|&&copies| copies == 0).count() as u32;
        outcome.end = self.queue.now();
        outcome.events = self.queue.count();
        outcome.spent = self.spent.get();
        outcome
    }
}

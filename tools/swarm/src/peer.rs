//! A peer and its connections.

use crate::begun::Begun;
use crate::queue::Micros;
use crate::rule::{Block, Content, Rule, BLOCK};
use std::collections::VecDeque;

/// The most connections of a peer.
pub const CONNECTIONS: usize = 50;

/// The line of a peer to the network.
#[derive(Clone, Copy, Debug, PartialEq, Eq)]
pub struct Line {
    /// The time of a block on the way up.
    pub up: Micros,
    /// The time of a block on the way down.
    pub down: Micros,
    /// The delay of the line. A message takes the delays of both ends.
    pub delay: Micros,
}

impl Line {
    /// A line of so many KiB a second, up and down, and so many milliseconds.
    pub fn new(up: u64, down: u64, delay: u64) -> Line {
        let time = |rate: u64| (u64::from(BLOCK) * 1_000_000).div_ceil(rate * 1024);
        Line { up: time(up), down: time(down), delay: delay * 1000 }
    }
}

/// One end of a connection.
#[derive(Clone, Debug, Default)]
pub struct Link {
    /// The neighbour, and the slot that this peer has there.
    pub peer: u32,
    pub back: u8,
    /// The number of the connection. A message of an earlier one in this slot is lost.
    pub serial: u32,
    /// How long a message takes.
    pub delay: Micros,
    /// The neighbour wants something from us.
    pub is_interested: bool,
    /// Since when we unchoke it, if we do.
    pub unchoked_at: Option<Micros>,
    /// What it asked for, the oldest first.
    pub waiting: VecDeque<Block>,
    /// It unchokes us.
    pub is_open: bool,
    /// The pieces that it shows and we lack.
    pub wanted: u32,
    /// It knows that we are interested.
    pub has_interest: bool,
    /// What is asked of it, the oldest first.
    pub asked: Vec<Block>,
    /// The blocks that came since the last choice of whom to unchoke, and in the ten seconds before.
    pub received: [u32; 2],
    /// The blocks that came since the depth was told.
    pub lately: u32,
    /// Until when the time of this link is counted.
    pub counted: Micros,
}

/// The times of links that are open and whose neighbour shows something that we lack.
#[derive(Clone, Copy, Debug, Default, PartialEq, Eq)]
pub struct OpenTime {
    /// All of it.
    pub open: Micros,
    /// The part with nothing asked.
    pub idle: Micros,
}

impl Link {
    /// Counts the time until now, in which the link was as it is. It comes before each change.
    pub fn count(&mut self, now: Micros, total: &mut OpenTime) {
        if self.is_open && self.wanted > 0 {
            total.open += now - self.counted;
            if self.asked.is_empty() {
                total.idle += now - self.counted;
            }
        }
        self.counted = now;
    }
}

/// A block on its way out of the line of a peer.
#[derive(Clone, Copy, Debug)]
pub struct Sending {
    pub slot: u8,
    pub serial: u32,
    pub block: Block,
    pub end: Micros,
}

/// A peer of the swarm.
pub struct Peer {
    pub line: Line,
    /// When it came and when it was whole.
    pub came: Micros,
    pub whole: Option<Micros>,
    pub is_here: bool,
    /// Its connections, and the slots that have one.
    pub links: Vec<Link>,
    pub used: u64,
    /// The pieces that it has, spelled as in a `bitfield` message.
    pub had: Vec<u8>,
    pub had_count: u32,
    /// How many blocks came that it hadn't, and when all but a hundredth had come.
    pub held: u64,
    pub nearly_whole: Micros,
    /// For each piece, the slots that show it.
    pub shown: Vec<u64>,
    /// What chooses its requests, until it is whole.
    pub picker: Option<Box<dyn Rule>>,
    /// What it has begun.
    pub begun: Begun,
    /// The random word of its next request.
    pub word: u64,
    /// The slots whose neighbour unchokes it, and those of them that had nothing to ask, at this epoch.
    pub open: u64,
    pub dry: u64,
    pub epoch: u64,
    /// The slots with requests that wait, and the one that was served last.
    pub ready: u64,
    pub turn: u8,
    pub sending: Option<Sending>,
    /// The blocks that it sent.
    pub sent: u64,
    /// When its line down is free.
    pub down_free: Micros,
    pub optimistic: Option<u8>,
    pub rounds: u32,
}

impl Peer {
    /// A peer that isn't here yet, and has nothing.
    pub fn new(line: Line) -> Peer {
        Peer {
            line,
            came: 0,
            whole: None,
            is_here: false,
            links: Vec::new(),
            used: 0,
            had: Vec::new(),
            had_count: 0,
            held: 0,
            nearly_whole: 0,
            shown: Vec::new(),
            picker: None,
            begun: Begun::default(),
            word: 0,
            open: 0,
            dry: 0,
            epoch: 0,
            ready: 0,
            turn: 0,
            sending: None,
            sent: 0,
            down_free: 0,
            optimistic: None,
            rounds: 0,
        }
    }

    /// It comes, with nothing.
    pub fn come(&mut self, content: Content, now: Micros, picker: Option<Box<dyn Rule>>) {
        self.came = now;
        self.is_here = true;
        self.links = vec![Link::default(); CONNECTIONS];
        self.had = vec![0; (content.pieces as usize).div_ceil(8)];
        self.shown = vec![0; content.pieces as usize];
        self.picker = picker;
        self.begun = Begun::new(content.pieces);
    }

    /// Whether it has the piece.
    pub fn has(&self, piece: u32) -> bool {
        self.had[piece as usize / 8] >> (7 - piece % 8) & 1 == 1
    }

    /// It has the piece from now on.
    pub fn get(&mut self, piece: u32) {
        self.had[piece as usize / 8] |= 1 << (7 - piece % 8);
        self.had_count += 1;
    }

    /// A block came that it hadn't.
    pub fn hold_one_more(&mut self, content: Content, now: Micros) {
        self.held += 1;
        let all = content.all_blocks();
        if self.held == all - all / 100 {
            self.nearly_whole = now;
        }
    }

    /// A slot with no connection.
    pub fn free_slot(&self) -> Option<u8> {
        let slot = (!self.used).trailing_zeros();
        (slot < CONNECTIONS as u32).then_some(slot as u8)
    }

    /// Whether the neighbour is one.
    pub fn knows(&self, neighbour: u32) -> bool {
        slots(self.used).any(|slot| self.links[slot as usize].peer == neighbour)
    }

    /// How many interested neighbours are unchoked.
    pub fn served(&self) -> usize {
        slots(self.used).map(|slot| &self.links[slot as usize]).filter(|link| link.is_interested && link.unchoked_at.is_some()).count()
    }

    /// The slot whose turn it is to be served.
    pub fn next_turn(&self) -> Option<u8> {
        let later = self.ready & (u64::MAX << self.turn) & !(1 << self.turn);
        slots(if later == 0 { self.ready } else { later }).next()
    }
}

/// The slots of a set, in rising order.
pub fn slots(set: u64) -> impl Iterator<Item = u8> {
    let mut rest = set;
    std::iter::from_fn(move || {
        let slot = rest.trailing_zeros();
        rest &= rest.wrapping_sub(1);
        (slot < 64).then_some(slot as u8)
    })
}

#[cfg(test)]
mod tests {
    use super::*;

    #[test]
    fn a_block_takes_its_bytes_over_the_rate() {
        assert_eq!(Line::new(64, 1024, 20), Line { up: 250_000, down: 15_625, delay: 20_000 });
        assert_eq!(Line::new(3, 1, 0).up, 5_333_334);
    }

    /// Of 250 blocks two are the last hundredth.
    #[test]
    fn a_peer_is_nearly_whole_without_a_hundredth_of_its_blocks() {
        let mut peer = Peer::new(Line::new(1, 1, 0));
        (1..=250).for_each(|now| peer.hold_one_more(Content { pieces: 125, blocks: 2 }, now));
        assert_eq!((peer.held, peer.nearly_whole), (250, 248));
    }

    #[test]
    fn slots_are_served_in_turns() {
        let mut peer = Peer::new(Line::new(1, 1, 0));
        peer.ready = 1 << 3 | 1 << 7 | 1 << 63;
        let turns: Vec<u8> = (0..5)
            .map(|_| {
                peer.turn = peer.next_turn().unwrap();
                peer.turn
            })
            .collect();
        assert_eq!(turns, [3, 7, 63, 3, 7]);
        peer.ready = 1 << 7;
        assert_eq!(peer.next_turn(), Some(7));
        peer.ready = 0;
        assert_eq!(peer.next_turn(), None);
    }

    #[test]
    fn a_link_counts_its_open_time_and_the_idle_part() {
        let (mut link, mut total) = (Link::default(), OpenTime::default());
        link.count(10, &mut total);
        (link.is_open, link.wanted) = (true, 1);
        link.count(15, &mut total);
        link.asked.push(Block { piece: 0, index: 0 });
        link.count(35, &mut total);
        link.wanted = 0;
        link.count(99, &mut total);
        assert_eq!(total, OpenTime { open: 25, idle: 5 });
    }

    #[test]
    fn pieces_are_spelled_as_in_a_bitfield() {
        let mut peer = Peer::new(Line::new(1, 1, 0));
        peer.come(Content { pieces: 10, blocks: 1 }, 0, None);
        peer.get(0);
        peer.get(9);
        assert_eq!((peer.had.as_slice(), peer.had_count), ([0b1000_0000, 0b0100_0000].as_slice(), 2));
        assert!(peer.has(9) && !peer.has(8));
    }
}

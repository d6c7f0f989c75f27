//! Peers come, meet and go.

use crate::peer::{slots, CONNECTIONS};
use crate::queue::SECOND;
use crate::rule::Fault;
use crate::swarm::{Event, Message, Swarm, ROUND};

/// How many peers the tracker names.
const NAMED: usize = 50;

/// How many connections a peer makes itself at a time. It takes others up to [`CONNECTIONS`].
const MADE: usize = 25;

impl Swarm<'_> {
    /// A peer comes, and the next one is on its way.
    pub(crate) fn come(&mut self, peer: u32) -> Result<(), Fault> {
        let now = self.queue.now();
        self.last_move = now;
        let is_seed = self.is_seed(peer);
        let picker = if is_seed { None } else { Some(self.chooser.picker(peer, self.setup.content, &self.spent)?) };
        let comer = &mut self.peers[peer as usize];
        comer.come(self.setup.content, now, picker);
        comer.word = self.random.word();
        if is_seed {
            self.fill_seed(peer);
        } else if let Some(depths) = self.chooser.depths() {
            self.queue.put(depths.every, Event::Depths { peer });
        }
        self.meet(peer)?;
        self.here.push(peer);
        let first = self.random.below(ROUND);
        self.queue.put(first, Event::Round { peer });
        if let Some(at) = self.setup.comes(peer + 1) {
            self.queue.put(at - now, Event::Come { peer: peer + 1 });
        }
        Ok(())
    }

    fn fill_seed(&mut self, peer: u32) {
        let seed = &mut self.peers[peer as usize];
        seed.whole = Some(0);
        for piece in 0..self.setup.content.pieces {
            seed.get(piece);
            self.copies[piece as usize] += 1;
        }
    }

    /// The peer asks the tracker, and connects to some of those who are named.
    pub(crate) fn meet(&mut self, peer: u32) -> Result<(), Fault> {
        let mut named = self.here.clone();
        if named.len() > NAMED {
            named = (0..NAMED).map(|_| self.here[self.random.below(self.here.len() as u64) as usize]).collect();
        } else {
            self.random.shuffle(&mut named);
        }
        let mut made = 0;
        for other in named {
            if made < MADE && other != peer && !self.peers[peer as usize].knows(other) && self.connect(peer, other)? {
                made += 1;
            }
        }
        Ok(())
    }

    /// Connects two peers, where both have room and one isn't whole.
    fn connect(&mut self, one: u32, other: u32) -> Result<bool, Fault> {
        let (first, second) = (&self.peers[one as usize], &self.peers[other as usize]);
        let is_of_use = first.whole.is_none() || second.whole.is_none();
        let (Some(slot), Some(back)) = (first.free_slot(), second.free_slot()) else { return Ok(false) };
        if is_of_use {
            let delay = first.line.delay + second.line.delay;
            self.connections += 1;
            for (peer, slot, neighbour, back) in [(one, slot, other, back), (other, back, one, slot)] {
                let peer = &mut self.peers[peer as usize];
                let link = &mut peer.links[slot as usize];
                (link.peer, link.back, link.serial, link.delay) = (neighbour, back, self.connections, delay);
                link.counted = self.queue.now();
                peer.used |= 1 << slot;
            }
            self.greet(one, slot)?;
            self.greet(other, back)?;
        }
        Ok(is_of_use)
    }

    /// A downloader gets the bitfield of its new neighbour.
    fn greet(&mut self, peer: u32, slot: u8) -> Result<(), Fault> {
        let neighbour = self.peers[peer as usize].links[slot as usize].peer;
        if self.peers[peer as usize].picker.is_none() {
            return Ok(());
        }
        let flags = std::mem::take(&mut self.peers[neighbour as usize].had);
        let downloader = &mut self.peers[peer as usize];
        if let Some(picker) = &mut downloader.picker {
            picker.join(slot, &flags)?;
        }
        let shown = (0..self.setup.content.pieces).filter(|&piece| flags[piece as usize / 8] >> (7 - piece % 8) & 1 == 1);
        for piece in shown {
            downloader.shown[piece as usize] |= 1 << slot;
            downloader.links[slot as usize].wanted += u32::from(!downloader.has(piece));
        }
        self.peers[neighbour as usize].had = flags;
        self.say_interest(peer, slot);
        Ok(())
    }

    /// A peer goes, with all its connections.
    pub(crate) fn leave(&mut self, peer: u32) -> Result<(), Fault> {
        let Some(place) = self.here.iter().position(|&other| other == peer) else { return Ok(()) };
        self.here.swap_remove(place);
        for piece in (0..self.setup.content.pieces).filter(|&piece| self.peers[peer as usize].has(piece)) {
            self.copies[piece as usize] -= 1;
        }
        let leaver = &mut self.peers[peer as usize];
        let links = std::mem::take(&mut leaver.links);
        let used = std::mem::take(&mut leaver.used);
        (leaver.is_here, leaver.picker, leaver.sending, leaver.ready) = (false, None, None, 0);
        (leaver.shown, leaver.had, leaver.begun) = (Vec::new(), Vec::new(), Default::default());
        for link in slots(used).map(|slot| &links[slot as usize]) {
            self.part(link.peer, link.back)?;
        }
        for link in slots(used).map(|slot| &links[slot as usize]) {
            self.ask_others(link.peer)?;
        }
        Ok(())
    }

    /// The connection in this slot of a peer is gone.
    fn part(&mut self, peer: u32, slot: u8) -> Result<(), Fault> {
        let now = self.queue.now();
        let left = &mut self.peers[peer as usize];
        left.links[slot as usize].count(now, &mut self.outcome.open);
        let link = std::mem::take(&mut left.links[slot as usize]);
        link.asked.iter().for_each(|block| left.begun.remove(block.piece));
        let mask = !(1 << slot);
        for set in [&mut left.used, &mut left.ready, &mut left.open, &mut left.dry] {
            *set &= mask;
        }
        if let Some(picker) = &mut left.picker {
            picker.leave(slot)?;
            left.shown.iter_mut().for_each(|shown| *shown &= mask);
        }
        Ok(())
    }

    /// A peer with few connections asks the tracker again.
    pub(crate) fn meet_more(&mut self, peer: u32) -> Result<(), Fault> {
        let asker = &self.peers[peer as usize];
        let is_turn = asker.rounds % (60 * SECOND / ROUND) as u32 == 0;
        let has_few = (asker.used.count_ones() as usize) < CONNECTIONS * 2 / 5;
        if is_turn && has_few && asker.whole.is_none() {
            self.meet(peer)?;
        }
        Ok(())
    }

    /// Says to the neighbour whether it has what we lack, where it doesn't know.
    pub(crate) fn say_interest(&mut self, peer: u32, slot: u8) {
        let link = &mut self.peers[peer as usize].links[slot as usize];
        let is_interested = link.wanted > 0;
        if link.has_interest != is_interested {
            link.has_interest = is_interested;
            self.say(peer, slot, 0, Message::Interested(is_interested));
        }
    }
}

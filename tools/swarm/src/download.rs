//! What a peer takes: its questions to the picker, and the blocks that come.

use crate::meter::Spread;
use crate::peer::slots;
use crate::queue::SECOND;
use crate::rule::{Ask, Block, Came, Fault};
use crate::swarm::{Event, Message, Swarm};

impl Swarm<'_> {
    /// Asks the picker what to say to the neighbour, as long as there is something. A word is used for one request, so a question in vain changes
    /// nothing of what follows.
    pub(crate) fn ask(&mut self, peer: u32, slot: u8) -> Result<(), Fault> {
        loop {
            let asker = &mut self.peers[peer as usize];
            let Some(picker) = &mut asker.picker else { return Ok(()) };
            let answer = picker.next(slot, asker.word)?;
            match answer {
                Ask::Request(block) => self.request(peer, slot, block),
                Ask::Cancel(block) => self.cancel(peer, slot, block),
                Ask::Full => asker.dry &= !(1 << slot),
                Ask::Dry => asker.dry |= 1 << slot,
            }
            if matches!(answer, Ask::Full | Ask::Dry) {
                return Ok(());
            }
        }
    }

    fn request(&mut self, peer: u32, slot: u8, block: Block) {
        let asker = &mut self.peers[peer as usize];
        asker.word = self.random.word();
        asker.begun.add(block.piece);
        self.outcome.begun.note(asker.begun.count());
        let link = &mut asker.links[slot as usize];
        link.count(self.queue.now(), &mut self.outcome.open);
        link.asked.push(block);
        self.outcome.requests += 1;
        self.say(peer, slot, 0, Message::Request(block));
    }

    fn cancel(&mut self, peer: u32, slot: u8, block: Block) {
        let asker = &mut self.peers[peer as usize];
        asker.begun.remove(block.piece);
        let link = &mut asker.links[slot as usize];
        link.count(self.queue.now(), &mut self.outcome.open);
        link.asked.retain(|&asked| asked != block);
        self.say(peer, slot, 0, Message::Cancel(block));
    }

    /// Where the epoch is another, neighbours that had nothing may have something now, and others may be due for a cancel.
    pub(crate) fn ask_others(&mut self, peer: u32) -> Result<(), Fault> {
        loop {
            let asker = &mut self.peers[peer as usize];
            let Some(picker) = &asker.picker else { return Ok(()) };
            let epoch = picker.epoch();
            if epoch == asker.epoch {
                return Ok(());
            }
            asker.epoch = epoch;
            for slot in slots(asker.open) {
                self.ask(peer, slot)?;
            }
        }
    }

    /// The neighbour chokes this peer, or does so no more.
    pub(crate) fn note_choke(&mut self, peer: u32, slot: u8, is_choked: bool) -> Result<(), Fault> {
        let taker = &mut self.peers[peer as usize];
        let Some(picker) = &mut taker.picker else { return Ok(()) };
        picker.choke(slot, is_choked)?;
        let link = &mut taker.links[slot as usize];
        link.count(self.queue.now(), &mut self.outcome.open);
        link.is_open = !is_choked;
        if is_choked {
            link.asked.drain(..).for_each(|block| taker.begun.remove(block.piece));
            taker.dry &= !(1 << slot);
            taker.open &= !(1 << slot);
        } else {
            taker.open |= 1 << slot;
            self.ask(peer, slot)?;
        }
        self.ask_others(peer)
    }

    /// A block reaches the line down, which takes one block at a time.
    pub(crate) fn block_reaches(&mut self, peer: u32, slot: u8, block: Block) -> Result<(), Fault> {
        let now = self.queue.now();
        let taker = &self.peers[peer as usize];
        let link = &taker.links[slot as usize];
        let began = now.saturating_sub(self.peers[link.peer as usize].line.up);
        let (serial, through) = (link.serial, now.max(taker.down_free.max(began) + taker.line.down));
        self.peers[peer as usize].down_free = through;
        if through == now {
            return self.block_comes(peer, slot, block);
        }
        self.queue.put(through - now, Event::Said { peer, slot, serial, message: Message::Comes(block) });
        Ok(())
    }

    /// A block came.
    pub(crate) fn block_comes(&mut self, peer: u32, slot: u8, block: Block) -> Result<(), Fault> {
        self.last_move = self.queue.now();
        self.outcome.blocks.received += 1;
        let taker = &mut self.peers[peer as usize];
        let link = &mut taker.links[slot as usize];
        link.count(self.last_move, &mut self.outcome.open);
        link.received[0] += 1;
        link.lately += 1;
        if let Some(place) = link.asked.iter().position(|&asked| asked == block) {
            link.asked.remove(place);
            taker.begun.remove(block.piece);
        }
        let Some(picker) = &mut taker.picker else {
            self.outcome.blocks.twice += 1;
            return Ok(());
        };
        let came = picker.arrived(slot, block)?;
        if came != Came::Twice {
            taker.hold_one_more(self.setup.content, self.last_move);
        }
        match came {
            Came::Stored => taker.begun.add(block.piece),
            Came::Twice => self.outcome.blocks.twice += 1,
            Came::Completed => self.get_piece(peer, block.piece)?,
        }
        self.ask(peer, slot)?;
        self.ask_others(peer)
    }

    /// The peer has one piece more, and tells its neighbours.
    fn get_piece(&mut self, peer: u32, piece: u32) -> Result<(), Fault> {
        let now = self.queue.now();
        self.note_copy(piece);
        let taker = &mut self.peers[peer as usize];
        taker.get(piece);
        taker.begun.finish(piece);
        let is_whole = taker.had_count == self.setup.content.pieces;
        for slot in slots(taker.shown[piece as usize]) {
            let link = &mut self.peers[peer as usize].links[slot as usize];
            link.count(now, &mut self.outcome.open);
            link.wanted -= 1;
            self.say_interest(peer, slot);
        }
        self.queue.put(self.setup.have_delay, Event::Have { peer, piece });
        if is_whole {
            self.be_whole(peer)?;
        }
        Ok(())
    }

    /// There is one copy more of the piece.
    fn note_copy(&mut self, piece: u32) {
        self.copies[piece as usize] += 1;
        let is_new = !std::mem::replace(&mut self.is_out[piece as usize], true);
        self.unspread -= u32::from(is_new);
        if is_new && self.unspread == 0 {
            let seeds = &self.peers[..self.setup.seeds.len()];
            self.outcome.spread = Some(Spread { at: self.queue.now(), sent: seeds.iter().map(|seed| seed.sent).sum() });
        }
    }

    /// The peer has everything. What it asked for twice is cancelled, and its picker goes.
    fn be_whole(&mut self, peer: u32) -> Result<(), Fault> {
        let now = self.queue.now();
        for slot in slots(self.peers[peer as usize].used) {
            if !self.peers[peer as usize].links[slot as usize].asked.is_empty() {
                self.ask(peer, slot)?;
            }
        }
        let whole = &mut self.peers[peer as usize];
        whole.picker = None;
        whole.shown = Vec::new();
        whole.whole = Some(now);
        let time = now - whole.came;
        self.outcome.times.push(time);
        self.outcome.ends.push(now - whole.nearly_whole);
        if self.chooser.is_mixed_in(peer) {
            self.outcome.mixed_in.push(time);
        }
        if let Some(stay) = self.setup.stays {
            self.queue.put(stay, Event::Leave { peer });
        }
        Ok(())
    }

    /// All neighbours hear that the peer has the piece. One that was asked in vain is asked again.
    pub(crate) fn tell_have(&mut self, peer: u32, piece: u32) -> Result<(), Fault> {
        for slot in slots(self.peers[peer as usize].used) {
            let link = &self.peers[peer as usize].links[slot as usize];
            let (neighbour, back) = (link.peer, link.back);
            self.note_have(neighbour, back, piece)?;
        }
        Ok(())
    }

    fn note_have(&mut self, peer: u32, slot: u8, piece: u32) -> Result<(), Fault> {
        let hearer = &mut self.peers[peer as usize];
        let Some(picker) = &mut hearer.picker else { return Ok(()) };
        if hearer.shown[piece as usize] >> slot & 1 == 1 {
            return Ok(());
        }
        picker.have(slot, piece)?;
        hearer.shown[piece as usize] |= 1 << slot;
        if hearer.has(piece) {
            return Ok(());
        }
        let link = &mut hearer.links[slot as usize];
        link.count(self.queue.now(), &mut self.outcome.open);
        link.wanted += 1;
        let is_dry = hearer.dry >> slot & 1 == 1;
        self.say_interest(peer, slot);
        if is_dry {
            self.ask(peer, slot)?;
        }
        self.ask_others(peer)
    }

    /// Each neighbour that is open gets as many requests as it brought blocks lately, and some more.
    pub(crate) fn tell_depths(&mut self, peer: u32) -> Result<(), Fault> {
        let Some(depths) = self.chooser.depths() else { return Ok(()) };
        for slot in slots(self.peers[peer as usize].used) {
            let taker = &mut self.peers[peer as usize];
            let Some(picker) = &mut taker.picker else { return Ok(()) };
            let link = &mut taker.links[slot as usize];
            let brought = std::mem::take(&mut link.lately);
            if link.is_open {
                picker.depth(slot, depths.depth(brought))?;
                self.ask(peer, slot)?;
            }
        }
        self.queue.put(SECOND, Event::Depths { peer });
        self.ask_others(peer)
    }
}

#[cfg(test)]
mod tests {
    use super::*;
    use crate::peer::Line;
    use crate::rule::Content;
    use crate::rules;
    use crate::setup::{Guest, Setup};

    /// Two blocks are asked of the first neighbour that unchokes us, and nothing is left for the second. When the first one chokes us, the epoch
    /// rises, and the second one is asked for both.
    #[test]
    fn a_neighbour_that_had_nothing_is_asked_when_the_epoch_rises() {
        let line = Line { up: 5 * SECOND, down: 1_000, delay: 10_000 };
        let setup = Setup {
            content: Content { pieces: 1, blocks: 2 },
            seeds: vec![line],
            seed_gives: None,
            heeds_cancels: true,
            guests: vec![Guest { at: 0, line }, Guest { at: SECOND, line }],
            stays: None,
            have_delay: 1_000,
            sampled: SECOND,
            patience: 100 * SECOND,
        };
        for name in ["ours, 1 asker", "ours"] {
            let chooser = rules::named(name).unwrap();
            let mut swarm = Swarm::new(&setup, &chooser, 1);
            while !swarm.peers[1].is_here {
                swarm.step().unwrap();
            }
            swarm.peers[1].get(0);
            swarm.be_whole(1).unwrap();
            while swarm.peers[2].open.count_ones() < 2 {
                swarm.step().unwrap();
            }
            let asked = |swarm: &Swarm, slot: u8| swarm.peers[2].links[slot as usize].asked.len();
            let first = slots(swarm.peers[2].open).max_by_key(|&slot| asked(&swarm, slot)).unwrap();
            let second = 1 - first;
            let doubled = if name == "ours" { 2 } else { 0 };
            assert_eq!((asked(&swarm, first), asked(&swarm, second)), (2, doubled), "{name}");
            swarm.note_choke(2, first, true).unwrap();
            assert_eq!((asked(&swarm, first), asked(&swarm, second)), (0, 2), "{name}");
        }
    }
}

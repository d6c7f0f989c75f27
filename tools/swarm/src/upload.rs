//! What a peer gives: whom it unchokes, and the blocks that it sends.

use crate::choking::{in_turns, tit_for_tat, Decision, Rival, UNCHOKED};
use crate::peer::{slots, Sending};
use crate::queue::SECOND;
use crate::rule::{Block, Fault};
use crate::swarm::{Event, Message, Swarm, ROUND};

/// How many rounds the optimistic place of a neighbour lasts: 30 seconds.
const OPTIMISTIC_ROUNDS: u32 = (30 * SECOND / ROUND) as u32;

impl Swarm<'_> {
    /// The neighbour is interested in this peer, or is so no more. A free place is given at once.
    pub(crate) fn note_interest(&mut self, peer: u32, slot: u8, is_interested: bool) {
        let server = &mut self.peers[peer as usize];
        let link = &mut server.links[slot as usize];
        link.is_interested = is_interested;
        if is_interested && link.unchoked_at.is_none() && server.served() < UNCHOKED {
            self.unchoke(peer, slot);
        }
    }

    /// Each ten seconds a peer chooses whom to unchoke.
    pub(crate) fn round(&mut self, peer: u32) -> Result<(), Fault> {
        if !self.peers[peer as usize].is_here {
            return Ok(());
        }
        self.queue.put(ROUND, Event::Round { peer });
        let decision = self.decide(peer);
        let server = &mut self.peers[peer as usize];
        server.optimistic = decision.optimistic;
        server.rounds += 1;
        for slot in slots(server.used) {
            let link = &mut self.peers[peer as usize].links[slot as usize];
            link.received = [0, link.received[0]];
            match (link.unchoked_at.is_some(), decision.unchoked.contains(&slot)) {
                (false, true) => self.unchoke(peer, slot),
                (true, false) => self.choke(peer, slot),
                _ => (),
            }
        }
        self.meet_more(peer)
    }

    fn decide(&mut self, peer: u32) -> Decision {
        let server = &self.peers[peer as usize];
        let interested = slots(server.used).filter(|&slot| server.links[slot as usize].is_interested);
        let mut rivals: Vec<Rival> = interested
            .map(|slot| {
                let link = &server.links[slot as usize];
                Rival { slot, received: link.received.iter().sum(), unchoked_at: link.unchoked_at }
            })
            .collect();
        self.random.shuffle(&mut rivals);
        if server.whole.is_some() {
            in_turns(&rivals)
        } else {
            tit_for_tat(&rivals, server.optimistic, server.rounds % OPTIMISTIC_ROUNDS == 0)
        }
    }

    fn unchoke(&mut self, peer: u32, slot: u8) {
        self.peers[peer as usize].links[slot as usize].unchoked_at = Some(self.queue.now());
        self.say(peer, slot, 0, Message::Choked(false));
    }

    /// What waits is dropped. The message goes out behind the block that is being sent to this neighbour.
    fn choke(&mut self, peer: u32, slot: u8) {
        let now = self.queue.now();
        let server = &mut self.peers[peer as usize];
        let link = &mut server.links[slot as usize];
        link.unchoked_at = None;
        link.waiting.clear();
        server.ready &= !(1 << slot);
        let is_under_way = |sending: &Sending| sending.slot == slot && sending.serial == link.serial;
        let after = server.sending.filter(is_under_way).map_or(0, |sending| sending.end - now + 1);
        self.say(peer, slot, after, Message::Choked(true));
    }

    /// A request came. One of a neighbour that is choked is dropped.
    pub(crate) fn enqueue(&mut self, peer: u32, slot: u8, block: Block) {
        let server = &mut self.peers[peer as usize];
        debug_assert!(server.has(block.piece));
        let link = &mut server.links[slot as usize];
        if link.unchoked_at.is_some() {
            link.waiting.push_back(block);
            server.ready |= 1 << slot;
            self.serve(peer);
        }
    }

    /// A cancel came. A block that is being sent goes on, and where no cancel is heeded all others do.
    pub(crate) fn forget(&mut self, peer: u32, slot: u8, block: Block) {
        if !self.setup.heeds_cancels {
            return;
        }
        let server = &mut self.peers[peer as usize];
        let waiting = &mut server.links[slot as usize].waiting;
        waiting.retain(|&other| other != block);
        if waiting.is_empty() {
            server.ready &= !(1 << slot);
        }
    }

    /// The line up takes the next block: one of each neighbour in turns.
    fn serve(&mut self, peer: u32) {
        let server = &mut self.peers[peer as usize];
        if server.sending.is_some() {
            return;
        }
        let Some(slot) = server.next_turn() else { return };
        let link = &mut server.links[slot as usize];
        let Some(block) = link.waiting.pop_front() else { return };
        if link.waiting.is_empty() {
            server.ready &= !(1 << slot);
        }
        server.turn = slot;
        server.sending = Some(Sending { slot, serial: link.serial, block, end: self.queue.now() + server.line.up });
        self.queue.put(server.line.up, Event::Sent { peer });
    }

    /// A block is out of the line up. A seed may have given enough now.
    pub(crate) fn sent(&mut self, peer: u32) -> Result<(), Fault> {
        let server = &mut self.peers[peer as usize];
        let Some(sending) = server.sending.take() else { return Ok(()) };
        let slot = sending.slot;
        if server.used >> slot & 1 == 1 && server.links[slot as usize].serial == sending.serial {
            server.sent += 1;
            self.outcome.blocks.sent += 1;
            self.say(peer, slot, 0, Message::Reaches(sending.block));
        }
        if self.is_seed(peer) && self.setup.seed_gives.is_some_and(|enough| self.peers[peer as usize].sent >= enough) {
            return self.leave(peer);
        }
        self.serve(peer);
        Ok(())
    }
}

#[cfg(test)]
mod tests {
    use super::*;
    use crate::peer::Line;
    use crate::queue::Micros;
    use crate::rule::Content;
    use crate::rules;
    use crate::setup::{Guest, Setup};
    use crate::swarm::SEED;

    const UP: Micros = 1_000_000;
    const DELAY: Micros = 20_000;

    fn setup(guests: usize) -> Setup {
        let line = Line { up: UP, down: 1_000, delay: DELAY / 2 };
        Setup {
            content: Content { pieces: 4, blocks: 16 },
            seeds: vec![line],
            seed_gives: None,
            heeds_cancels: true,
            guests: vec![Guest { at: 0, line }; guests],
            stays: None,
            have_delay: DELAY,
            sampled: SECOND,
            patience: 100 * SECOND,
        }
    }

    /// A swarm in which the seed sends its first block, and each guest has its other requests waiting there.
    fn busy<'a>(setup: &'a Setup, chooser: &'a rules::Chooser) -> Swarm<'a> {
        let mut swarm = Swarm::new(setup, chooser, 1);
        while swarm.queue.now() < UP / 2 {
            assert_eq!(swarm.step(), Ok(true));
        }
        swarm
    }

    fn waiting(swarm: &Swarm, slot: u8) -> Vec<Block> {
        swarm.peers[SEED as usize].links[slot as usize].waiting.iter().copied().collect()
    }

    #[test]
    fn a_cancel_drops_the_request_that_waits() {
        let (setup, chooser) = (setup(1), rules::named("ours").unwrap());
        let mut swarm = busy(&setup, &chooser);
        let before = waiting(&swarm, 0);
        assert_eq!(before.len(), 4);
        swarm.forget(SEED, 0, before[1]);
        assert_eq!(waiting(&swarm, 0), [before[0], before[2], before[3]]);
        before.iter().for_each(|&block| swarm.forget(SEED, 0, block));
        assert_eq!((waiting(&swarm, 0), swarm.peers[SEED as usize].ready), (vec![], 0));
    }

    #[test]
    fn a_cancel_that_isnt_heeded_drops_nothing() {
        let (setup, chooser) = (Setup { heeds_cancels: false, ..setup(1) }, rules::named("ours").unwrap());
        let mut swarm = busy(&setup, &chooser);
        let before = waiting(&swarm, 0);
        before.iter().for_each(|&block| swarm.forget(SEED, 0, block));
        assert_eq!((waiting(&swarm, 0), before.len()), (before, 4));
    }

    /// The block that is being sent goes on, and comes before the choke.
    #[test]
    fn a_choke_drops_what_waits_and_comes_behind_the_block() {
        let (setup, chooser) = (setup(1), rules::named("ours").unwrap());
        let mut swarm = busy(&setup, &chooser);
        swarm.choke(SEED, 0);
        assert_eq!((waiting(&swarm, 0), swarm.peers[SEED as usize].ready), (vec![], 0));
        while swarm.peers[1].open == 1 {
            assert_eq!(swarm.step(), Ok(true));
        }
        assert_eq!((swarm.outcome.blocks.received, swarm.outcome.blocks.sent), (1, 1));
        assert!(swarm.peers[1].links[0].asked.is_empty());
        swarm.enqueue(SEED, 0, Block { piece: 0, index: 0 });
        assert_eq!(waiting(&swarm, 0), []);
    }

    /// Four of six guests are served, one block of each in turns.
    #[test]
    fn the_unchoked_are_served_in_turns() {
        let (setup, chooser) = (setup(6), rules::named("ours").unwrap());
        let mut swarm = busy(&setup, &chooser);
        let served: Vec<u8> = (0..6).filter(|&slot| swarm.peers[SEED as usize].links[slot as usize].unchoked_at.is_some()).collect();
        assert_eq!(served.len(), UNCHOKED);
        while swarm.outcome.blocks.sent < 8 {
            assert_eq!(swarm.step(), Ok(true));
        }
        let received = served.iter().map(|&slot| {
            let link = &swarm.peers[SEED as usize].links[slot as usize];
            swarm.peers[link.peer as usize].links[link.back as usize].received[0]
        });
        let received: Vec<u32> = received.collect();
        assert!(received.iter().all(|&blocks| (1..=2).contains(&blocks)), "{received:?}");
    }
}

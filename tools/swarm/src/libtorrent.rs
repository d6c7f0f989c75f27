//! libtorrent's own picker (`tools/libtorrent/swarm_picker.cpp`), called as libtorrent's connections and its torrent call it. It has the usual
//! settings: strict endgame, and four random pieces first. Two things differ. A neighbour that had nothing is asked again as soon as it may have
//! something, and not after five seconds. And a cancel takes a block out of what is asked at once.

use crate::rule::{Ask, Block, Came, Content, Fault, Rule};
use std::collections::VecDeque;

/// The slots of a picker.
const SLOTS: usize = 64;

/// The most blocks that are named at a time: more than 8 MiB of them, and a piece.
const NAMED: usize = 1024;

/// What a client with this picker does.
#[derive(Clone, Copy, Debug)]
pub struct Client {
    /// A neighbour is asked for as many whole pieces as it brings in 20 seconds, as with the usual `whole_pieces_threshold`. Else nothing is asked of
    /// it by pieces.
    pub by_pieces: bool,
}

impl Client {
    /// A picker that has nothing.
    pub fn picker(self, peer: u32, content: Content, depth: u32) -> Box<dyn Rule> {
        Box::new(Libtorrent::new(self, peer, content, depth))
    }
}

mod sys {
    use crate::rule::Block;

    #[repr(C)]
    pub struct Picker {
        _opaque: [u8; 0],
    }

    extern "C" {
        pub fn swarm_picker_open(pieces: u32, blocks: u32, seed: u32) -> *mut Picker;
        pub fn swarm_picker_close(picker: *mut Picker);
        pub fn swarm_picker_join(picker: *mut Picker, slot: u32, flags: *const u8);
        pub fn swarm_picker_leave(picker: *mut Picker, slot: u32);
        pub fn swarm_picker_have(picker: *mut Picker, slot: u32, piece: u32);
        pub fn swarm_picker_pick(
            picker: *mut Picker,
            slot: u32,
            count: u32,
            contiguous: u32,
            peers: u32,
            blocks: *mut Block,
            room: u32,
        ) -> u32;
        pub fn swarm_picker_ask(picker: *mut Picker, slot: u32, block: Block) -> bool;
        pub fn swarm_picker_abort(picker: *mut Picker, slot: u32, block: Block);
        pub fn swarm_picker_asked(picker: *const Picker, block: Block) -> u32;
        pub fn swarm_picker_came(picker: *const Picker, block: Block) -> bool;
        pub fn swarm_picker_is_endgame(picker: *const Picker) -> bool;
        pub fn swarm_picker_arrived(picker: *mut Picker, slot: u32, block: Block) -> bool;
    }
}

/// The picker itself, and room for the blocks that it names.
struct Handle {
    picker: *mut sys::Picker,
    room: Vec<Block>,
}

// SAFETY: the pointer is that of a picker until the value is dropped. A slot is below 64, flags are those of a whole content, and blocks and pieces
// are some of the content, as the simulator says them.
impl Handle {
    fn new(content: Content, seed: u32) -> Handle {
        let picker = unsafe { sys::swarm_picker_open(content.pieces, content.blocks, seed) };
        Handle { picker, room: vec![Block { piece: 0, index: 0 }; NAMED] }
    }

    fn join(&mut self, slot: u8, flags: &[u8]) {
        unsafe { sys::swarm_picker_join(self.picker, slot.into(), flags.as_ptr()) }
    }

    fn leave(&mut self, slot: u8) {
        unsafe { sys::swarm_picker_leave(self.picker, slot.into()) }
    }

    fn have(&mut self, slot: u8, piece: u32) {
        unsafe { sys::swarm_picker_have(self.picker, slot.into(), piece) }
    }

    fn pick(&mut self, slot: u8, count: u32, contiguous: u32, peers: u32) -> Vec<Block> {
        let found =
            unsafe { sys::swarm_picker_pick(self.picker, slot.into(), count, contiguous, peers, self.room.as_mut_ptr(), NAMED as u32) };
        self.room[..found as usize].to_vec()
    }

    fn ask(&mut self, slot: u8, block: Block) -> bool {
        unsafe { sys::swarm_picker_ask(self.picker, slot.into(), block) }
    }

    fn abort(&mut self, slot: u8, block: Block) {
        unsafe { sys::swarm_picker_abort(self.picker, slot.into(), block) }
    }

    fn asked(&self, block: Block) -> u32 {
        unsafe { sys::swarm_picker_asked(self.picker, block) }
    }

    fn came(&self, block: Block) -> bool {
        unsafe { sys::swarm_picker_came(self.picker, block) }
    }

    fn is_endgame(&self) -> bool {
        unsafe { sys::swarm_picker_is_endgame(self.picker) }
    }

    fn arrived(&mut self, slot: u8, block: Block) -> bool {
        unsafe { sys::swarm_picker_arrived(self.picker, slot.into(), block) }
    }
}

impl Drop for Handle {
    fn drop(&mut self) {
        unsafe { sys::swarm_picker_close(self.picker) }
    }
}

#[derive(Clone, Debug, Default)]
struct Neighbour {
    is_open: bool,
    depth: usize,
    /// Thousandths of a block a second that it brought in the last five seconds or so, where it is told.
    rate: u32,
    /// What is asked of it, the oldest first.
    asked: Vec<Block>,
    /// What is to be asked of it, as soon as it may be.
    queued: VecDeque<Block>,
    /// What it was asked for, and another neighbour brought.
    due: Vec<Block>,
}

impl Neighbour {
    /// How many blocks are asked of it, or are to be.
    fn count(&self) -> usize {
        self.asked.len() + self.queued.len()
    }
}

/// A client with libtorrent's picker.
pub struct Libtorrent {
    picker: Handle,
    client: Client,
    content: Content,
    neighbours: Vec<Neighbour>,
    joined: u32,
    usual_depth: u32,
    is_endgame: bool,
    epoch: u64,
}

impl Libtorrent {
    /// A client that has nothing.
    pub fn new(client: Client, peer: u32, content: Content, depth: u32) -> Libtorrent {
        let picker = Handle::new(content, peer);
        let neighbours = vec![Neighbour::default(); SLOTS];
        Libtorrent { picker, client, content, neighbours, joined: 0, usual_depth: depth, is_endgame: false, epoch: 0 }
    }

    /// How many blocks in a row are to be asked of the neighbour: whole pieces, and at most 8 MiB.
    fn contiguous(&self, slot: u8) -> u32 {
        let blocks = (20 * self.neighbours[slot as usize].rate / 1000).min(512);
        if self.client.by_pieces {
            blocks / self.content.blocks * self.content.blocks
        } else {
            0
        }
    }

    /// Queues what the picker names. Where that is too little, a block that others are asked for, if nothing is asked of this neighbour and it is
    /// endgame.
    fn fill(&mut self, slot: u8) {
        let neighbour = &self.neighbours[slot as usize];
        let wanted = neighbour.depth - neighbour.count();
        let may_double = self.picker.is_endgame() && neighbour.count() == 0;
        let contiguous = self.contiguous(slot);
        let (mut queued, mut double) = (0, None);
        for block in self.picker.pick(slot, wanted as u32, contiguous, self.joined) {
            let is_enough = queued >= wanted;
            let is_busy = self.picker.asked(block) > 0;
            if is_enough && (is_busy || contiguous == 0) || is_busy && !may_double {
                break;
            }
            if is_busy {
                double = Some(block);
            } else if self.queue(slot, block) {
                queued += 1;
            }
        }
        if let Some(block) = double.filter(|_| self.neighbours[slot as usize].count() == 0) {
            self.queue(slot, block);
        }
    }

    fn queue(&mut self, slot: u8, block: Block) -> bool {
        let is_asked = self.picker.ask(slot, block);
        if is_asked {
            self.neighbours[slot as usize].queued.push_back(block);
            let was_endgame = std::mem::replace(&mut self.is_endgame, self.picker.is_endgame());
            self.epoch += u64::from(self.is_endgame && !was_endgame);
        }
        is_asked
    }

    /// The next block of the queue that hasn't come.
    fn take(&mut self, slot: u8) -> Option<Block> {
        while let Some(block) = self.neighbours[slot as usize].queued.pop_front() {
            if !self.picker.came(block) {
                self.neighbours[slot as usize].asked.push(block);
                return Some(block);
            }
            self.picker.abort(slot, block);
        }
        None
    }

    /// Nothing is asked of the neighbour any more.
    fn free(&mut self, slot: u8) {
        let neighbour = &mut self.neighbours[slot as usize];
        neighbour.due.clear();
        let freed: Vec<Block> = neighbour.asked.drain(..).chain(neighbour.queued.drain(..)).collect();
        freed.iter().for_each(|&block| self.picker.abort(slot, block));
        self.is_endgame = self.picker.is_endgame();
        self.epoch += u64::from(!freed.is_empty());
    }

    /// Those who are asked for a block that came are due for a cancel.
    fn cancel(&mut self, block: Block) {
        for neighbour in &mut self.neighbours {
            neighbour.queued.retain(|&queued| queued != block);
            if let Some(place) = neighbour.asked.iter().position(|&asked| asked == block) {
                neighbour.asked.remove(place);
                neighbour.due.push(block);
                self.epoch += 1;
            }
        }
    }
}

impl Rule for Libtorrent {
    /// libtorrent's connections draw their random numbers themselves.
    fn next(&mut self, slot: u8, _: u64) -> Result<Ask, Fault> {
        let neighbour = &mut self.neighbours[slot as usize];
        if let Some(block) = neighbour.due.pop() {
            return Ok(Ask::Cancel(block));
        }
        if !neighbour.is_open || neighbour.asked.len() >= neighbour.depth {
            return Ok(Ask::Full);
        }
        if neighbour.count() < neighbour.depth {
            self.fill(slot);
        }
        Ok(self.take(slot).map_or(Ask::Dry, Ask::Request))
    }

    fn join(&mut self, slot: u8, flags: &[u8]) -> Result<(), Fault> {
        self.joined += 1;
        self.neighbours[slot as usize] = Neighbour { depth: self.usual_depth as usize, ..Neighbour::default() };
        self.picker.join(slot, flags);
        Ok(())
    }

    fn leave(&mut self, slot: u8) -> Result<(), Fault> {
        self.free(slot);
        self.neighbours[slot as usize].is_open = false;
        self.picker.leave(slot);
        self.joined -= 1;
        Ok(())
    }

    fn have(&mut self, slot: u8, piece: u32) -> Result<(), Fault> {
        self.picker.have(slot, piece);
        Ok(())
    }

    fn choke(&mut self, slot: u8, is_choked: bool) -> Result<(), Fault> {
        self.neighbours[slot as usize].is_open = !is_choked;
        if is_choked {
            self.free(slot);
        }
        Ok(())
    }

    /// A depth by rate is the usual one and what came in the last second. The rate is an average in which a second has a fifth.
    fn depth(&mut self, slot: u8, depth: u32) -> Result<(), Fault> {
        let neighbour = &mut self.neighbours[slot as usize];
        neighbour.depth = depth as usize;
        let brought = depth.saturating_sub(self.usual_depth);
        neighbour.rate = (4 * neighbour.rate + 1000 * brought) / 5;
        Ok(())
    }

    fn arrived(&mut self, slot: u8, block: Block) -> Result<Came, Fault> {
        let asked = &mut self.neighbours[slot as usize].asked;
        asked.retain(|&other| other != block);
        if self.picker.came(block) {
            return Ok(Came::Twice);
        }
        let is_had = self.picker.arrived(slot, block);
        self.cancel(block);
        Ok(if is_had { Came::Completed } else { Came::Stored })
    }

    fn epoch(&self) -> u64 {
        self.epoch
    }
}

//! What a control knows of its download, written as plainly as it can be.

use crate::random::scaled;
use crate::rule::{Block, Came, Content};

/// The slots of a book, and the most blocks of a piece: each set of them is a word of 64 bits.
pub const SLOTS: usize = 64;

/// How endgame goes, by the library's options of these names.
#[derive(Clone, Copy, Debug)]
pub struct Endgame {
    /// Of how many neighbours a block is asked at most.
    pub askers: u32,
    /// A block is asked again only of a neighbour that is asked for fewer.
    pub rush: u32,
    /// Endgame waits only for pieces that a neighbour shows, and not for all.
    pub shown: bool,
}

#[derive(Clone, Debug, Default)]
struct Neighbour {
    is_open: bool,
    depth: usize,
    /// What is asked of it, the oldest first.
    line: Vec<Block>,
    /// What it was asked for, and another neighbour brought.
    due: Vec<Block>,
}

/// Pieces, blocks and neighbours of one downloader.
#[derive(Clone, Debug)]
pub struct Book {
    content: Content,
    /// For each piece, the slots that show it.
    shown: Vec<u64>,
    /// For each piece, the blocks that are held or asked.
    taken: Vec<u64>,
    /// For each piece, the blocks that are held.
    held: Vec<u64>,
    /// The pieces that aren't had, and of which a block is held or asked.
    begun: Vec<u32>,
    had: u32,
    /// The blocks that are neither held nor asked, of the pieces that endgame waits for.
    free: u64,
    neighbours: Vec<Neighbour>,
    /// How many of them are there.
    joined: usize,
    usual_depth: usize,
    endgame: Endgame,
    epoch: u64,
}

impl Book {
    /// The book of a downloader that has nothing.
    pub fn new(content: Content, depth: u32, endgame: Endgame) -> Book {
        let empty = vec![0; content.pieces as usize];
        Book {
            content,
            shown: empty.clone(),
            taken: empty.clone(),
            held: empty,
            begun: Vec::new(),
            had: 0,
            free: if endgame.shown { 0 } else { content.all_blocks() },
            neighbours: vec![Neighbour::default(); SLOTS],
            joined: 0,
            usual_depth: depth as usize,
            endgame,
            epoch: 0,
        }
    }

    /// How many pieces there are.
    pub fn pieces(&self) -> u32 {
        self.content.pieces
    }

    /// The blocks of each piece.
    pub fn blocks(&self) -> u32 {
        self.content.blocks
    }

    /// How many pieces are had.
    pub fn had(&self) -> u32 {
        self.had
    }

    /// How many neighbours there are.
    pub fn joined(&self) -> usize {
        self.joined
    }

    /// Whether a block of the piece is held or asked.
    pub fn is_begun(&self, piece: u32) -> bool {
        self.taken[piece as usize] != 0
    }

    /// How many pieces are open: begun, and with a free block.
    pub fn open(&self) -> usize {
        let full = self.full();
        self.begun.iter().filter(|&&piece| self.taken[piece as usize] != full).count()
    }

    /// How many blocks of the piece aren't held.
    pub fn lacking(&self, piece: u32) -> u32 {
        self.content.blocks - self.held[piece as usize].count_ones()
    }

    /// How many blocks of the piece are neither held nor asked.
    pub fn free(&self, piece: u32) -> u32 {
        self.content.blocks - self.taken[piece as usize].count_ones()
    }

    /// Whether a block of the piece is asked of the neighbour.
    pub fn is_asked(&self, slot: u8, piece: u32) -> bool {
        self.neighbours[slot as usize].line.iter().any(|block| block.piece == piece)
    }

    /// Of how many neighbours blocks of the piece are asked.
    pub fn asked_of(&self, piece: u32) -> usize {
        (0..SLOTS as u8).filter(|&slot| self.is_asked(slot, piece)).count()
    }

    /// See [`Rule::epoch`](crate::rule::Rule::epoch).
    pub fn epoch(&self) -> u64 {
        self.epoch
    }

    /// How many neighbours show the piece.
    pub fn availability(&self, piece: u32) -> u32 {
        self.shown[piece as usize].count_ones()
    }

    /// Whether endgame waits for the piece.
    fn is_awaited(&self, piece: u32) -> bool {
        !self.endgame.shown || self.availability(piece) > 0
    }

    /// All blocks of a piece.
    fn full(&self) -> u64 {
        u64::MAX >> (64 - self.content.blocks)
    }

    /// The pieces that the neighbour shows, and of which a block is free.
    pub fn useful(&self, slot: u8) -> impl Iterator<Item = u32> + Clone + '_ {
        let full = self.full();
        let pieces = self.shown.iter().zip(&self.taken).enumerate();
        pieces.filter(move |(_, (shown, taken))| *shown >> slot & 1 == 1 && **taken != full).map(|(piece, _)| piece as u32)
    }

    /// Those of them of which no block is held or asked.
    pub fn fresh(&self, slot: u8) -> impl Iterator<Item = u32> + Clone + '_ {
        let pieces = self.shown.iter().zip(&self.taken).enumerate();
        pieces.filter(move |(_, (shown, taken))| *shown >> slot & 1 == 1 && **taken == 0).map(|(piece, _)| piece as u32)
    }

    /// Those of them that are begun.
    pub fn begun(&self, slot: u8) -> impl Iterator<Item = u32> + Clone + '_ {
        let full = self.full();
        let is_useful = move |piece: &u32| {
            let at = *piece as usize;
            self.shown[at] >> slot & 1 == 1 && self.taken[at] != full
        };
        self.begun.iter().copied().filter(is_useful)
    }

    /// The first free block of a piece that has one.
    pub fn first_free(&self, piece: u32) -> Block {
        Block { piece, index: (!self.taken[piece as usize]).trailing_zeros() }
    }

    /// Endgame: the blocks that the neighbour may bring, and of which too few others were asked. There are none while a block is free that
    /// endgame waits for, nor where as many are asked of the neighbour as may be.
    pub fn doubles(&self, slot: u8) -> Vec<Block> {
        let own = &self.neighbours[slot as usize].line;
        if self.free > 0 || own.len() >= self.endgame.rush as usize {
            return Vec::new();
        }
        let mut asked: Vec<Block> = self.neighbours.iter().flat_map(|neighbour| &neighbour.line).copied().collect();
        asked.sort_unstable();
        let is_useful = |block: &Block| self.shown[block.piece as usize] >> slot & 1 == 1 && !own.contains(block);
        let runs = asked.chunk_by(|block, next| block == next);
        runs.filter(|run| run.len() < self.endgame.askers as usize && is_useful(&run[0])).map(|run| run[0]).collect()
    }

    /// Whether another block may be asked of the neighbour now.
    pub fn has_room(&self, slot: u8) -> bool {
        let neighbour = &self.neighbours[slot as usize];
        neighbour.is_open && neighbour.line.len() < neighbour.depth
    }

    /// What is to be cancelled at the neighbour.
    pub fn take_due(&mut self, slot: u8) -> Option<Block> {
        self.neighbours[slot as usize].due.pop()
    }

    /// The block is asked of the neighbour.
    pub fn ask(&mut self, slot: u8, block: Block) {
        self.neighbours[slot as usize].line.push(block);
        self.take(block);
    }

    /// The block is held or asked from now on.
    fn take(&mut self, block: Block) {
        let taken = &mut self.taken[block.piece as usize];
        if *taken >> block.index & 1 == 1 {
            return;
        }
        if *taken == 0 {
            self.begun.push(block.piece);
        }
        *taken |= 1 << block.index;
        if self.is_awaited(block.piece) {
            self.lose_free(1);
        }
    }

    /// Endgame waits for so many free blocks less. Without any left it begins.
    fn lose_free(&mut self, count: u32) {
        self.free -= u64::from(count);
        if self.free == 0 {
            self.epoch += 1;
        }
    }

    /// A neighbour comes, and shows these pieces.
    pub fn join(&mut self, slot: u8, flags: &[u8]) {
        self.joined += 1;
        self.neighbours[slot as usize] = Neighbour { depth: self.usual_depth, ..Neighbour::default() };
        for piece in 0..self.content.pieces {
            if flags[piece as usize / 8] >> (7 - piece % 8) & 1 == 1 {
                self.have(slot, piece);
            }
        }
    }

    /// The neighbour has one piece more.
    pub fn have(&mut self, slot: u8, piece: u32) {
        let was_awaited = self.is_awaited(piece);
        self.shown[piece as usize] |= 1 << slot;
        if !was_awaited {
            self.free += u64::from(self.free(piece));
        }
    }

    /// The neighbour goes.
    pub fn leave(&mut self, slot: u8) {
        self.joined -= 1;
        self.choke(slot, true);
        for piece in 0..self.content.pieces {
            let was_awaited = self.is_awaited(piece);
            self.shown[piece as usize] &= !(1 << slot);
            if was_awaited && !self.is_awaited(piece) {
                self.lose_free(self.free(piece));
            }
        }
    }

    /// The neighbour chokes us, which frees what was asked of it; or it does so no more.
    pub fn choke(&mut self, slot: u8, is_choked: bool) {
        let neighbour = &mut self.neighbours[slot as usize];
        neighbour.is_open = !is_choked;
        if !is_choked {
            return;
        }
        neighbour.due.clear();
        let freed = std::mem::take(&mut neighbour.line);
        for &block in freed.iter().filter(|block| !self.neighbours.iter().any(|other| other.line.contains(block))).collect::<Vec<_>>() {
            self.release(block);
        }
        if !freed.is_empty() {
            self.epoch += 1;
        }
    }

    /// The block is asked of nobody from now on.
    fn release(&mut self, block: Block) {
        let taken = &mut self.taken[block.piece as usize];
        *taken &= !(1 << block.index);
        if *taken == 0 {
            self.begun.retain(|&piece| piece != block.piece);
        }
        self.free += u64::from(self.is_awaited(block.piece));
    }

    /// So many blocks may be asked of the neighbour.
    pub fn depth(&mut self, slot: u8, depth: u32) {
        self.neighbours[slot as usize].depth = depth as usize;
    }

    /// A block came from the neighbour.
    pub fn arrived(&mut self, slot: u8, block: Block) -> Came {
        self.neighbours[slot as usize].line.retain(|&asked| asked != block);
        let at = block.piece as usize;
        if self.held[at] >> block.index & 1 == 1 {
            return Came::Twice;
        }
        self.take(block);
        self.held[at] |= 1 << block.index;
        self.cancel(block);
        if self.held[at] != self.full() {
            return Came::Stored;
        }
        self.begun.retain(|&piece| piece != block.piece);
        self.had += 1;
        Came::Completed
    }

    /// Those who are asked for a block that came are due for a cancel.
    fn cancel(&mut self, block: Block) {
        for neighbour in &mut self.neighbours {
            let before = neighbour.line.len();
            neighbour.line.retain(|&asked| asked != block);
            if neighbour.line.len() < before {
                neighbour.due.push(block);
                self.epoch += 1;
            }
        }
    }
}

/// One of the items, each as likely as the others.
pub fn any<T>(items: impl Iterator<Item = T> + Clone, word: u64) -> Option<T> {
    let count = items.clone().count() as u64;
    let mut items = items;
    items.nth(scaled(word, count) as usize)
}

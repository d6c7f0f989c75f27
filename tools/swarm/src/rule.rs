//! What a swarm asks of a piece picker: one question, and the events that it hears of.

use piecepick::{Answer, Error};
use std::fmt;

/// The bytes of a block. Each block of a content is whole.
pub const BLOCK: u32 = 1 << 14;

/// A block, by its piece and its place in it.
#[derive(Clone, Copy, Debug, PartialEq, Eq, PartialOrd, Ord, Hash)]
#[repr(C)]
pub struct Block {
    /// The number of its piece.
    pub piece: u32,
    /// The blocks of the piece that are before it.
    pub index: u32,
}

/// The shape of what is shared.
#[derive(Clone, Copy, Debug, PartialEq, Eq)]
pub struct Content {
    /// How many pieces there are.
    pub pieces: u32,
    /// The blocks of each piece, at most 64.
    pub blocks: u32,
}

impl Content {
    /// All blocks.
    pub fn all_blocks(self) -> u64 {
        u64::from(self.pieces) * u64::from(self.blocks)
    }

    /// All bytes.
    pub fn bytes(self) -> u64 {
        self.all_blocks() * u64::from(BLOCK)
    }
}

/// What to say to a neighbour.
#[derive(Clone, Copy, Debug, PartialEq, Eq)]
pub enum Ask {
    /// Send a request, and ask again.
    Request(Block),
    /// Send a cancel, and ask again.
    Cancel(Block),
    /// Nothing: the neighbour chokes us, or as many blocks as may be are asked of it.
    Full,
    /// Nothing, until the epoch is another or the neighbour tells something.
    Dry,
}

/// What a block that came was.
#[derive(Clone, Copy, Debug, PartialEq, Eq)]
pub enum Came {
    /// It is stored.
    Stored,
    /// It is stored, and its piece is had now.
    Completed,
    /// It came before.
    Twice,
}

/// Why a run ended early. Each is a mistake of the simulator.
#[derive(Clone, Copy, Debug, PartialEq, Eq)]
pub enum Fault {
    /// The library did nothing.
    Library(Error),
    /// The library gave an answer that doesn't belong to the call.
    Answer(&'static str, Answer),
}

impl From<Error> for Fault {
    fn from(error: Error) -> Fault {
        Fault::Library(error)
    }
}

impl fmt::Display for Fault {
    fn fmt(&self, formatter: &mut fmt::Formatter<'_>) -> fmt::Result {
        match self {
            Fault::Library(error) => write!(formatter, "the library: {error}"),
            Fault::Answer(call, answer) => write!(formatter, "the library answered {answer:?} to {call}"),
        }
    }
}

impl std::error::Error for Fault {}

/// A picker of one downloader. A slot is a number below 64, one for each neighbour.
pub trait Rule {
    /// Which block to ask next of this neighbour. The word is random.
    fn next(&mut self, slot: u8, word: u64) -> Result<Ask, Fault>;

    /// A neighbour comes, and shows these pieces, spelled as in a `bitfield` message.
    fn join(&mut self, slot: u8, flags: &[u8]) -> Result<(), Fault>;

    /// The neighbour goes.
    fn leave(&mut self, slot: u8) -> Result<(), Fault>;

    /// The neighbour has one piece more.
    fn have(&mut self, slot: u8, piece: u32) -> Result<(), Fault>;

    /// The neighbour chokes us, or does so no more.
    fn choke(&mut self, slot: u8, is_choked: bool) -> Result<(), Fault>;

    /// So many blocks may be asked of the neighbour at a time.
    fn depth(&mut self, slot: u8, depth: u32) -> Result<(), Fault>;

    /// A block came. A piece that is full passes its check at once.
    fn arrived(&mut self, slot: u8, block: Block) -> Result<Came, Fault>;

    /// While it is the same, a neighbour that gave [`Ask::Dry`] needn't be asked again.
    fn epoch(&self) -> u64;
}

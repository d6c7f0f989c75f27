//! What the picker answers.

use crate::sys;
use std::fmt;

/// A block, as the wire names it: `begin` and `length` are in bytes.
#[derive(Clone, Copy, Debug, PartialEq, Eq, Hash)]
pub struct Block {
    /// The number of its piece.
    pub piece: u32,
    /// How far into the piece it begins.
    pub begin: u32,
    /// How many bytes it has.
    pub length: u32,
}

/// What the picker answers.
#[derive(Clone, Copy, Debug, PartialEq, Eq)]
#[non_exhaustive]
pub enum Answer {
    /// The worker's peer is there.
    Joined,
    /// What the peer has is noted.
    Noted {
        /// The peer has a wanted piece that isn't complete.
        interesting: bool,
    },
    /// Done; there is nothing to say.
    Quiet,
    /// To be sent as `cancel`: the block came from another peer. Ask again.
    Cancel(Block),
    /// To be sent as `request`. Ask again.
    Request(Block),
    /// Nothing to request: the peer chokes us.
    Choked,
    /// Nothing to request: as many blocks as may be are requested from the peer.
    PipeFull,
    /// Nothing to request now, though the peer has a wanted piece that isn't complete.
    Idle,
    /// The peer shows no wanted piece that isn't complete.
    NothingLeft,
    /// The block is held: where nothing is kept, write its bytes now.
    Stored,
    /// The block is held, and its piece is full now: write its bytes too, and check the piece.
    Full,
    /// The block was held already: it came twice, and these bytes are written nowhere.
    Dropped,
    /// The piece has its hash.
    Complete,
    /// The piece has another hash, or bytes were reported lost or bad: its blocks, or that one, are held no more.
    Failed,
    /// A rule refused it: mostly the peer's fault, not the caller's.
    Refused(Reason),
    /// The request that was sent already counts from now on: nothing is to be sent.
    InFlight(Block),
}

/// An [`Answer`] without what it carries.
#[derive(Clone, Copy, Debug, PartialEq, Eq, Hash)]
#[allow(missing_docs)]
#[non_exhaustive]
pub enum Kind {
    Joined,
    Noted,
    Quiet,
    Cancel,
    Request,
    Choked,
    PipeFull,
    Idle,
    NothingLeft,
    Stored,
    Full,
    Dropped,
    Complete,
    Failed,
    Refused,
    InFlight,
}

/// Why a rule refused a call.
#[derive(Clone, Copy, Debug, PartialEq, Eq, Hash)]
#[non_exhaustive]
pub enum Reason {
    /// The worker hasn't joined.
    NotJoined,
    /// The worker has joined already.
    AlreadyJoined,
    /// A bitfield that isn't the peer's first message: report it by [`haves`](crate::Picker::haves).
    LateBits,
    /// Not one for each piece.
    WrongCount,
    /// No such piece.
    NoSuchPiece,
    /// No such block.
    NoSuchBlock,
    /// A block of another length.
    WrongLength,
    /// The piece is complete, or the block can't be requested from this peer now.
    NotWaiting,
    /// The bytes that were hashed are no longer those held.
    Stale,
    /// The block isn't requested from the peer.
    NotRequested,
    /// A depth of 0, or beyond the deepest.
    WrongDepth,
    /// A level or a reach above 7, or an order from a level above 8.
    WrongLevel,
}

impl Reason {
    /// The reason of a number that the library gave.
    fn of(number: sys::piecepick_reason) -> Reason {
        match number {
            1 => Reason::NotJoined,
            2 => Reason::AlreadyJoined,
            3 => Reason::LateBits,
            4 => Reason::WrongCount,
            5 => Reason::NoSuchPiece,
            6 => Reason::NoSuchBlock,
            7 => Reason::WrongLength,
            8 => Reason::NotWaiting,
            9 => Reason::Stale,
            10 => Reason::NotRequested,
            11 => Reason::WrongDepth,
            12 => Reason::WrongLevel,
            _ => panic!("libpiecepick gave the reason {number}, which its interface hasn't"),
        }
    }
}

impl fmt::Display for Reason {
    fn fmt(&self, formatter: &mut fmt::Formatter<'_>) -> fmt::Result {
        formatter.write_str(match self {
            Reason::NotJoined => "no peer has joined under this worker number",
            Reason::AlreadyJoined => "a peer has joined under this worker number already",
            Reason::LateBits => "a bitfield must be a peer's first message",
            Reason::WrongCount => "wrong number of items: it must be one per piece",
            Reason::NoSuchPiece => "no such piece",
            Reason::NoSuchBlock => "no block begins there",
            Reason::WrongLength => "wrong block length",
            Reason::NotWaiting => "the piece is complete, or the block can't be requested from this peer now",
            Reason::Stale => "the bytes that were hashed aren't those that the picker holds now",
            Reason::NotRequested => "the block isn't requested from this peer",
            Reason::WrongDepth => "the depth must be 1 to the option deepest",
            Reason::WrongLevel => "a level is out of its range: 0 to 7, or 0 to 8 for the order",
        })
    }
}

/// The rule by which a block was requested: [`rule`](crate::Picker::rule) says it.
#[derive(Clone, Copy, Debug, PartialEq, Eq, Hash)]
#[non_exhaustive]
pub enum PickRule {
    /// Pieces of its level come in rising order, begun or not.
    InOrder,
    /// Its piece had begun, and goes on.
    Begun,
    /// Its piece begins, as one that fewest peers show.
    Rarest,
    /// Its piece begins at random: too few are complete to know which are rare.
    Random,
    /// It is requested from another peer too, which isn't late.
    Endgame,
    /// Its request to another peer is [`late`](crate::Picker::late).
    Late,
}

impl PickRule {
    /// The rule of a number that the library gave.
    pub(crate) fn of(number: u32) -> PickRule {
        match number {
            1 => PickRule::InOrder,
            2 => PickRule::Begun,
            3 => PickRule::Rarest,
            4 => PickRule::Random,
            5 => PickRule::Endgame,
            6 => PickRule::Late,
            _ => panic!("libpiecepick gave the rule {number}, which its interface hasn't"),
        }
    }
}

impl fmt::Display for PickRule {
    fn fmt(&self, formatter: &mut fmt::Formatter<'_>) -> fmt::Result {
        formatter.write_str(match self {
            PickRule::InOrder => "in order",
            PickRule::Begun => "its piece had begun",
            PickRule::Rarest => "its piece is one of the rarest",
            PickRule::Random => "its piece begins at random",
            PickRule::Endgame => "endgame",
            PickRule::Late => "another peer is late with it",
        })
    }
}

impl Answer {
    /// The answer that the library wrote, at a status of OK.
    pub(crate) fn of(given: &sys::piecepick_answer) -> Answer {
        let block = Block { piece: given.piece, begin: given.begin, length: given.length };
        match given.kind {
            1 => Answer::Joined,
            2 => Answer::Noted { interesting: given.interesting == 1 },
            3 => Answer::Quiet,
            4 => Answer::Cancel(block),
            5 => Answer::Request(block),
            6 => Answer::Choked,
            7 => Answer::PipeFull,
            8 => Answer::Idle,
            9 => Answer::NothingLeft,
            10 => Answer::Stored,
            11 => Answer::Full,
            12 => Answer::Dropped,
            13 => Answer::Complete,
            14 => Answer::Failed,
            15 => Answer::Refused(Reason::of(given.reason)),
            16 => Answer::InFlight(block),
            kind => panic!("libpiecepick answered the kind {kind}, which its interface hasn't"),
        }
    }

    /// The answer without what it carries.
    pub fn kind(&self) -> Kind {
        match self {
            Answer::Joined => Kind::Joined,
            Answer::Noted { .. } => Kind::Noted,
            Answer::Quiet => Kind::Quiet,
            Answer::Cancel(_) => Kind::Cancel,
            Answer::Request(_) => Kind::Request,
            Answer::Choked => Kind::Choked,
            Answer::PipeFull => Kind::PipeFull,
            Answer::Idle => Kind::Idle,
            Answer::NothingLeft => Kind::NothingLeft,
            Answer::Stored => Kind::Stored,
            Answer::Full => Kind::Full,
            Answer::Dropped => Kind::Dropped,
            Answer::Complete => Kind::Complete,
            Answer::Failed => Kind::Failed,
            Answer::Refused(_) => Kind::Refused,
            Answer::InFlight(_) => Kind::InFlight,
        }
    }
}

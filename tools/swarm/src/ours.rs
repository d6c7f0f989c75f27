//! The rules of the library.

use crate::rule::{Ask, Block, Came, Content, Fault, Rule, BLOCK};
use piecepick::{hash_four, Answer, Digest, Options, Picker};

/// The content of each block. The library reads none of it.
static BYTES: [u8; BLOCK as usize] = [0; BLOCK as usize];

/// The usual level of a piece, and that of one which one neighbour alone shows.
const USUAL: u8 = 4;
const RAISED: u8 = 5;

/// Which piece comes first, beside what the options say.
#[derive(Clone, Copy, Debug, PartialEq, Eq)]
pub enum First {
    /// The rarest.
    Rarest,
    /// The lowest.
    Lowest,
    /// One that one neighbour alone shows has a higher level.
    Lone,
}

/// A picker of the library that keeps nothing.
#[derive(Debug)]
pub struct Ours {
    picker: Picker,
    /// That of each piece, since all bytes are alike.
    digest: Digest,
    /// The level of each piece, where levels are told.
    levels: Vec<u8>,
}

impl Ours {
    /// A picker by these options.
    pub fn new(content: Content, options: Options, first: First) -> Result<Ours, Fault> {
        let piece = vec![0; (content.blocks * BLOCK) as usize];
        let digest = hash_four([&piece, b"", b"", b""])[0];
        let digests = vec![digest; content.pieces as usize];
        let mut picker = Picker::open_parts(content.blocks * BLOCK, content.bytes(), &digests, options)?;
        if first == First::Lowest {
            expect("set_in_order", picker.set_in_order(true)?, Answer::Quiet)?;
        }
        let graded = if first == First::Lone { content.pieces } else { 0 };
        Ok(Ours { picker, digest, levels: vec![USUAL; graded as usize] })
    }

    /// Tells the level of a piece, where it is another.
    fn grade(&mut self, piece: u32) -> Result<(), Fault> {
        let level = if self.picker.availability(piece)? == 1 { RAISED } else { USUAL };
        if self.levels[piece as usize] != level {
            self.levels[piece as usize] = level;
            expect("set_level", self.picker.set_level(piece, level.into())?, Answer::Quiet)?;
        }
        Ok(())
    }

    /// Tells the levels of all pieces, where levels are told.
    fn grade_all(&mut self) -> Result<(), Fault> {
        (0..self.levels.len() as u32).try_for_each(|piece| self.grade(piece))
    }
}

/// The answer has to be this one.
fn expect(call: &'static str, answer: Answer, expected: Answer) -> Result<(), Fault> {
    if answer == expected {
        Ok(())
    } else {
        Err(Fault::Answer(call, answer))
    }
}

/// The answer has to be that of a call that shows pieces.
fn expect_noted(call: &'static str, answer: Answer) -> Result<(), Fault> {
    match answer {
        Answer::Noted { .. } => Ok(()),
        other => Err(Fault::Answer(call, other)),
    }
}

impl From<piecepick::Block> for Block {
    fn from(block: piecepick::Block) -> Block {
        Block { piece: block.piece, index: block.begin / BLOCK }
    }
}

impl Rule for Ours {
    fn next(&mut self, slot: u8, word: u64) -> Result<Ask, Fault> {
        match self.picker.next(slot.into(), word)? {
            Answer::Request(block) => Ok(Ask::Request(block.into())),
            Answer::Cancel(block) => Ok(Ask::Cancel(block.into())),
            Answer::Choked | Answer::PipeFull => Ok(Ask::Full),
            Answer::Idle | Answer::NothingLeft => Ok(Ask::Dry),
            other => Err(Fault::Answer("next", other)),
        }
    }

    fn join(&mut self, slot: u8, flags: &[u8]) -> Result<(), Fault> {
        expect("join", self.picker.join(slot.into())?, Answer::Joined)?;
        expect_noted("bits", self.picker.bits(slot.into(), flags)?)?;
        self.grade_all()
    }

    fn leave(&mut self, slot: u8) -> Result<(), Fault> {
        expect("leave", self.picker.leave(slot.into())?, Answer::Quiet)?;
        self.grade_all()
    }

    fn have(&mut self, slot: u8, piece: u32) -> Result<(), Fault> {
        expect_noted("have", self.picker.have(slot.into(), piece)?)?;
        if self.levels.is_empty() {
            return Ok(());
        }
        self.grade(piece)
    }

    fn choke(&mut self, slot: u8, is_choked: bool) -> Result<(), Fault> {
        let answer = if is_choked { self.picker.choke(slot.into()) } else { self.picker.unchoke(slot.into()) };
        expect("choke", answer?, Answer::Quiet)
    }

    fn depth(&mut self, slot: u8, depth: u32) -> Result<(), Fault> {
        expect("depth", self.picker.depth(slot.into(), depth)?, Answer::Quiet)
    }

    fn arrived(&mut self, slot: u8, block: Block) -> Result<Came, Fault> {
        match self.picker.arrived(slot.into(), block.piece, block.index * BLOCK, &BYTES)? {
            Answer::Stored => Ok(Came::Stored),
            Answer::Dropped => Ok(Came::Twice),
            Answer::Full => {
                expect("settle", self.picker.settle(block.piece, &self.digest)?, Answer::Complete)?;
                Ok(Came::Completed)
            }
            other => Err(Fault::Answer("arrived", other)),
        }
    }

    fn epoch(&self) -> u64 {
        self.picker.epoch()
    }
}

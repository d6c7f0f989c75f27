//! The controls: orders of a few lines each, beside which the library's rules are put.

use crate::book::{any, Book};
use crate::rule::{Ask, Block, Came, Fault, Rule};

/// Which free block to ask next of a neighbour, if it can bring one. The word is random.
pub trait Order {
    /// The block.
    fn choose(&self, book: &Book, slot: u8, word: u64) -> Option<Block>;
}

/// A block of a begun piece, and else of any piece.
#[derive(Clone, Copy, Debug)]
pub struct AnyPiece;

impl Order for AnyPiece {
    fn choose(&self, book: &Book, slot: u8, word: u64) -> Option<Block> {
        let piece = any(book.begun(slot), word).or_else(|| any(book.fresh(slot), word))?;
        Some(book.first_free(piece))
    }
}

/// A block of the lowest piece.
#[derive(Clone, Copy, Debug)]
pub struct Rising;

impl Order for Rising {
    fn choose(&self, book: &Book, slot: u8, _: u64) -> Option<Block> {
        let piece = book.useful(slot).next()?;
        Some(book.first_free(piece))
    }
}

/// Which of several pieces, or blocks, that are as good as each other.
#[derive(Clone, Copy, Debug, PartialEq, Eq)]
pub enum Ties {
    /// Each is as likely as the others.
    Any,
    /// The least; or, of pieces to begin, the first from a random piece on, round the end. So does the library.
    Least,
}

/// A block of a piece that fewest neighbours show, begun or not. It prefers no begun piece even among equals, which no client does.
#[derive(Clone, Copy, Debug)]
pub struct NotStrict;

impl Order for NotStrict {
    fn choose(&self, book: &Book, slot: u8, word: u64) -> Option<Block> {
        let piece = any(rarest(book, book.useful(slot)).into_iter(), word)?;
        Some(book.first_free(piece))
    }
}

/// A block of a begun piece, and else of a piece that fewest neighbours show.
#[derive(Clone, Copy, Debug)]
pub struct Rarest {
    /// So many pieces are had before the rarest come first.
    pub random: u32,
    /// Pieces that this neighbour alone shows come before begun ones that others show too.
    pub lone_first: bool,
    /// Which of the begun pieces.
    pub begun: Ties,
    /// Which of the rarest pieces.
    pub fresh: Ties,
}

impl Order for Rarest {
    fn choose(&self, book: &Book, slot: u8, word: u64) -> Option<Block> {
        let is_lone = |piece: &u32| book.availability(*piece) == 1;
        let lone = if self.lone_first { self.pick(book, slot, word, is_lone) } else { None };
        let piece = lone.or_else(|| self.pick(book, slot, word, |_| true))?;
        Some(book.first_free(piece))
    }
}

impl Rarest {
    /// A piece of those that pass the test.
    fn pick(&self, book: &Book, slot: u8, word: u64, test: impl Fn(&u32) -> bool + Copy) -> Option<u32> {
        let begun = match self.begun {
            Ties::Any => any(book.begun(slot).filter(test), word),
            Ties::Least => book.begun(slot).filter(test).min(),
        };
        begun.or_else(|| {
            let fresh = book.fresh(slot).filter(test);
            let fresh = if book.had() < self.random { fresh.collect() } else { rarest(book, fresh) };
            self.fresh.fresh(book, &fresh, word)
        })
    }
}

/// The pieces that fewest neighbours show.
pub fn rarest(book: &Book, pieces: impl Iterator<Item = u32>) -> Vec<u32> {
    least_by(pieces, |piece| book.availability(piece))
}

/// The pieces of the least key.
pub fn least_by<K: Ord>(pieces: impl Iterator<Item = u32>, key: impl Fn(u32) -> K) -> Vec<u32> {
    let (mut least, mut best) = (None, Vec::new());
    for piece in pieces {
        let key = key(piece);
        if least.as_ref().map_or(true, |least| key < *least) {
            best.clear();
            best.push(piece);
            least = Some(key);
        } else if least.as_ref() == Some(&key) {
            best.push(piece);
        }
    }
    best
}

impl Ties {
    /// One of several pieces to begin, which stand in rising order.
    pub fn fresh(self, book: &Book, pieces: &[u32], word: u64) -> Option<u32> {
        match self {
            Ties::Any => any(pieces.iter().copied(), word),
            Ties::Least => {
                let start = (word % u64::from(book.pieces())) as u32;
                pieces.iter().find(|&&piece| piece >= start).or(pieces.first()).copied()
            }
        }
    }
}

/// A picker that follows an order, with the usual endgame behind it.
pub struct Plain {
    book: Book,
    order: Box<dyn Order>,
    endgame: Ties,
}

impl Plain {
    /// A picker that has nothing. The ties are those of its endgame.
    pub fn new(book: Book, order: Box<dyn Order>, endgame: Ties) -> Plain {
        Plain { book, order, endgame }
    }

    /// Endgame: a block that is asked of others.
    fn double(&self, slot: u8, word: u64) -> Option<Block> {
        let blocks = self.book.doubles(slot);
        match self.endgame {
            Ties::Any => any(blocks.into_iter(), word),
            Ties::Least => blocks.into_iter().min(),
        }
    }
}

impl Rule for Plain {
    fn next(&mut self, slot: u8, word: u64) -> Result<Ask, Fault> {
        if let Some(block) = self.book.take_due(slot) {
            return Ok(Ask::Cancel(block));
        }
        if !self.book.has_room(slot) {
            return Ok(Ask::Full);
        }
        let chosen = self.order.choose(&self.book, slot, word).or_else(|| self.double(slot, word));
        let Some(block) = chosen else { return Ok(Ask::Dry) };
        self.book.ask(slot, block);
        Ok(Ask::Request(block))
    }

    fn join(&mut self, slot: u8, flags: &[u8]) -> Result<(), Fault> {
        self.book.join(slot, flags);
        Ok(())
    }

    fn leave(&mut self, slot: u8) -> Result<(), Fault> {
        self.book.leave(slot);
        Ok(())
    }

    fn have(&mut self, slot: u8, piece: u32) -> Result<(), Fault> {
        self.book.have(slot, piece);
        Ok(())
    }

    fn choke(&mut self, slot: u8, is_choked: bool) -> Result<(), Fault> {
        self.book.choke(slot, is_choked);
        Ok(())
    }

    fn depth(&mut self, slot: u8, depth: u32) -> Result<(), Fault> {
        self.book.depth(slot, depth);
        Ok(())
    }

    fn arrived(&mut self, slot: u8, block: Block) -> Result<Came, Fault> {
        Ok(self.book.arrived(slot, block))
    }

    fn epoch(&self) -> u64 {
        self.book.epoch()
    }
}

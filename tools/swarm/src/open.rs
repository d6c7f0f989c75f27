//! The rule `open`: a rare piece is begun before begun ones that more neighbours show, while few pieces are open.

use crate::book::{any, Book};
use crate::plain::{least_by, rarest, Order, Ties};
use crate::rule::Block;

/// A piece is open when it is begun and a block of it is free. While at most so many are open, a piece comes first that fewest neighbours show,
/// and of several such pieces a begun one. Else, and until the first pieces are had, begun pieces come first.
#[derive(Clone, Copy, Debug)]
pub struct Open {
    /// So many pieces may be open. With none, begun pieces always come first.
    pub open: u32,
    /// So many pieces are had before the rarest come first.
    pub random: u32,
    /// Which of the begun pieces that are as rare as each other.
    pub begun: Begun,
    /// Which of the others.
    pub fresh: Ties,
}

/// Which of several begun pieces that are as rare as each other.
#[derive(Clone, Copy, Debug, PartialEq, Eq)]
pub enum Begun {
    /// The least.
    Least,
    /// Each is as likely as the others.
    Any,
    /// One that lacks fewest blocks, the least of these.
    FewestLacking,
    /// One with fewest free blocks, the least of these.
    FewestFree,
}

impl Order for Open {
    fn choose(&self, book: &Book, slot: u8, word: u64) -> Option<Block> {
        let is_first = book.had() < self.random;
        let piece = if is_first || book.open() > self.open as usize {
            self.go_on(book, slot, word).or_else(|| {
                let fresh = if is_first { book.fresh(slot).collect() } else { rarest(book, book.fresh(slot)) };
                self.fresh.fresh(book, &fresh, word)
            })
        } else {
            self.lead(book, slot, word)
        };
        Some(book.first_free(piece?))
    }
}

impl Open {
    /// Of the begun pieces one that fewest neighbours show. With no open ones the least, whoever shows it.
    fn go_on(&self, book: &Book, slot: u8, word: u64) -> Option<u32> {
        if self.open == 0 {
            return book.begun(slot).min();
        }
        self.begun.pick(book, rarest(book, book.begun(slot)), word)
    }

    /// Of all pieces one that fewest neighbours show, and of these a begun one.
    fn lead(&self, book: &Book, slot: u8, word: u64) -> Option<u32> {
        let best = least_by(book.useful(slot), |piece| (book.availability(piece), !book.is_begun(piece)));
        if book.is_begun(*best.first()?) {
            self.begun.pick(book, best, word)
        } else {
            self.fresh.fresh(book, &best, word)
        }
    }
}

impl Begun {
    fn pick(self, book: &Book, pieces: Vec<u32>, word: u64) -> Option<u32> {
        let pieces = pieces.into_iter();
        match self {
            Begun::Least => pieces.min(),
            Begun::Any => any(pieces, word),
            Begun::FewestLacking => pieces.min_by_key(|&piece| (book.lacking(piece), piece)),
            Begun::FewestFree => pieces.min_by_key(|&piece| (book.free(piece), piece)),
        }
    }
}

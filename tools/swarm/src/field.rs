//! The orders of clients in the field, as their sources have them, in a few lines each. What is asked of one neighbour at a time, and the endgame,
//! are those of the other controls.

use crate::book::{any, Book};
use crate::plain::{least_by, rarest, Order, Ties};
use crate::random::Random;
use crate::rule::Block;

/// A random order of the pieces that is a downloader's own, and stays.
#[derive(Clone, Copy, Debug)]
struct Shuffle(u64);

impl Shuffle {
    fn new(peer: u32) -> Shuffle {
        Shuffle(Random::new(peer.into()).word())
    }

    /// The first of the pieces in this order.
    fn first(self, pieces: Vec<u32>) -> Option<u32> {
        pieces.into_iter().min_by_key(|&piece| Random::new(self.0 ^ u64::from(piece)).word())
    }
}

/// The order of libtorrent-rasterbar 2.0.11 with its usual settings. Pieces that are as rare stand in an order of the downloader's own.
#[derive(Clone, Copy, Debug)]
pub struct Libtorrent {
    /// Begun pieces come first while too many are open. Without it they do so only in the beginning.
    is_capped: bool,
    shuffle: Shuffle,
}

/// So many pieces are had before the rarest come first.
const FIRST: u32 = 4;

/// The most blocks of open pieces: 32 MiB.
const MOST_BLOCKS: usize = 2048;

impl Libtorrent {
    /// The order of a downloader.
    pub fn new(peer: u32, is_capped: bool) -> Libtorrent {
        Libtorrent { is_capped, shuffle: Shuffle::new(peer) }
    }

    /// Whether more than 1.5 pieces a neighbour are open, or more blocks than may be.
    fn is_crowded(self, book: &Book) -> bool {
        let open = book.open();
        self.is_capped && (open > book.joined() * 3 / 2 || open * book.blocks() as usize > MOST_BLOCKS)
    }
}

impl Order for Libtorrent {
    fn choose(&self, book: &Book, slot: u8, word: u64) -> Option<Block> {
        let piece = if book.had() < FIRST {
            let fresh = || Ties::Least.fresh(book, &book.fresh(slot).collect::<Vec<_>>(), word);
            book.begun(slot).min().or_else(fresh)
        } else if self.is_crowded(book) {
            let begun = least_by(book.begun(slot), |piece| (book.availability(piece), book.free(piece)));
            self.shuffle.first(begun).or_else(|| self.shuffle.first(rarest(book, book.fresh(slot))))
        } else {
            self.shuffle.first(least_by(book.useful(slot), |piece| (book.availability(piece), !book.is_begun(piece))))
        };
        Some(book.first_free(piece?))
    }
}

/// The order of transmission 4.1: a piece that lacks fewest blocks, and of these one that fewest neighbours show. The others stand in an order of the
/// downloader's own.
#[derive(Clone, Copy, Debug)]
pub struct Transmission {
    shuffle: Shuffle,
}

impl Transmission {
    /// The order of a downloader.
    pub fn new(peer: u32) -> Transmission {
        Transmission { shuffle: Shuffle::new(peer) }
    }
}

impl Order for Transmission {
    fn choose(&self, book: &Book, slot: u8, _: u64) -> Option<Block> {
        let best = least_by(book.useful(slot), |piece| (book.lacking(piece), book.availability(piece)));
        Some(book.first_free(self.shuffle.first(best)?))
    }
}

/// One piece a neighbour, as aria2 and libktorrent have it: the neighbour goes on with the piece that it is asked for. Else it takes over a begun
/// piece of which nobody is asked, that lacks fewest blocks. Else it begins one that fewest neighbours show. It helps others only where nothing
/// else is left.
#[derive(Clone, Copy, Debug)]
pub struct OnePiece {
    /// So many pieces are had before the rarest come first.
    pub random: u32,
}

impl OnePiece {
    fn left(book: &Book, slot: u8, word: u64) -> Option<u32> {
        let nobodys = book.begun(slot).filter(|&piece| book.asked_of(piece) == 0);
        any(least_by(nobodys, |piece| book.lacking(piece)).into_iter(), word)
    }

    fn fresh(self, book: &Book, slot: u8, word: u64) -> Option<u32> {
        let fresh = book.fresh(slot);
        let fresh = if book.had() < self.random { fresh.collect() } else { rarest(book, fresh) };
        any(fresh.into_iter(), word)
    }

    fn others(book: &Book, slot: u8, word: u64) -> Option<u32> {
        any(least_by(book.begun(slot), |piece| book.asked_of(piece)).into_iter(), word)
    }
}

impl Order for OnePiece {
    fn choose(&self, book: &Book, slot: u8, word: u64) -> Option<Block> {
        let own = book.begun(slot).filter(|&piece| book.is_asked(slot, piece)).min();
        let piece = own
            .or_else(|| OnePiece::left(book, slot, word))
            .or_else(|| self.fresh(book, slot, word))
            .or_else(|| OnePiece::others(book, slot, word))?;
        Some(book.first_free(piece))
    }
}

//! Why a call did nothing.

use crate::sys;
use std::fmt;

macro_rules! errors {
    ($($(#[$doc:meta])* $name:ident = $number:literal, $text:literal;)*) => {
        /// Why a call did nothing. It may be made again.
        #[derive(Clone, Copy, Debug, PartialEq, Eq, Hash)]
        #[non_exhaustive]
        pub enum Error {
            $(#[doc = $text] $(#[$doc])* $name,)*
            /// The library that was linked has this interface, and the crate takes [`sys::PIECEPICK_ABI`].
            Interface(u32),
            /// A status that these types leave no cause for.
            Other(u32),
        }

        impl Error {
            fn of(status: sys::piecepick_status) -> Error {
                match status {
                    $($number => Error::$name,)*
                    _ => Error::Other(status),
                }
            }

            fn text(self) -> &'static str {
                match self {
                    $(Error::$name => $text,)*
                    Error::Interface(_) => "a library of interface",
                    Error::Other(_) => "status",
                }
            }
        }
    };
}

errors! {
    Worker = 3, "no such worker number, or the option workers isn't 1 to 1,024";
    Piece = 4, "no such piece";
    BitsLength = 5, "wrong bitfield length: it must have one bit per piece, rounded up to bytes";
    SpareBits = 6, "a spare bit at the end of the bitfield is set";
    Length = 7, "wrong buffer length: it must be exactly that of the item";
    Memory = 8, "out of memory";
    Incomplete = 9, "the piece isn't complete";
    Rules = 10, "an option is out of its range: depth, deepest, askers, random, open, rush or shown";
    NotWaiting = 11, "the piece isn't waiting for a check: a block is lacking, or it is complete";
    NotHashed = 13, "the job wasn't hashed yet";
    Place = 14, "fewer blocks are requested from this peer";
    Keeps = 15, "the call isn't for what this picker keeps";
    Stale = 17, "the bytes that were hashed aren't those that the picker holds now";
    Block = 18, "no such block in this piece";
    NotHeld = 19, "the block isn't held";
    Begun = 20, "the piece is complete, or a block of it is held or requested";
    File = 21, "no such file";
    Part = 22, "no such name on the file's path";
    Bencode = 101, "not valid bencode: keys must be sorted, and nothing may follow the end";
    NotDictionary = 102, "the metainfo isn't a dictionary";
    MissingKey = 103, "a required key is missing from the metainfo";
    WrongKind = 104, "a value in the metainfo has the wrong type";
    PieceLength = 105, "the piece length isn't 1 to 2^31 bytes";
    PiecesLength = 106, "the piece hashes aren't 20 bytes each";
    LengthAndFiles = 107, "the metainfo has both length and files";
    NoContent = 108, "the torrent has no content: neither length nor files, or not one byte in them";
    CountMismatch = 109, "the number of piece hashes doesn't match the length of the content";
    TooLarge = 110, "the torrent is too large: at most 2^63 - 1 bytes and 2^32 - 1 pieces";
}

impl fmt::Display for Error {
    fn fmt(&self, formatter: &mut fmt::Formatter<'_>) -> fmt::Result {
        match self {
            Error::Interface(number) | Error::Other(number) => write!(formatter, "{} {number}", self.text()),
            _ => formatter.write_str(self.text()),
        }
    }
}

impl std::error::Error for Error {}

/// Whether the status is OK.
pub(crate) fn check(status: sys::piecepick_status) -> Result<(), Error> {
    match status {
        0 => Ok(()),
        _ => Err(Error::of(status)),
    }
}

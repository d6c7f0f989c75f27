//! A client's loop round the picker, without a network: two peers in memory that have all of the content answer our requests.
//!
//! usage: cargo run --example loop [FILE.torrent CONTENT]
//!
//! It downloads the content of the torrent from the peers, compares it, and prints how many pieces are complete. Where no files are named, it
//! makes some content.

use piecepick::{hash_four, Answer, Block, Error, Keeps, Options, Picker};
use std::env;
use std::fs;
use std::process::ExitCode;

const PIECE_LENGTH: usize = 1 << 15;

/// A worker's peer, which has all of the content.
struct Peer<'a> {
    worker: u32,
    content: &'a [u8],
    piece_length: usize,
    requests: Vec<Block>,
}

impl Peer<'_> {
    /// What the peer sends for a request.
    fn block(&self, block: Block) -> &[u8] {
        let begin = block.piece as usize * self.piece_length + block.begin as usize;
        &self.content[begin..begin + block.length as usize]
    }
}

/// Some bytes, and the picker for a torrent of them.
fn made(options: Options) -> Result<(Picker, Vec<u8>), Error> {
    let content: Vec<u8> = (0..9 * PIECE_LENGTH + 12_345).map(|at| (at * at % 251) as u8).collect();
    let digests: Vec<_> = content.chunks(PIECE_LENGTH).map(|piece| hash_four([piece, &[], &[], &[]])[0]).collect();
    let picker = Picker::open_parts(PIECE_LENGTH as u32, content.len() as u64, &digests, options)?;
    Ok((picker, content))
}

/// The flags of a peer that has each of so many pieces, as in its `bitfield` message.
fn all(pieces: u32) -> Vec<u8> {
    let mut flags = vec![0; (pieces as usize + 7) / 8];
    for piece in 0..pieces {
        flags[piece as usize / 8] |= 0x80 >> (piece % 8);
    }
    flags
}

/// Says to the peer what the picker has for it, until there is nothing more to say.
fn query(picker: &mut Picker, peer: &mut Peer, word: &mut u64) -> Result<(), Error> {
    loop {
        *word = word.wrapping_mul(6_364_136_223_846_793_005).wrapping_add(1);
        match picker.next(peer.worker, *word)? {
            Answer::Request(block) => peer.requests.push(block),
            Answer::Cancel(block) => peer.requests.retain(|other| *other != block),
            _ => return Ok(()),
        }
    }
}

/// Checks a full piece. A client with threads has it hashed in another one.
fn check(picker: &mut Picker, piece: u32, file: &mut [u8], begin: usize) -> Result<(), Error> {
    let mut job = picker.job_take(piece)?;
    job.hash()?;
    if picker.job_settle(&job)? == Answer::Complete {
        job.read_into(&mut file[begin..begin + job.length() as usize])?;
    }
    Ok(())
}

/// The oldest block that was requested from the peer comes, if there is one. Then another request fits.
fn hear(picker: &mut Picker, peer: &mut Peer, file: &mut [u8], word: &mut u64) -> Result<(), Error> {
    if !peer.requests.is_empty() {
        let block = peer.requests.remove(0);
        // The library keeps the copy that it stores. Where it keeps nothing, write the bytes at `Stored` and `Full`, and at no other answer.
        let answer = picker.arrived(peer.worker, block.piece, block.begin, peer.block(block))?;
        if answer == Answer::Full {
            check(picker, block.piece, file, block.piece as usize * peer.piece_length)?;
        }
    }
    query(picker, peer, word)
}

/// The handshakes were exchanged; the peer shows each piece, and unchokes us.
fn come<'a>(picker: &mut Picker, worker: u32, content: &'a [u8]) -> Result<Peer<'a>, Error> {
    picker.join(worker)?;
    picker.bits(worker, &all(picker.pieces()))?;
    picker.unchoke(worker)?;
    Ok(Peer { worker, content, piece_length: picker.piece_length(0)? as usize, requests: Vec::new() })
}

/// Downloads; whether the file is the content then.
fn run(mut picker: Picker, content: &[u8]) -> Result<bool, Error> {
    let mut peers = Vec::new();
    for worker in 0..picker.workers() {
        peers.push(come(&mut picker, worker, content)?);
    }
    let (mut file, mut word) = (vec![0; content.len()], 1);
    while !picker.is_complete() {
        for peer in &mut peers {
            hear(&mut picker, peer, &mut file, &mut word)?;
        }
    }
    let is_same = file == content;
    println!("{} pieces complete, the content is {}", picker.pieces(), if is_same { "the same" } else { "another" });
    Ok(is_same)
}

fn main() -> Result<ExitCode, Box<dyn std::error::Error>> {
    let options = Options::new().keeps(Keeps::Begun).workers(2);
    let (picker, content) = match env::args().collect::<Vec<_>>().as_slice() {
        [_, torrent, content] => (Picker::open(&fs::read(torrent)?, options)?, fs::read(content)?),
        _ => made(options)?,
    };
    Ok(if run(picker, &content)? { ExitCode::SUCCESS } else { ExitCode::FAILURE })
}

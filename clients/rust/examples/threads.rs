//! A download by eight peers, each in a thread of its own, over one picker in a `Mutex`.
//!
//! usage: cargo run --example threads
//!
//! The peers are simulated: each has half of the pieces, the first one all of them, and the last one sends bad blocks. A thread holds the lock
//! while it calls the picker and while it writes a block, and hashes without it. Where its peer has nothing to be asked for, it sleeps until the
//! epoch rises.

use piecepick::{hash, Answer, Block, Error, Options, Picker};
use std::collections::VecDeque;
use std::process::ExitCode;
use std::sync::{Condvar, Mutex, MutexGuard, PoisonError};
use std::thread;

const PIECES: usize = 64;
const PIECE: usize = 1 << 16;
const PEERS: u32 = 8;

/// What is behind the lock: the picker, and the file that the blocks are written to.
struct Download {
    picker: Picker,
    file: Vec<u8>,
    failed: usize,
}

/// What the threads share.
struct Shared<'a> {
    download: Mutex<Download>,
    /// The epoch rose, or the download is complete.
    risen: Condvar,
    content: &'a [u8],
}

/// A peer, in its thread.
struct Peer {
    worker: u32,
    word: u64,
    requests: VecDeque<Block>,
}

/// The bytes of a block in the content.
fn place(block: Block) -> std::ops::Range<usize> {
    let begin = block.piece as usize * PIECE + block.begin as usize;
    begin..begin + block.length as usize
}

impl Peer {
    /// The next random number.
    fn random(&mut self) -> u64 {
        self.word = self.word.wrapping_mul(6_364_136_223_846_793_005).wrapping_add(1);
        self.word >> 16
    }

    /// The peer is connected, shows its pieces and unchokes us.
    fn come(&mut self, picker: &mut Picker) -> Result<(), Error> {
        let mut flags = vec![0; (PIECES + 7) / 8];
        for piece in 0..PIECES {
            if self.worker == 0 || self.random() % 2 == 0 {
                flags[piece / 8] |= 0x80 >> (piece % 8);
            }
        }
        picker.join(self.worker)?;
        picker.bits(self.worker, &flags)?;
        picker.unchoke(self.worker)?;
        Ok(())
    }

    /// Sends requests and cancels, until no more come.
    fn fill(&mut self, picker: &mut Picker) -> Result<(), Error> {
        loop {
            match picker.next(self.worker, self.random())? {
                Answer::Request(block) => self.requests.push_back(block),
                Answer::Cancel(block) => self.requests.retain(|other| *other != block),
                _ => return Ok(()),
            }
        }
    }

    /// What the peer sends for a request.
    fn block(&mut self, content: &[u8], block: Block) -> Vec<u8> {
        let mut bytes = content[place(block)].to_vec();
        if self.worker + 1 == PEERS && self.random() % 16 == 0 {
            bytes[0] ^= 1;
        }
        bytes
    }
}

impl Shared<'_> {
    fn lock(&self) -> MutexGuard<'_, Download> {
        self.download.lock().unwrap_or_else(PoisonError::into_inner)
    }

    /// A block came: it is written where it is stored, and a full piece is hashed without the lock. Nothing of it changes before its verdict.
    fn receive(&self, worker: u32, block: Block, bytes: &[u8]) -> Result<(), Error> {
        let mut download = self.lock();
        let answer = download.picker.received(worker, block.piece, block.begin, bytes.len())?;
        if matches!(answer, Answer::Stored | Answer::Full) {
            download.file[place(block)].copy_from_slice(bytes);
        }
        if answer == Answer::Full {
            let begin = block.piece as usize * PIECE;
            let piece = download.file[begin..begin + PIECE].to_vec();
            drop(download);
            let digest = hash(&piece);
            let mut download = self.lock();
            let is_bad = download.picker.settle(block.piece, &digest)? == Answer::Failed;
            download.failed += usize::from(is_bad);
        }
        self.risen.notify_all();
        Ok(())
    }

    /// A peer's connection, until the download is complete.
    fn connection(&self, worker: u32) -> Result<(), Error> {
        let mut peer = Peer { worker, word: u64::from(worker) + 1, requests: VecDeque::new() };
        peer.come(&mut self.lock().picker)?;
        loop {
            let mut download = self.lock();
            if download.picker.is_complete() {
                return Ok(());
            }
            peer.fill(&mut download.picker)?;
            let seen = download.picker.epoch();
            while peer.requests.is_empty() && download.picker.epoch() == seen && !download.picker.is_complete() {
                download = self.risen.wait(download).unwrap_or_else(PoisonError::into_inner);
            }
            drop(download);
            if let Some(block) = peer.requests.pop_front() {
                let bytes = peer.block(self.content, block);
                self.receive(worker, block, &bytes)?;
            }
        }
    }
}

/// Downloads the content, and tells how many pieces failed their check.
fn download(content: &[u8]) -> Result<Option<usize>, Error> {
    let digests: Vec<_> = content.chunks(PIECE).map(hash).collect();
    let picker = Picker::open_parts(PIECE as u32, content.len() as u64, &digests, Options::new().workers(PEERS))?;
    let file = vec![0; content.len()];
    let shared = Shared { download: Mutex::new(Download { picker, file, failed: 0 }), risen: Condvar::new(), content };
    let lent = &shared;
    thread::scope(|scope| {
        let all: Vec<_> = (0..PEERS).map(|worker| scope.spawn(move || lent.connection(worker))).collect();
        all.into_iter().try_for_each(|thread| thread.join().expect("a thread panicked"))
    })?;
    let done = shared.lock();
    Ok((done.picker.is_complete() && done.file == content).then(|| done.failed))
}

fn main() -> ExitCode {
    let content: Vec<u8> = (0..PIECES * PIECE).map(|at| (at * (at >> 8) % 251) as u8).collect();
    match download(&content) {
        Ok(Some(failed)) => {
            println!("{PEERS} threads: {PIECES} pieces complete, {failed} failed before, the content is the same");
            ExitCode::SUCCESS
        }
        Ok(None) => {
            println!("the content is another one");
            ExitCode::FAILURE
        }
        Err(fault) => {
            println!("{fault}");
            ExitCode::FAILURE
        }
    }
}

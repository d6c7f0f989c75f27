//! The picker of a download.

use crate::answer::{Answer, Block, PickRule};
use crate::error::{check, Error};
use crate::file::File;
use crate::hash::Digest;
use crate::job::Job;
use crate::options::Options;
use crate::sys;
use std::fmt;
use std::ptr::{null_mut, NonNull};

/// The picker of one download. A worker is a number below the workers that it was opened for, one for each peer that is connected.
pub struct Picker {
    pointer: NonNull<sys::piecepick_picker>,
}

// SAFETY: the library keeps no state of its own, so a picker may go to another thread. It isn't `Sync`, so one call is made at a time.
unsafe impl Send for Picker {}

// SAFETY, of each call below: the picker's pointer is open until it is dropped, no other call is made at it meanwhile, and whatever else is
// passed is borrowed for the call.
impl Picker {
    /// A picker for the torrent of a metainfo file.
    ///
    /// [`Error::Bencode`] to [`Error::TooLarge`] where it is none, [`Error::Worker`], [`Error::Rules`], [`Error::Memory`].
    pub fn open(metainfo: &[u8], options: Options) -> Result<Picker, Error> {
        let options = options.to_c();
        Picker::fill(|pointer| unsafe { sys::piecepick_open(pointer, metainfo.as_ptr(), metainfo.len(), &options) })
    }

    /// The same by parts: bytes of a piece and of the content, and the SHA-1 of each piece. Its infohash is zeros, its name empty.
    pub fn open_parts(piece_length: u32, total: u64, digests: &[Digest], options: Options) -> Result<Picker, Error> {
        let options = options.to_c();
        let (first, length) = (digests.as_ptr().cast(), 20 * digests.len());
        // Arrays of bytes stand one behind the other.
        Picker::fill(|pointer| unsafe { sys::piecepick_open_parts(pointer, piece_length, total, first, length, &options) })
    }

    /// Compares the interface's number before any other call is made.
    fn fill(open: impl FnOnce(&mut *mut sys::piecepick_picker) -> sys::piecepick_status) -> Result<Picker, Error> {
        let interface = unsafe { sys::piecepick_abi() };
        if interface != sys::PIECEPICK_ABI {
            return Err(Error::Interface(interface));
        }
        let mut pointer = null_mut();
        check(open(&mut pointer))?;
        Ok(Picker { pointer: NonNull::new(pointer).expect("a status of OK fills the pointer") })
    }

    /// Makes a call that writes an answer.
    fn answer(
        &self,
        call: impl FnOnce(*mut sys::piecepick_picker, &mut sys::piecepick_answer) -> sys::piecepick_status,
    ) -> Result<Answer, Error> {
        let mut given = sys::piecepick_answer::default();
        check(call(self.pointer.as_ptr(), &mut given))?;
        Ok(Answer::of(&given))
    }

    /// Makes a call that writes a number.
    fn number<N: Default>(&self, call: impl FnOnce(*mut sys::piecepick_picker, &mut N) -> sys::piecepick_status) -> Result<N, Error> {
        let mut number = N::default();
        check(call(self.pointer.as_ptr(), &mut number))?;
        Ok(number)
    }

    /// The same of the whole picker, where the one status but OK is that of a pointer to nothing.
    fn sure<N: Default>(&self, call: impl FnOnce(*mut sys::piecepick_picker, &mut N) -> sys::piecepick_status) -> N {
        self.number(call).expect("the picker is open")
    }

    /// The handshakes were exchanged.
    pub fn join(&mut self, worker: u32) -> Result<Answer, Error> {
        self.answer(|picker, answer| unsafe { sys::piecepick_join(picker, worker, answer) })
    }

    /// The connection is gone.
    pub fn leave(&mut self, worker: u32) -> Result<Answer, Error> {
        self.answer(|picker, answer| unsafe { sys::piecepick_leave(picker, worker, answer) })
    }

    /// A `choke` message came, or the peer is silent: what was requested from it is free for others.
    pub fn choke(&mut self, worker: u32) -> Result<Answer, Error> {
        self.answer(|picker, answer| unsafe { sys::piecepick_choke(picker, worker, answer) })
    }

    /// An `unchoke` message came.
    pub fn unchoke(&mut self, worker: u32) -> Result<Answer, Error> {
        self.answer(|picker, answer| unsafe { sys::piecepick_unchoke(picker, worker, answer) })
    }

    /// A `have` message came.
    pub fn have(&mut self, worker: u32, piece: u32) -> Result<Answer, Error> {
        self.answer(|picker, answer| unsafe { sys::piecepick_have(picker, worker, piece, answer) })
    }

    /// A `bitfield` message came: its payload.
    pub fn bits(&mut self, worker: u32, payload: &[u8]) -> Result<Answer, Error> {
        let (first, length) = (payload.as_ptr(), payload.len());
        self.answer(|picker, answer| unsafe { sys::piecepick_bits(picker, worker, first, length, answer) })
    }

    /// The peer has these pieces too, at any time, spelled as in a `bitfield` message: a second one came, or `have all` (BEP 6).
    pub fn haves(&mut self, worker: u32, flags: &[u8]) -> Result<Answer, Error> {
        let (first, length) = (flags.as_ptr(), flags.len());
        self.answer(|picker, answer| unsafe { sys::piecepick_haves(picker, worker, first, length, answer) })
    }

    /// The peer has this piece no more (`lt_donthave`, BEP 54), until a later call shows it again. Blocks of it that are requested from
    /// the peer are released, with no cancel, and may be requested from any peer.
    pub fn lack(&mut self, worker: u32, piece: u32) -> Result<Answer, Error> {
        self.answer(|picker, answer| unsafe { sys::piecepick_lack(picker, worker, piece, answer) })
    }

    /// A block came. A picker that keeps nothing reads none of the bytes; another one keeps a copy.
    ///
    /// Where nothing is kept, write the bytes at `Stored` and `Full`, and at no other answer: of two copies the first one counts.
    pub fn arrived(&mut self, worker: u32, piece: u32, begin: u32, bytes: &[u8]) -> Result<Answer, Error> {
        let (first, length) = (bytes.as_ptr(), bytes.len());
        self.answer(|picker, answer| unsafe { sys::piecepick_arrived(picker, worker, piece, begin, first, length, answer) })
    }

    /// [`Keeps::Nothing`](crate::Keeps::Nothing): as [`arrived`](Self::arrived), for a block whose bytes are elsewhere, in a cache or on their
    /// way to the disk. The picker is told how many they are.
    pub fn received(&mut self, worker: u32, piece: u32, begin: u32, length: usize) -> Result<Answer, Error> {
        self.answer(|picker, answer| unsafe { sys::piecepick_received(picker, worker, piece, begin, length, answer) })
    }

    /// The block that begins there is requested from the peer no more: the peer rejected it (BEP 6), or the request was not sent. It may be
    /// requested again from any peer, and it is kept if it comes after all.
    pub fn release(&mut self, worker: u32, piece: u32, begin: u32) -> Result<Answer, Error> {
        self.answer(|picker, answer| unsafe { sys::piecepick_release(picker, worker, piece, begin, answer) })
    }

    /// A request takes too long: late. It was rejected, or never sent: [`release`](Picker::release).
    ///
    /// The block that begins there stays requested from the peer, and counts for its depth. It may be requested from another peer at once,
    /// before endgame. When that one brings it, a cancel is due at this peer as ever. While the request lasts, the block isn't requested
    /// again from this peer.
    pub fn late(&mut self, worker: u32, piece: u32, begin: u32) -> Result<Answer, Error> {
        self.answer(|picker, answer| unsafe { sys::piecepick_late(picker, worker, piece, begin, answer) })
    }

    /// The block that begins there was requested from the peer already, and not by the picker: [`Answer::InFlight`] with the block. The
    /// connection is older than the picker, or a part of the client chose by itself.
    ///
    /// From now on the request counts as one of the picker's own: for the depth, for other peers and for endgame, and as the last of
    /// [`outstanding_at`](Picker::outstanding_at). It is refused by [`NotWaiting`](crate::Reason::NotWaiting) where the block can't be
    /// requested from this peer now. Nothing has changed then: the block is stored when it comes, and may be requested from another peer
    /// before.
    ///
    /// # Errors
    ///
    /// [`Error::Worker`], [`Error::Piece`], and [`Error::Keeps`] where a journal is kept.
    pub fn requested(&mut self, worker: u32, piece: u32, begin: u32) -> Result<Answer, Error> {
        self.answer(|picker, answer| unsafe { sys::piecepick_requested(picker, worker, piece, begin, answer) })
    }

    /// From now on so many blocks may be requested from the peer at a time, until another number is set or the worker's next peer joins.
    pub fn depth(&mut self, worker: u32, depth: u32) -> Result<Answer, Error> {
        self.answer(|picker, answer| unsafe { sys::piecepick_depth(picker, worker, depth, answer) })
    }

    /// From now on only blocks of this level and of lower ones are requested from the peer, until another is set or the worker's next peer
    /// joins. Each peer begins with 7, which is all levels, and with 0 nothing is requested. So a slow peer gets nothing urgent.
    pub fn reach(&mut self, worker: u32, level: u32) -> Result<Answer, Error> {
        self.answer(|picker, answer| unsafe { sys::piecepick_reach(picker, worker, level, answer) })
    }

    /// From now on the peer works alone, or like the others again, as each peer does from when it joins.
    ///
    /// One that works alone begins pieces, and goes on with those that nobody else brought or is expected to bring a block of. No block
    /// of its own pieces is requested from others until endgame. So the sender of a whole piece is known where a check failed, or a
    /// fast peer or a web seed has pieces to itself. Its pieces wait for it: set it back where it gets slow, and where it is
    /// [`Answer::Idle`] with nothing in flight.
    pub fn alone(&mut self, worker: u32, yes: bool) -> Result<Answer, Error> {
        let yes = u32::from(yes);
        self.answer(|picker, answer| unsafe { sys::piecepick_alone(picker, worker, yes, answer) })
    }

    /// What to say to the peer next: send what it answers while it is [`Answer::Cancel`] or [`Answer::Request`]. The word is the
    /// caller's randomness.
    pub fn next(&mut self, worker: u32, word: u64) -> Result<Answer, Error> {
        self.answer(|picker, answer| unsafe { sys::piecepick_next(picker, worker, word, answer) })
    }

    /// Just these pieces are to be downloaded, spelled as in a `bitfield` message; they have level 4 then.
    pub fn want(&mut self, flags: &[u8]) -> Result<Answer, Error> {
        let (first, length) = (flags.as_ptr(), flags.len());
        self.answer(|picker, answer| unsafe { sys::piecepick_want(picker, first, length, answer) })
    }

    /// The piece is gone from where you keep it: `Failed`. It isn't complete any more, and all of its blocks are lacking, as after a failed check.
    /// What is in flight stays in flight.
    ///
    /// # Errors
    ///
    /// [`Error::Piece`], and [`Error::Keeps`] where a journal is kept.
    pub fn lose(&mut self, piece: u32) -> Result<Answer, Error> {
        self.answer(|picker, answer| unsafe { sys::piecepick_lose(picker, piece, answer) })
    }

    /// The block that begins there is known to be bad: `Failed`. It is held no more, and the other blocks of its piece stay. Of a complete piece
    /// it is refused.
    ///
    /// # Errors
    ///
    /// [`Error::Piece`], and [`Error::Keeps`] where a journal is kept.
    pub fn discard(&mut self, piece: u32, begin: u32) -> Result<Answer, Error> {
        self.answer(|picker, answer| unsafe { sys::piecepick_discard(picker, piece, begin, answer) })
    }

    /// The piece has this level, 0 to 7: 0 isn't downloaded, and of the others a higher one comes before a lower one.
    pub fn set_level(&mut self, piece: u32, level: u32) -> Result<Answer, Error> {
        self.answer(|picker, answer| unsafe { sys::piecepick_set_level(picker, piece, level, answer) })
    }

    /// The same for each piece, a byte each.
    pub fn set_levels(&mut self, levels: &[u8]) -> Result<Answer, Error> {
        let (first, length) = (levels.as_ptr(), levels.len());
        self.answer(|picker, answer| unsafe { sys::piecepick_set_levels(picker, first, length, answer) })
    }

    /// The pieces of one level come in rising order from now on, or the rarest first again.
    pub fn set_in_order(&mut self, rising: bool) -> Result<Answer, Error> {
        let rising = u32::from(rising);
        self.answer(|picker, answer| unsafe { sys::piecepick_set_in_order(picker, rising, answer) })
    }

    /// Pieces of this level and of higher ones come in rising order from now on, and those of lower levels the rarest first. With 0 all
    /// come in order, with 8 none. It takes the place of what [`set_in_order`](Picker::set_in_order) sets, and the other way round.
    pub fn set_in_order_from(&mut self, level: u32) -> Result<Answer, Error> {
        self.answer(|picker, answer| unsafe { sys::piecepick_set_in_order_from(picker, level, answer) })
    }

    /// [`Keeps::Nothing`](crate::Keeps::Nothing): the piece is full, and this is the SHA-1 of its blocks as they were stored.
    /// [`Answer::Complete`] or [`Answer::Failed`].
    ///
    /// The digest has to be that of the bytes, which the library can't test. A wrong one breaks no memory, so this is safe. But the
    /// picker takes a bad piece for a good one then, or the other way round.
    pub fn settle(&mut self, piece: u32, digest: &Digest) -> Result<Answer, Error> {
        let digest = sys::piecepick_digest { bytes: *digest };
        self.answer(|picker, answer| unsafe { sys::piecepick_settle(picker, piece, &digest, answer) })
    }

    /// [`Keeps::Nothing`](crate::Keeps::Nothing): the piece is full, and was compared: whether its blocks, as they were stored, have its
    /// hash. [`Answer::Complete`] or [`Answer::Failed`]. As with [`settle`](Self::settle), the library can't test it.
    ///
    /// Where the disk couldn't be read nothing is known of the hash: call [`discard`](Self::discard) for each block.
    pub fn verdict(&mut self, piece: u32, passed: bool) -> Result<Answer, Error> {
        self.answer(|picker, answer| unsafe { sys::piecepick_verdict(picker, piece, u32::from(passed), answer) })
    }

    /// [`Keeps::Nothing`](crate::Keeps::Nothing): the whole piece is on a disk, for which this worker stands; it has joined, and shows
    /// nothing. None of the bytes is read, so a mapping of the file costs no reading. For the digest see [`settle`](Picker::settle).
    pub fn restore(&mut self, worker: u32, piece: u32, bytes: &[u8], digest: &Digest) -> Result<Answer, Error> {
        let (first, length) = (bytes.as_ptr(), bytes.len());
        let digest = sys::piecepick_digest { bytes: *digest };
        self.answer(|picker, answer| unsafe { sys::piecepick_restore(picker, worker, piece, first, length, &digest, answer) })
    }

    /// [`Keeps::Nothing`](crate::Keeps::Nothing): as [`restore`](Self::restore), for a whole piece that the caller has compared: whether it
    /// has the hash of the metainfo file, which the library can't test.
    pub fn resume(&mut self, worker: u32, piece: u32, passed: bool) -> Result<Answer, Error> {
        self.answer(|picker, answer| unsafe { sys::piecepick_resume(picker, worker, piece, u32::from(passed), answer) })
    }

    /// [`Keeps::Begun`](crate::Keeps::Begun) and [`Keeps::Journal`](crate::Keeps::Journal): the check of a full piece, to be hashed away
    /// from its picker.
    pub fn job_take(&mut self, piece: u32) -> Result<Job, Error> {
        let length = self.piece_length(piece)?;
        let mut pointer = null_mut();
        check(unsafe { sys::piecepick_job_take(self.pointer.as_ptr(), piece, &mut pointer) })?;
        let pointer = NonNull::new(pointer).expect("a status of OK fills the pointer");
        Ok(Job::of(pointer, piece, length))
    }

    /// Tells the verdict of a job that was hashed: [`Answer::Complete`] or [`Answer::Failed`]. Its bytes can be read still.
    pub fn job_settle(&mut self, job: &Job) -> Result<Answer, Error> {
        let job = job.pointer.as_ptr();
        self.answer(|picker, answer| unsafe { sys::piecepick_job_settle(picker, job, answer) })
    }

    /// How many pieces there are.
    pub fn pieces(&self) -> u32 {
        self.sure(|picker, number| unsafe { sys::piecepick_pieces(picker, number) })
    }

    /// How many workers there are.
    pub fn workers(&self) -> u32 {
        self.sure(|picker, number| unsafe { sys::piecepick_workers(picker, number) })
    }

    /// Whether each piece is complete.
    pub fn is_complete(&self) -> bool {
        self.sure(|picker, number| unsafe { sys::piecepick_is_complete(picker, number) }) == 1
    }

    /// Whether each wanted piece is complete.
    pub fn has_wanted(&self) -> bool {
        self.sure(|picker, number| unsafe { sys::piecepick_has_wanted(picker, number) }) == 1
    }

    /// Whether all pieces come in rising order.
    pub fn is_in_order(&self) -> bool {
        self.sure(|picker, number| unsafe { sys::piecepick_is_in_order(picker, number) }) == 1
    }

    /// The level from which on pieces come in rising order, 0 to 8. At the start it is 8, and none does.
    pub fn order_from(&self) -> u32 {
        self.sure(|picker, number| unsafe { sys::piecepick_order_from(picker, number) })
    }

    /// While it is the same, a peer whose answer was [`Answer::Idle`] or [`Answer::NothingLeft`] needn't be queried for again, unless
    /// something is reported by its own worker.
    pub fn epoch(&self) -> u64 {
        self.sure(|picker, number| unsafe { sys::piecepick_epoch(picker, number) })
    }

    /// Whether the piece has its hash.
    pub fn has_piece(&self, piece: u32) -> Result<bool, Error> {
        Ok(self.number(|picker, number| unsafe { sys::piecepick_has_piece(picker, piece, number) })? == 1)
    }

    /// Whether the piece is full, and waits for its check.
    pub fn is_waiting(&self, piece: u32) -> Result<bool, Error> {
        Ok(self.number(|picker, number| unsafe { sys::piecepick_is_waiting(picker, piece, number) })? == 1)
    }

    /// The level of the piece, 0 to 7.
    pub fn level(&self, piece: u32) -> Result<u32, Error> {
        self.number(|picker, number| unsafe { sys::piecepick_level(picker, piece, number) })
    }

    /// How many joined peers show the piece.
    pub fn availability(&self, piece: u32) -> Result<u32, Error> {
        self.number(|picker, number| unsafe { sys::piecepick_availability(picker, piece, number) })
    }

    /// The bytes of the piece.
    pub fn piece_length(&self, piece: u32) -> Result<u32, Error> {
        self.number(|picker, number| unsafe { sys::piecepick_piece_length(picker, piece, number) })
    }

    /// The blocks of the piece.
    pub fn blocks(&self, piece: u32) -> Result<u32, Error> {
        self.number(|picker, number| unsafe { sys::piecepick_blocks(picker, piece, number) })
    }

    /// The worker whose peer brought a block that is held; `index` counts the piece's blocks from 0. Call it for a piece
    /// whose bytes have another hash, before it is settled.
    pub fn sender(&self, piece: u32, index: u32) -> Result<u32, Error> {
        self.number(|picker, number| unsafe { sys::piecepick_sender(picker, piece, index, number) })
    }

    /// The rule by which a block was requested; `index` counts the piece's blocks from 0. Call it for the block of
    /// an [`Answer::Request`], before the next call that reports something. Of any other block it means nothing.
    pub fn rule(&self, piece: u32, index: u32) -> Result<PickRule, Error> {
        Ok(PickRule::of(self.number(|picker, number| unsafe { sys::piecepick_rule(picker, piece, index, number) })?))
    }

    /// From how many peers a block is requested that aren't late with it; `index` counts the piece's blocks from 0. Right after an
    /// [`Answer::Request`] the peer itself is one of them.
    pub fn askers(&self, piece: u32, index: u32) -> Result<u32, Error> {
        self.number(|picker, number| unsafe { sys::piecepick_askers(picker, piece, index, number) })
    }

    /// Whether the worker's peer shows a wanted piece that isn't complete. It is no error where no peer has joined: false.
    pub fn is_interesting(&self, worker: u32) -> Result<bool, Error> {
        Ok(self.number(|picker, number| unsafe { sys::piecepick_is_interesting(picker, worker, number) })? == 1)
    }

    /// How many blocks are requested from the worker's peer, late ones too.
    pub fn outstanding(&self, worker: u32) -> Result<u32, Error> {
        self.number(|picker, number| unsafe { sys::piecepick_outstanding(picker, worker, number) })
    }

    /// One of them, by its place; the oldest request has 0.
    pub fn outstanding_at(&self, worker: u32, place: u32) -> Result<Block, Error> {
        match self.answer(|picker, answer| unsafe { sys::piecepick_outstanding_at(picker, worker, place, answer) })? {
            Answer::Request(block) => Ok(block),
            other => panic!("libpiecepick gave {other:?} where a request is outstanding"),
        }
    }

    /// The bytes of the content.
    pub fn total(&self) -> u64 {
        self.sure(|picker, number| unsafe { sys::piecepick_total(picker, number) })
    }

    /// The name that the metainfo file suggests, which is perhaps no text.
    pub fn name(&self) -> Vec<u8> {
        let length: u64 = self.sure(|picker, number| unsafe { sys::piecepick_name_length(picker, number) });
        let mut buffer = vec![0; length as usize];
        let status = unsafe { sys::piecepick_name(self.pointer.as_ptr(), buffer.as_mut_ptr(), buffer.len()) };
        check(status).expect("the buffer has the name's length");
        buffer
    }

    /// The SHA-1 of the info dictionary.
    pub fn infohash(&self) -> Digest {
        let digest: sys::piecepick_digest = self.sure(|picker, digest| unsafe { sys::piecepick_infohash(picker, digest) });
        digest.bytes
    }

    /// The SHA-1 that the piece has to have.
    pub fn piece_hash(&self, piece: u32) -> Result<Digest, Error> {
        let digest: sys::piecepick_digest = self.number(|picker, digest| unsafe { sys::piecepick_piece_hash(picker, piece, digest) })?;
        Ok(digest.bytes)
    }

    /// The files that the metainfo file lists, in the order of the content. There are none where the picker was made of parts.
    pub fn files(&self) -> Vec<File> {
        let count: u64 = self.sure(|picker, number| unsafe { sys::piecepick_files(picker, number) });
        (0..count).map(|file| self.file(file)).collect()
    }

    /// One of them.
    fn file(&self, file: u64) -> File {
        let parts: u64 = self.sure(|picker, number| unsafe { sys::piecepick_file_parts(picker, file, number) });
        File {
            length: self.sure(|picker, number| unsafe { sys::piecepick_file_length(picker, file, number) }),
            path: (0..parts).map(|part| self.file_part(file, part)).collect(),
        }
    }

    /// A name on its path.
    fn file_part(&self, file: u64, part: u64) -> Vec<u8> {
        let length: u64 = self.sure(|picker, number| unsafe { sys::piecepick_file_part_length(picker, file, part, number) });
        let mut buffer = vec![0; length as usize];
        let status = unsafe { sys::piecepick_file_part(self.pointer.as_ptr(), file, part, buffer.as_mut_ptr(), buffer.len()) };
        check(status).expect("the buffer has the name's length");
        buffer
    }

    /// [`Keeps::Journal`](crate::Keeps::Journal): hashes a full piece, here and now. [`Answer::Complete`] or [`Answer::Failed`].
    pub fn settle_now(&mut self, piece: u32) -> Result<Answer, Error> {
        self.answer(|picker, answer| unsafe { sys::piecepick_settle_now(picker, piece, answer) })
    }

    /// [`Keeps::Journal`](crate::Keeps::Journal): writes a complete piece into a buffer of just its length.
    pub fn read_into(&self, piece: u32, buffer: &mut [u8]) -> Result<(), Error> {
        check(unsafe { sys::piecepick_read(self.pointer.as_ptr(), piece, buffer.as_mut_ptr(), buffer.len()) })
    }

    /// [`Keeps::Journal`](crate::Keeps::Journal): the bytes of a complete piece.
    pub fn read(&self, piece: u32) -> Result<Vec<u8>, Error> {
        let mut buffer = vec![0; self.piece_length(piece)? as usize];
        self.read_into(piece, &mut buffer)?;
        Ok(buffer)
    }

    /// [`Keeps::Journal`](crate::Keeps::Journal): goes over the journal of all calls by the picker's rules. No journal fails it.
    pub fn audit(&self) -> Result<(), Error> {
        check(unsafe { sys::piecepick_audit(self.pointer.as_ptr()) })
    }
}

impl Drop for Picker {
    fn drop(&mut self) {
        let mut pointer = self.pointer.as_ptr();
        // SAFETY: it is open, and this is the last call at it.
        unsafe { sys::piecepick_close(&mut pointer) }
    }
}

impl fmt::Debug for Picker {
    fn fmt(&self, formatter: &mut fmt::Formatter<'_>) -> fmt::Result {
        formatter.debug_struct("Picker").finish_non_exhaustive()
    }
}

//! The check of a piece.

use crate::error::{check, Error};
use crate::sys;
use std::fmt;
use std::ptr::NonNull;

/// The check of one full piece, from [`Picker::job_take`](crate::Picker::job_take): hash it in any thread, then report the verdict by
/// [`Picker::job_settle`](crate::Picker::job_settle). It may be dropped at any time, before or after its picker.
pub struct Job {
    pub(crate) pointer: NonNull<sys::piecepick_job>,
    piece: u32,
    length: u32,
}

// SAFETY: the library keeps no state of its own, so a job may go to another thread. It isn't `Sync`, so one call is made at a time.
unsafe impl Send for Job {}

impl Job {
    /// The job behind a pointer that was filled just now.
    pub(crate) fn of(pointer: NonNull<sys::piecepick_job>, piece: u32, length: u32) -> Job {
        Job { pointer, piece, length }
    }

    /// The piece that is checked.
    pub fn piece(&self) -> u32 {
        self.piece
    }

    /// The bytes of the piece.
    pub fn length(&self) -> u32 {
        self.length
    }

    /// Hashes the piece. It needs no picker, so no lock.
    pub fn hash(&mut self) -> Result<(), Error> {
        // SAFETY: the job is open, and no other call is made at it.
        check(unsafe { sys::piecepick_job_hash(self.pointer.as_ptr()) })
    }

    /// Writes the bytes of the piece into a buffer of just their length, before or after it is settled.
    pub fn read_into(&self, buffer: &mut [u8]) -> Result<(), Error> {
        // SAFETY: the job is open, no other call is made at it, and the buffer may be written.
        check(unsafe { sys::piecepick_job_read(self.pointer.as_ptr(), buffer.as_mut_ptr(), buffer.len()) })
    }

    /// The bytes of the piece.
    pub fn read(&self) -> Vec<u8> {
        let mut buffer = vec![0; self.length as usize];
        self.read_into(&mut buffer).expect("the buffer has the piece's length");
        buffer
    }
}

impl Drop for Job {
    fn drop(&mut self) {
        let mut pointer = self.pointer.as_ptr();
        // SAFETY: the job is open, and this is the last call at it.
        unsafe { sys::piecepick_job_close(&mut pointer) }
    }
}

impl fmt::Debug for Job {
    fn fmt(&self, formatter: &mut fmt::Formatter<'_>) -> fmt::Result {
        formatter.debug_struct("Job").field("piece", &self.piece).finish_non_exhaustive()
    }
}

//! Hashing without a picker.

use crate::error::check;
use crate::sys;

/// A SHA-1.
pub type Digest = [u8; 20];

/// The SHA-1 of a message.
pub fn hash(message: &[u8]) -> Digest {
    let mut digest = sys::piecepick_digest { bytes: [0; 20] };
    // SAFETY: the message is valid for its length, and the digest is ours alone.
    unsafe { sys::piecepick_hash(message.as_ptr(), message.len(), &mut digest) };
    digest.bytes
}

/// The SHA-1 of each of four messages. Messages of one length are hashed side by side, at more than twice the speed.
pub fn hash_four(messages: [&[u8]; 4]) -> [Digest; 4] {
    let [first, second, third, fourth] = messages;
    let mut digests = [[0; 20]; 4];
    // SAFETY: the messages are valid for their lengths, and the buffer of 80 bytes is ours alone.
    let status = unsafe {
        sys::piecepick_hash_four(
            first.as_ptr(),
            first.len(),
            second.as_ptr(),
            second.len(),
            third.as_ptr(),
            third.len(),
            fourth.as_ptr(),
            fourth.len(),
            digests.as_mut_ptr().cast(),
            80,
        )
    };
    check(status).expect("a buffer of 80 bytes is the only thing that is tested");
    digests
}

//! How many blocks should be in flight at a peer.

use crate::options::Options;

/// The bytes of a block.
const BLOCK: u64 = 16_384;
/// The seconds in which is counted.
const SECONDS: u64 = 8;
/// Those that show a rate that rises.
const LAST_SECONDS: u64 = 2;
const LEAST_DEPTH: u64 = 4;
const ENDGAME_DEPTH: u32 = 6;
const GREATEST_DEPTH: u32 = 4_096;

/// The depth of one peer, by what came from it: pass [`Picker::depth`](crate::Picker::depth) what [`follow`](DepthByRate::follow) answers.
///
/// ```
/// use piecepick::{DepthByRate, Options};
///
/// let mut peer = DepthByRate::new(&Options::new(), 5_000);
/// peer.came(100 * 16_384, 5_900);
/// assert_eq!(peer.follow(6_000), 104);
/// ```
///
/// The depth is as many blocks of 16 KiB as come in a second, and 4 more. The rate is that of the last two seconds, or of the last eight if that
/// is greater. The depth is at most `deepest`, and in endgame at most 6. It rises at once. It falls by a quarter at most, and once a second.
/// After a time-out it is 4, until a block comes. Before the first block or time-out it is that of the options.
///
/// Times are milliseconds of one clock that doesn't go back, such as [`Instant`](std::time::Instant). A time that is earlier than the newest one
/// counts as that. A second begins where its time is a multiple of 1,000, and counts at most 2^32 - 1 bytes. So any numbers may be passed. Nothing
/// fails, takes memory, or calls the library.
#[derive(Clone, Copy, Debug, PartialEq, Eq)]
pub struct DepthByRate {
    begin: u64,
    now: u64,
    /// Bytes of the last seconds, each at its number modulo 8.
    counts: [u32; SECONDS as usize],
    depth: u32,
    deepest: u32,
    /// A block or a time-out came: the depth follows.
    is_begun: bool,
    /// A time-out came, and no block since.
    is_late: bool,
    is_in_endgame: bool,
    /// The depth hasn't fallen in this second.
    may_fall: bool,
}

impl DepthByRate {
    /// A peer comes, of a picker with these options. `deepest` counts as 1 to 4,096, and `depth` as 1 to that.
    #[must_use]
    pub fn new(options: &Options, now: u64) -> DepthByRate {
        let (depth, deepest) = options.depths();
        let deepest = deepest.clamp(1, GREATEST_DEPTH);
        DepthByRate {
            begin: now,
            now,
            counts: [0; SECONDS as usize],
            depth: depth.clamp(1, deepest),
            deepest,
            is_begun: false,
            is_late: false,
            is_in_endgame: false,
            may_fall: true,
        }
    }

    /// The depth after the last call.
    #[must_use]
    pub fn depth(&self) -> u32 {
        self.depth
    }

    /// So many bytes of blocks came. That none came changes nothing.
    pub fn came(&mut self, bytes: u64, now: u64) {
        if bytes == 0 {
            return;
        }
        self.turn(now);
        let count = &mut self.counts[place(self.now / 1000)];
        *count = count.saturating_add(u32::try_from(bytes).unwrap_or(u32::MAX));
        self.is_begun = true;
        self.is_late = false;
    }

    /// A request took too long, and was reported as late.
    pub fn timed_out(&mut self) {
        self.is_begun = true;
        self.is_late = true;
    }

    /// Report at each request whether its block is requested from another peer too, which isn't late. The depth is at most 6 at once where that is so.
    pub fn set_in_endgame(&mut self, is_in_endgame: bool) {
        self.is_in_endgame = is_in_endgame;
        if is_in_endgame {
            self.depth = self.depth.min(ENDGAME_DEPTH);
        }
    }

    /// The depth now. Ask for it once a second, or at each block.
    pub fn follow(&mut self, now: u64) -> u32 {
        self.turn(now);
        if !self.is_begun {
            return self.depth;
        }
        let wanted = self.wanted();
        if wanted >= self.depth || self.is_late {
            self.depth = wanted;
        } else if self.may_fall {
            self.depth = wanted.max(self.depth * 3 / 4);
            self.may_fall = false;
        }
        self.depth
    }

    /// The depth that the rate asks for. The last two seconds show a rate that rises, and all of them one that comes in bursts.
    fn wanted(&self) -> u32 {
        let most = if self.is_in_endgame { self.deepest.min(ENDGAME_DEPTH) } else { self.deepest };
        let rate = if self.is_late { 0 } else { self.blocks(LAST_SECONDS).max(self.blocks(SECONDS)) };
        u32::try_from(LEAST_DEPTH + rate).map_or(most, |wanted| wanted.min(most))
    }

    /// The newest time is `now`, and the seconds that begin by it are empty.
    fn turn(&mut self, now: u64) {
        if now <= self.now {
            return;
        }
        let (second, newest) = (self.now / 1000, now / 1000);
        self.now = now;
        for empty in second.max(newest.saturating_sub(SECONDS)) + 1..=newest {
            self.counts[place(empty)] = 0;
            self.may_fall = true;
        }
    }

    /// Blocks a second in so many last seconds, of which the newest isn't over, or in those since the peer came.
    fn blocks(&self, seconds: u64) -> u64 {
        let passed = (1000 * (seconds - 1) + self.now % 1000).min(self.now - self.begin);
        let second = self.now / 1000;
        let bytes: u64 = (0..seconds).map(|back| u64::from(self.counts[place(second + SECONDS - back)])).sum();
        // Less than a second says nothing.
        bytes * 1000 / (passed.max(1000) * BLOCK)
    }
}

/// Where a second is counted.
fn place(second: u64) -> usize {
    (second % SECONDS) as usize
}

//! What a run tells.

use crate::begun::BegunAtRequests;
use crate::peer::OpenTime;
use crate::queue::Micros;
use crate::timed::Spent;

/// Counts of blocks.
#[derive(Clone, Copy, Debug, Default, PartialEq, Eq)]
pub struct Blocks {
    /// Blocks that left the line of a peer whose neighbour was there still.
    pub sent: u64,
    /// Blocks that came.
    pub received: u64,
    /// Those of them that had come before.
    pub twice: u64,
    /// Blocks whose receiver was gone.
    pub lost: u64,
    /// Blocks that are under way.
    pub under_way: u64,
}

/// The swarm at one time.
#[derive(Clone, Copy, Debug, PartialEq, Eq)]
pub struct Sample {
    /// The time.
    pub at: Micros,
    /// The copies of the rarest piece, at all peers that are here.
    pub rarest: u32,
    /// The copies of all pieces.
    pub copies: u64,
    /// All peers that are here.
    pub peers: u32,
    /// The downloaders among them.
    pub downloaders: u32,
    /// The pairs of connected downloaders, each in both directions.
    pub pairs: u64,
    /// Those of them where the second shows something that the first lacks.
    pub interested: u64,
}

/// When each piece was at somebody beside the seeds.
#[derive(Clone, Copy, Debug, PartialEq, Eq)]
pub struct Spread {
    /// The time.
    pub at: Micros,
    /// The blocks that the seeds had sent then.
    pub sent: u64,
}

/// What a run was.
#[derive(Clone, Debug, Default, PartialEq, Eq)]
pub struct Outcome {
    /// How long each peer took that got whole, the shortest first.
    pub times: Vec<Micros>,
    /// How long each of them took for the last hundredth of its blocks.
    pub ends: Vec<Micros>,
    /// The same of those who follow the other rule of a mixed swarm.
    pub mixed_in: Vec<Micros>,
    /// How many peers came.
    pub guests: u32,
    /// The pieces that nobody who is here has at the end.
    pub missing: u32,
    /// When each piece was out of the seeds, if that came.
    pub spread: Option<Spread>,
    /// When the run ended.
    pub end: Micros,
    pub blocks: Blocks,
    /// How many requests were sent.
    pub requests: u64,
    /// The begun pieces of those who sent them.
    pub begun: BegunAtRequests,
    pub open: OpenTime,
    pub samples: Vec<Sample>,
    /// The pickers' calls and their time.
    pub spent: Spent,
    /// How many events there were.
    pub events: u64,
}

impl Outcome {
    /// The time of the peer at this place among all that came, if it got whole. 0 is the first, 100 the last.
    pub fn percentile(&self, percent: usize) -> Option<Micros> {
        let place = (self.guests as usize - 1) * percent / 100;
        self.times.get(place).copied()
    }

    /// The median of those who follow the other rule of a mixed swarm, and of the rest, where each has somebody.
    pub fn medians_of_mix(&self) -> Option<(Micros, Micros)> {
        let mut rest = self.times.clone();
        for time in &self.mixed_in {
            let place = rest.iter().position(|other| other == time)?;
            rest.remove(place);
        }
        let median = |times: &[Micros]| times.get(times.len().saturating_sub(1) / 2).copied();
        Some((median(&self.mixed_in)?, median(&rest)?))
    }

    /// How long a peer took for the last hundredth of its blocks, on average.
    pub fn end_of_each(&self) -> Option<f64> {
        (!self.ends.is_empty()).then(|| self.ends.iter().sum::<Micros>() as f64 / self.ends.len() as f64)
    }

    /// Of pairs of connected downloaders, how many percent were interested, over all samples.
    pub fn interest(&self) -> f64 {
        let pairs: u64 = self.samples.iter().map(|sample| sample.pairs).sum();
        let interested: u64 = self.samples.iter().map(|sample| sample.interested).sum();
        share(interested, pairs)
    }

    /// The percentage of the open time in which nothing was asked.
    pub fn idle(&self) -> f64 {
        share(self.open.idle, self.open.open)
    }

    /// How many pieces a downloader has begun when it makes a request, on average.
    pub fn begun(&self) -> f64 {
        self.begun.sum as f64 / self.requests.max(1) as f64
    }

    /// The percentage of the blocks that came which had come before.
    pub fn twice(&self) -> f64 {
        share(self.blocks.twice, self.blocks.received)
    }
}

/// A part in percent of the whole.
pub fn share(part: u64, whole: u64) -> f64 {
    if whole == 0 {
        0.0
    } else {
        100.0 * part as f64 / whole as f64
    }
}

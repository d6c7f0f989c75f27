//! Who comes to a swarm, with which line, and how long they stay.

use crate::peer::Line;
use crate::queue::Micros;
use crate::rule::Content;

/// A downloader that comes.
#[derive(Clone, Copy, Debug, PartialEq, Eq)]
pub struct Guest {
    pub at: Micros,
    pub line: Line,
}

/// A swarm, before anybody chose a picker.
#[derive(Clone, Debug)]
pub struct Setup {
    pub content: Content,
    /// The seeds are there from the beginning.
    pub seeds: Vec<Line>,
    /// After so many blocks a seed leaves.
    pub seed_gives: Option<u64>,
    /// A cancel drops the request that waits. Where it doesn't, a peer sends all that it was asked for.
    pub heeds_cancels: bool,
    /// Those who come, the first first.
    pub guests: Vec<Guest>,
    /// How long a peer stays when it is whole; where it isn't said, to the end.
    pub stays: Option<Micros>,
    /// How long a HAVE takes to all neighbours.
    pub have_delay: Micros,
    /// The time between two samples.
    pub sampled: Micros,
    /// The run ends when neither a block nor a peer came for so long.
    pub patience: Micros,
}

impl Setup {
    /// When the peer of this number comes, if there is one. The seeds have the first numbers.
    pub fn comes(&self, peer: u32) -> Option<Micros> {
        match (peer as usize).checked_sub(self.seeds.len()) {
            None => Some(0),
            Some(place) => self.guests.get(place).map(|guest| guest.at),
        }
    }

    /// The least time in which each of the guests can be whole, were they all there at once and stayed: that of the slowest line down, that
    /// of the seeds' lines up, and that of all blocks over all lines up.
    pub fn bound(&self) -> Bound {
        let blocks = self.content.all_blocks() as f64;
        let rate = |line: &Line| 1.0 / line.up as f64;
        let slowest = self.guests.iter().map(|guest| guest.line.down).max().unwrap_or(0);
        let seeds: f64 = self.seeds.iter().map(rate).sum();
        let up: f64 = seeds + self.guests.iter().map(|guest| rate(&guest.line)).sum::<f64>();
        Bound { down: blocks * slowest as f64, seeds: blocks / seeds, all: blocks * self.guests.len() as f64 / up }
    }
}

/// The three bounds, in microseconds.
#[derive(Clone, Copy, Debug)]
pub struct Bound {
    pub down: f64,
    pub seeds: f64,
    pub all: f64,
}

impl Bound {
    /// The greatest of the three.
    pub fn greatest(&self) -> f64 {
        self.down.max(self.seeds).max(self.all)
    }
}

//! The swarms that are run.

use crate::peer::Line;
use crate::queue::{Micros, SECOND};
use crate::random::Random;
use crate::report::View;
use crate::rule::Content;
use crate::setup::{Guest, Setup};

/// The lines that guests have: KiB a second, up and down.
const HOMES: [(u64, u64); 3] = [(64, 512), (128, 1024), (256, 2048)];
const FIBRES: [(u64, u64); 1] = [(8192, 32768)];

/// The delay of a guest's line, in milliseconds: from the first to the second.
const DELAYS: (u64, u64) = (10, 40);

/// How the guests of a scenario come.
#[derive(Clone, Copy, Debug, PartialEq, Eq)]
enum Coming {
    /// All within so long.
    Within(Micros),
    /// One after the other, so long from each to the next, on average.
    Each(Micros),
}

/// A swarm by its name, in a size that may be changed.
#[derive(Clone, Copy, Debug)]
pub struct Scenario {
    pub name: &'static str,
    pub title: &'static str,
    pub guests: u32,
    pub content: Content,
    /// How many runs there are of each rule, with lines and delays of their own.
    pub runs: u64,
    /// What is drawn.
    pub views: &'static [View],
    /// The rules.
    pub rules: &'static [&'static str],
    lines: &'static [(u64, u64)],
    seeds: &'static [(u64, u64)],
    coming: Coming,
    /// How many percent of the content a seed gives before it leaves.
    seed_gives: Option<u64>,
    heeds_cancels: bool,
    stays: Option<Micros>,
    sampled: Micros,
}

/// The usual rule of the library with what it is put beside. The first rule of a list is the one that the others are compared with.
const FEW: [&str; 9] = [
    "ours, 8 open",
    "ours, 16 open",
    "ours",
    "rarest",
    "random",
    "libtorrent's order",
    "libtorrent itself",
    "transmission's order",
    "one piece a peer",
];

/// The same where the content may be lost, and where pieces are many or few.
const LOST: [&str; 12] = [
    "ours, 8 open",
    "ours, 16 open",
    "ours, 8 open by rate",
    "ours",
    "ours, in order",
    "rarest",
    "random",
    "libtorrent's order",
    "libtorrent itself",
    "libtorrent itself, whole pieces",
    "transmission's order",
    "one piece a peer",
];

/// The same where the seed leaves before others have each piece.
const LEAVES: [&str; 13] = [
    "ours, 8 open",
    "ours, 16 open",
    "ours, 64 open",
    "ours, 8 open by rate",
    "ours",
    "ours, in order",
    "rarest",
    "random",
    "libtorrent's order",
    "libtorrent itself",
    "libtorrent itself, whole pieces",
    "transmission's order",
    "one piece a peer",
];

/// The rules that differ where a depth may be too small.
const DEPTHS: [&str; 14] = [
    "ours, 8 open",
    "ours, 16 open",
    "ours, 8 open by rate",
    "ours, 8 open, depth 64",
    "ours",
    "ours, depth by rate",
    "rarest",
    "random",
    "libtorrent's order",
    "libtorrent's order, by rate",
    "libtorrent itself",
    "libtorrent itself, whole pieces",
    "transmission's order",
    "one piece a peer",
];

/// The usual bound on what endgame asks again, and others, where depths follow the rate.
const RUSHES: [&str; 9] = [
    "ours, 8 open by rate",
    "ours, 8 open by rate, rush 0",
    "ours, 8 open by rate, rush 1",
    "ours, 8 open by rate, rush 2",
    "ours, 8 open by rate, rush 4",
    "ours, 8 open by rate, rush 8",
    "ours, 8 open by rate, rush 16",
    "ours, 8 open by rate, rush 64",
    "ours, 8 open by rate, any rush",
];

/// The same where all neighbours have deep pipes, slow ones too.
const DEEP_RUSHES: [&str; 9] = [
    "ours, 8 open, depth 500",
    "ours, 8 open, depth 500, rush 0",
    "ours, 8 open, depth 500, rush 1",
    "ours, 8 open, depth 500, rush 2",
    "ours, 8 open, depth 500, rush 4",
    "ours, 8 open, depth 500, rush 8",
    "ours, 8 open, depth 500, rush 16",
    "ours, 8 open, depth 500, rush 64",
    "ours, 8 open, depth 500, any rush",
];

/// The usual rule of the library with its other options, and with other ties.
const OPTIONS: [&str; 16] = [
    "ours, 8 open",
    "ours, 64 open",
    "ours, 8 open, depth 16",
    "ours, 8 open, depth 64",
    "ours, 8 open by rate",
    "ours, 8 open by rate, any rush",
    "ours, 8 open, 1 asker",
    "ours, 8 open, no bound",
    "ours, 8 open, awaits all",
    "ours, 8 open, first rarest",
    "ours, 8 open, 4 random",
    "ours, 8 open, lone first",
    "ours, lone first",
    "ours, in order",
    "8 open, any begun",
    "8 open, fewest lacking",
];

const FLASH: Scenario = Scenario {
    name: "flash",
    title: "Flash crowd: a seed of 256 KiB/s, 1,000 downloaders, 1,000 pieces",
    guests: 1_000,
    content: Content { pieces: 1_000, blocks: 16 },
    runs: 1,
    views: &[View::Content, View::Interest],
    rules: &FEW,
    lines: &HOMES,
    seeds: &[(256, 1024)],
    coming: Coming::Within(10 * SECOND),
    seed_gives: None,
    heeds_cancels: true,
    stays: None,
    sampled: 10 * SECOND,
};

const SMALL: Scenario = Scenario {
    name: "small",
    title: "Small flash crowd: 200 downloaders, 200 pieces",
    guests: 200,
    content: Content { pieces: 200, blocks: 16 },
    runs: 5,
    views: &[View::Interest],
    rules: &DEPTHS,
    ..FLASH
};

const STRONG: Scenario = Scenario {
    name: "strong",
    title: "A seed of 4 MiB/s: 200 downloaders, 200 pieces",
    seeds: &[(4096, 4096)],
    runs: 3,
    views: &[],
    ..SMALL
};

const FAST: Scenario = Scenario {
    name: "fast",
    title: "Fast lines of 8 MiB/s up: 200 downloaders, 400 pieces",
    content: Content { pieces: 400, blocks: 16 },
    runs: 3,
    views: &[View::Content],
    lines: &FIBRES,
    seeds: &[(8192, 32768)],
    sampled: SECOND / 2,
    ..SMALL
};

const SLOW: Scenario = Scenario {
    name: "slow",
    title: "A slow seed among four: one downloader, 1,600 pieces",
    guests: 1,
    content: Content { pieces: 1_600, blocks: 16 },
    runs: 20,
    views: &[],
    rules: &DEEP_RUSHES,
    seeds: &[(6400, 6400), (6400, 6400), (6400, 6400), (128, 128)],
    ..FAST
};

/// All scenarios.
pub const ALL: [Scenario; 17] = [
    FLASH,
    SMALL,
    Scenario { name: "options", title: "Small flash crowd, with other options of the library", rules: &OPTIONS, views: &[], ..SMALL },
    Scenario {
        name: "mixed",
        title: "Mixed small flash crowds: some peers follow another rule",
        rules: &[
            "ours, 8 open",
            "ours",
            "1 of 10 with 8 open",
            "5 of 10 with 8 open",
            "9 of 10 with 8 open",
            "libtorrent's order",
            "libtorrent's order, 1 of 10 with 8 open",
            "libtorrent's order, 5 of 10 with 8 open",
            "libtorrent's order, 9 of 10 with 8 open",
            "libtorrent's order, 1 of 10 ours",
        ],
        runs: 20,
        views: &[],
        ..SMALL
    },
    Scenario {
        name: "short",
        title: "Pieces of one block: 200 downloaders, 3,200 pieces",
        content: Content { pieces: 3_200, blocks: 1 },
        runs: 1,
        views: &[],
        rules: &FEW,
        ..SMALL
    },
    Scenario {
        name: "long",
        title: "Pieces of 64 blocks: 200 downloaders, 50 pieces",
        content: Content { pieces: 50, blocks: 64 },
        runs: 3,
        views: &[],
        rules: &LOST,
        ..SMALL
    },
    STRONG,
    FAST,
    SLOW,
    Scenario { name: "deaf", title: "The same seeds, which pass over cancels", heeds_cancels: false, ..SLOW },
    Scenario { name: "strongend", title: "A strong seed, with other bounds on endgame", rules: &RUSHES, ..STRONG },
    Scenario { name: "fastend", title: "Fast lines, with other bounds on endgame", rules: &RUSHES, views: &[], ..FAST },
    Scenario {
        name: "steady",
        title: "Steady state: one comes each 5 s, and leaves 60 s after it is whole",
        guests: 1_000,
        content: Content { pieces: 400, blocks: 16 },
        views: &[View::Downloaders, View::Rarest],
        coming: Coming::Each(5 * SECOND),
        stays: Some(60 * SECOND),
        ..FLASH
    },
    Scenario {
        name: "leaves",
        title: "The seed leaves after 1.1 copies: 200 downloaders, 200 pieces",
        runs: 10,
        rules: &LEAVES,
        views: &[],
        seed_gives: Some(110),
        ..SMALL
    },
    Scenario {
        name: "later",
        title: "The seed leaves after 3 copies: 200 downloaders, 200 pieces",
        runs: 3,
        rules: &LOST,
        views: &[],
        seed_gives: Some(300),
        ..SMALL
    },
    Scenario {
        name: "fades",
        title: "One comes each 5 s and leaves when it is whole; the seed leaves after 4 copies",
        guests: 500,
        runs: 10,
        rules: &LOST,
        views: &[View::Downloaders],
        coming: Coming::Each(5 * SECOND),
        seed_gives: Some(400),
        stays: Some(0),
        ..SMALL
    },
    Scenario {
        name: "large",
        title: "10,000 downloaders, 400 pieces",
        guests: 10_000,
        content: Content { pieces: 400, blocks: 16 },
        views: &[],
        rules: &["ours, 8 open"],
        ..FLASH
    },
];

/// The scenario of this name.
pub fn named(name: &str) -> Option<Scenario> {
    ALL.into_iter().find(|scenario| scenario.name == name)
}

impl Scenario {
    /// Whether all come at once. The bounds are those of such a swarm.
    pub fn is_crowd(&self) -> bool {
        matches!(self.coming, Coming::Within(_))
    }

    /// The swarm: the same for each rule.
    pub fn setup(&self, seed: u64) -> Setup {
        let mut random = Random::new(seed);
        let mut times: Vec<Micros> = match self.coming {
            Coming::Within(time) => (0..self.guests).map(|_| random.below(time)).collect(),
            Coming::Each(mean) => {
                let gaps = (0..self.guests).map(|_| random.below(2 * mean));
                gaps.scan(0, |now, gap| {
                    *now += gap;
                    Some(*now)
                })
                .collect()
            }
        };
        times.sort_unstable();
        let guests = times.into_iter().map(|at| Guest { at, line: self.line(&mut random) }).collect();
        Setup {
            content: self.content,
            seeds: self.seeds.iter().map(|&(up, down)| Line::new(up, down, DELAYS.0)).collect(),
            seed_gives: self.seed_gives.map(|percent| self.content.all_blocks() * percent / 100),
            heeds_cancels: self.heeds_cancels,
            guests,
            stays: self.stays,
            have_delay: 2 * DELAYS.1 * 1000,
            sampled: self.sampled,
            patience: 600 * SECOND,
        }
    }

    fn line(&self, random: &mut Random) -> Line {
        let (up, down) = self.lines[random.below(self.lines.len() as u64) as usize];
        let delay = DELAYS.0 + random.below(DELAYS.1 - DELAYS.0 + 1);
        Line::new(up, down, delay)
    }
}

//! The rules that are put beside each other.

use crate::book::{Book, Endgame};
use crate::field::{Libtorrent, OnePiece, Transmission};
#[cfg(feature = "libtorrent")]
use crate::libtorrent::Client;
use crate::open::{Begun, Open};
use crate::ours::{First, Ours};
use crate::plain::{AnyPiece, NotStrict, Order, Plain, Rarest, Rising, Ties};
use crate::queue::{Micros, SECOND};
use crate::rule::{Content, Fault, Rule};
use crate::timed::{Spent, Timed};
use piecepick::Options;
use std::cell::Cell;
use std::rc::Rc;

/// The usual depth.
const DEPTH: u32 = 5;

/// The usual endgame, that of the library's usual options.
pub const ENDGAME: Endgame = Endgame { askers: 2, rush: 32, shown: true };

/// The greatest numbers of askers and of `rush`, which are no bounds.
const NO_BOUND: u32 = 1024;
const NO_RUSH: u32 = 4096;

/// Depths that follow the rate: what came in a time, and the least depth beside.
#[derive(Clone, Copy, Debug)]
pub struct Depths {
    /// The time.
    pub every: Micros,
    least: u32,
    most: u32,
}

impl Depths {
    /// The depth of a neighbour that brought so many blocks in the time.
    pub fn depth(self, brought: u32) -> u32 {
        (self.least + brought).min(self.most)
    }
}

#[derive(Clone, Copy, Debug)]
enum Kind {
    Ours {
        options: Options,
        first: First,
    },
    AnyPiece,
    Rising,
    NotStrict,
    Rarest(Rarest),
    Open(Open),
    Libtorrent {
        is_capped: bool,
    },
    Transmission,
    OnePiece(OnePiece),
    /// libtorrent's own class.
    #[cfg(feature = "libtorrent")]
    Client(Client),
}

impl Kind {
    /// A picker for a downloader that has nothing.
    fn picker(self, peer: u32, content: Content) -> Result<Box<dyn Rule>, Fault> {
        let plain = |order: Box<dyn Order>, endgame| -> Result<Box<dyn Rule>, Fault> {
            Ok(Box::new(Plain::new(Book::new(content, DEPTH, ENDGAME), order, endgame)))
        };
        match self {
            Kind::Ours { options, first } => Ok(Box::new(Ours::new(content, options, first)?)),
            Kind::AnyPiece => plain(Box::new(AnyPiece), Ties::Any),
            Kind::Rising => plain(Box::new(Rising), Ties::Least),
            Kind::NotStrict => plain(Box::new(NotStrict), Ties::Any),
            Kind::Rarest(rarest) => plain(Box::new(rarest), rarest.begun),
            Kind::Open(open) => plain(Box::new(open), open.fresh),
            Kind::Libtorrent { is_capped } => plain(Box::new(Libtorrent::new(peer, is_capped)), Ties::Any),
            Kind::Transmission => plain(Box::new(Transmission::new(peer)), Ties::Any),
            Kind::OnePiece(one_piece) => plain(Box::new(one_piece), Ties::Any),
            #[cfg(feature = "libtorrent")]
            Kind::Client(client) => Ok(client.picker(peer, content, DEPTH)),
        }
    }
}

/// A rule by its name.
#[derive(Clone, Copy, Debug)]
pub struct Chooser {
    /// Its name in tables and pictures.
    pub name: &'static str,
    kind: Kind,
    depths: Option<Depths>,
    /// How many of ten peers follow another rule, and which.
    mixed: Option<(u32, Kind)>,
}

impl Chooser {
    /// Whether the peer follows the other rule of a mixed swarm.
    pub fn is_mixed_in(&self, peer: u32) -> bool {
        self.mixed.is_some_and(|(of_ten, _)| peer % 10 < of_ten)
    }

    /// A picker for a downloader that has nothing.
    pub fn picker(&self, peer: u32, content: Content, spent: &Rc<Cell<Spent>>) -> Result<Box<dyn Rule>, Fault> {
        let kind = self.mixed.filter(|_| self.is_mixed_in(peer)).map_or(self.kind, |(_, kind)| kind);
        Ok(Box::new(Timed::new(kind.picker(peer, content)?, spent)))
    }

    /// Whether it is a control that makes the requests of one of the library's rules.
    pub fn is_twin(&self) -> bool {
        TWINS.iter().any(|(_, control)| *control == self.name)
    }

    /// How the depths follow the rates, if they do.
    pub fn depths(&self) -> Option<Depths> {
        self.depths
    }
}

/// The rules that are there with the feature `libtorrent` alone.
pub const LINKED: [&str; 2] = ["libtorrent itself", "libtorrent itself, whole pieces"];

/// Rules of the library, and controls that make the same requests.
pub const TWINS: [(&str, &str); 7] = [
    ("ours", "rarest, ties of ours"),
    ("ours", "0 open"),
    ("ours, in order", "rising"),
    ("ours, lone first", "lone first, ties of ours"),
    ("ours, 8 open", "8 open"),
    ("ours, 8 open by rate", "8 open, by rate"),
    ("ours, 16 open", "16 open"),
];

/// How many pieces may be open in rules of the library that don't say it. The controls with its ties are for strict priority.
const OPEN: u32 = 0;

/// The usual options of the library, for depths that aren't told. A greater `deepest` takes memory in each picker.
fn usual() -> Options {
    let Endgame { askers, rush, shown } = ENDGAME;
    Options::new().depth(DEPTH).deepest(DEPTH).askers(askers).rush(rush).shown(shown).open(OPEN)
}

fn ours(name: &'static str, options: Options) -> Chooser {
    ours_with(name, options, First::Rarest)
}

fn ours_with(name: &'static str, options: Options, first: First) -> Chooser {
    Chooser { name, kind: Kind::Ours { options, first }, depths: None, mixed: None }
}

/// Depths by rate: what came in the last second, and five beside.
const BY_RATE: Depths = Depths { every: SECOND, least: DEPTH, most: 500 };

fn by_rate(chooser: Chooser) -> Chooser {
    Chooser { depths: Some(BY_RATE), ..chooser }
}

/// The greatest of these depths, whatever came. It is told after a second, as the others are.
const DEEP: Depths = Depths { least: BY_RATE.most, ..BY_RATE };

/// Rarest first, as plainly as it can be written, but for what is said otherwise.
const RAREST: Rarest = Rarest { random: 1, lone_first: false, begun: Ties::Any, fresh: Ties::Any };

/// The rule `open` with the library's ties.
const fn open(open: u32) -> Open {
    Open { open, random: 1, begun: Begun::Least, fresh: Ties::Least }
}

const fn control(name: &'static str, kind: Kind) -> Chooser {
    Chooser { name, kind, depths: None, mixed: None }
}

/// All rules, the library's first.
pub fn all() -> Vec<Chooser> {
    [the_library(), with_open(), controls(), open_controls(), clients()].concat()
}

/// The rules of the library.
fn the_library() -> Vec<Chooser> {
    let deep = usual().deepest(BY_RATE.most);
    vec![
        ours("ours", usual()),
        ours("ours, depth 64", usual().depth(64).deepest(64)),
        by_rate(ours("ours, depth by rate", deep)),
        ours("ours, 1 asker", usual().askers(1)),
        ours("ours, no bound", usual().askers(NO_BOUND)),
        ours("ours, first rarest", usual().random(0)),
        ours("ours, 4 random", usual().random(4)),
        ours_with("ours, in order", usual(), First::Lowest),
        ours_with("ours, lone first", usual(), First::Lone),
        by_rate(ours_with("ours, lone first by rate", deep, First::Lone)),
    ]
}

/// The library's rules with open pieces.
fn with_open() -> Vec<Chooser> {
    let open = usual().open(8);
    let deep = open.deepest(BY_RATE.most);
    vec![
        ours("ours, 8 open", open),
        ours("ours, 16 open", usual().open(16)),
        ours("ours, 64 open", usual().open(64)),
        by_rate(ours("ours, 8 open by rate", deep)),
        by_rate(ours("ours, 8 open by rate, any rush", deep.rush(NO_RUSH))),
        by_rate(ours("ours, 16 open by rate", deep.open(16))),
        ours("ours, 8 open, depth 16", open.depth(16).deepest(16)),
        ours("ours, 8 open, depth 64", open.depth(64).deepest(64)),
        ours("ours, 8 open, 1 asker", open.askers(1)),
        ours("ours, 8 open, no bound", open.askers(NO_BOUND)),
        ours("ours, 8 open, awaits all", open.shown(false)),
        ours("ours, 8 open, first rarest", open.random(0)),
        ours("ours, 8 open, 4 random", open.random(4)),
        ours_with("ours, 8 open, lone first", open, First::Lone),
    ]
}

/// The library's rules with open pieces and deep pipes, which differ by the bound on what endgame asks again.
pub fn rushes() -> Vec<Chooser> {
    let open = usual().open(8).deepest(BY_RATE.most);
    let rated = |name, rush| by_rate(ours(name, open.rush(rush)));
    let deep = |name, rush| Chooser { depths: Some(DEEP), ..ours(name, open.depth(64).rush(rush)) };
    vec![
        rated("ours, 8 open by rate, rush 0", 0),
        rated("ours, 8 open by rate, rush 1", 1),
        rated("ours, 8 open by rate, rush 2", 2),
        rated("ours, 8 open by rate, rush 4", 4),
        rated("ours, 8 open by rate, rush 8", 8),
        rated("ours, 8 open by rate, rush 16", 16),
        rated("ours, 8 open by rate, rush 64", 64),
        deep("ours, 8 open, depth 500", ENDGAME.rush),
        deep("ours, 8 open, depth 500, rush 0", 0),
        deep("ours, 8 open, depth 500, rush 1", 1),
        deep("ours, 8 open, depth 500, rush 2", 2),
        deep("ours, 8 open, depth 500, rush 4", 4),
        deep("ours, 8 open, depth 500, rush 8", 8),
        deep("ours, 8 open, depth 500, rush 16", 16),
        deep("ours, 8 open, depth 500, rush 64", 64),
        deep("ours, 8 open, depth 500, any rush", NO_RUSH),
    ]
}

/// The plain orders.
fn controls() -> Vec<Chooser> {
    vec![
        control("rarest", Kind::Rarest(RAREST)),
        control("rarest, least begun", Kind::Rarest(Rarest { begun: Ties::Least, ..RAREST })),
        control("rarest, from a piece on", Kind::Rarest(Rarest { fresh: Ties::Least, ..RAREST })),
        control("rarest, ties of ours", Kind::Rarest(Rarest { begun: Ties::Least, fresh: Ties::Least, ..RAREST })),
        control("rarest, lone first", Kind::Rarest(Rarest { lone_first: true, ..RAREST })),
        control("lone first, ties of ours", Kind::Rarest(Rarest { lone_first: true, begun: Ties::Least, fresh: Ties::Least, ..RAREST })),
        control("rarest, not strict", Kind::NotStrict),
        control("random", Kind::AnyPiece),
        control("rising", Kind::Rising),
    ]
}

/// The rule `open`, and what else may break its ties.
fn open_controls() -> Vec<Chooser> {
    vec![
        control("0 open", Kind::Open(open(0))),
        control("8 open", Kind::Open(open(8))),
        by_rate(control("8 open, by rate", Kind::Open(open(8)))),
        control("8 open, any begun", Kind::Open(Open { begun: Begun::Any, fresh: Ties::Any, ..open(8) })),
        control("8 open, fewest lacking", Kind::Open(Open { begun: Begun::FewestLacking, ..open(8) })),
        control("8 open, fewest free", Kind::Open(Open { begun: Begun::FewestFree, ..open(8) })),
        control("16 open", Kind::Open(open(16))),
        control("16 open, fewest lacking", Kind::Open(Open { begun: Begun::FewestLacking, ..open(16) })),
    ]
}

/// The orders of other clients.
fn clients() -> Vec<Chooser> {
    vec![
        control("libtorrent's order", Kind::Libtorrent { is_capped: true }),
        by_rate(control("libtorrent's order, by rate", Kind::Libtorrent { is_capped: true })),
        control("libtorrent's order, no cap", Kind::Libtorrent { is_capped: false }),
        control("transmission's order", Kind::Transmission),
        control("one piece a peer", Kind::OnePiece(OnePiece { random: 1 })),
        #[cfg(feature = "libtorrent")]
        control("libtorrent itself", Kind::Client(Client { by_pieces: false })),
        #[cfg(feature = "libtorrent")]
        by_rate(control("libtorrent itself, whole pieces", Kind::Client(Client { by_pieces: true }))),
    ]
}

/// Swarms in which some peers follow another rule than the rest: mostly the library's with 8 open pieces.
pub fn mixes() -> Vec<Chooser> {
    let ours_with = |open| Kind::Ours { options: usual().open(open), first: First::Rarest };
    let mix = |name, of_ten, rest| Chooser { mixed: Some((of_ten, ours_with(8))), ..control(name, rest) };
    let (strict, libtorrent) = (ours_with(0), Kind::Libtorrent { is_capped: true });
    vec![
        mix("1 of 10 with 8 open", 1, strict),
        mix("5 of 10 with 8 open", 5, strict),
        mix("9 of 10 with 8 open", 9, strict),
        mix("libtorrent's order, 1 of 10 with 8 open", 1, libtorrent),
        mix("libtorrent's order, 5 of 10 with 8 open", 5, libtorrent),
        mix("libtorrent's order, 9 of 10 with 8 open", 9, libtorrent),
        Chooser { mixed: Some((1, strict)), ..control("libtorrent's order, 1 of 10 ours", libtorrent) },
        // Nobody differs: what the lines of those peers alone make.
        Chooser { mixed: Some((9, libtorrent)), ..control("libtorrent's order, 9 of 10 the same", libtorrent) },
    ]
}

/// The rule of this name: one of all, a mix, or one with another bound on endgame.
pub fn named(name: &str) -> Option<Chooser> {
    all().into_iter().chain(mixes()).chain(rushes()).find(|chooser| chooser.name == name)
}

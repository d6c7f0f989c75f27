//! What the library and the controls choose, where it can be said from outside.

use piecepick::Options;
use swarm::book::{Book, Endgame};
use swarm::ours::{First, Ours};
use swarm::plain::{Plain, Rarest, Ties};
use swarm::random::Random;
use swarm::rule::{Ask, Block, Came, Content, Rule};
use swarm::rules::ENDGAME;

const PIECES: u32 = 24;
const CONTENT: Content = Content { pieces: PIECES, blocks: 1 };

/// An endgame that waits for all pieces, whoever shows them.
const OF_ALL: Endgame = Endgame { shown: false, ..ENDGAME };

fn pickers(endgame: Endgame) -> Vec<(&'static str, Box<dyn Rule>)> {
    let Endgame { askers, rush, shown } = endgame;
    let options = Options::new().depth(5).deepest(5).random(0).askers(askers).rush(rush).shown(shown);
    let plain = |fresh| {
        let order = Rarest { random: 0, lone_first: false, begun: Ties::Any, fresh };
        Box::new(Plain::new(Book::new(CONTENT, 5, endgame), Box::new(order), Ties::Any)) as Box<dyn Rule>
    };
    vec![("ours", Box::new(Ours::new(CONTENT, options, First::Rarest).unwrap())), ("any", plain(Ties::Any)), ("least", plain(Ties::Least))]
}

fn flags(bits: u32) -> [u8; 3] {
    let [_, rest @ ..] = (bits >> 8).to_be_bytes();
    rest
}

/// With pieces of one block none is ever begun and open. So each request is for a piece that fewest neighbours show.
#[test]
fn a_rarest_piece_is_requested() {
    let mut random = Random::new(5);
    for _ in 0..100 {
        let shown: Vec<u32> = (0..10).map(|_| (random.word() | random.word() << 3) as u32 & 0xffff_ff00).collect();
        let has = |slot: usize, piece: u32| shown[slot] >> (31 - piece) & 1 == 1;
        let copies = |piece: u32| (0..10).filter(|&slot| has(slot, piece)).count();
        for (name, mut picker) in pickers(OF_ALL) {
            for (slot, &bits) in shown.iter().enumerate() {
                picker.join(slot as u8, &flags(bits)).unwrap();
                picker.choke(slot as u8, false).unwrap();
            }
            let mut asked = Vec::new();
            for slot in 0..4 {
                let Ask::Request(block) = picker.next(slot, random.word()).unwrap() else { panic!("no request") };
                let open = (0..PIECES).filter(|&piece| has(slot.into(), piece) && !asked.contains(&piece));
                assert_eq!(Some(copies(block.piece)), open.map(copies).min(), "{name}");
                asked.push(block.piece);
            }
        }
    }
}

/// A block that two neighbours were asked for comes from one, and is due for a cancel at the other.
#[test]
fn endgame_asks_twice_and_cancels() {
    for (name, mut picker) in pickers(OF_ALL) {
        for slot in 0..3 {
            picker.join(slot, &flags(1 << 31)).unwrap();
            picker.choke(slot, false).unwrap();
        }
        let block = Block { piece: 0, index: 0 };
        assert_eq!(picker.next(0, 1), Ok(Ask::Request(block)), "{name}");
        for piece in 1..PIECES {
            picker.have(0, piece).unwrap();
        }
        assert_eq!(picker.next(1, 2), Ok(Ask::Dry), "{name}: the other pieces aren't asked yet");
        take_all_but(picker.as_mut(), block);
        assert_eq!(picker.next(1, 3), Ok(Ask::Request(block)), "{name}");
        assert_eq!(picker.next(2, 4), Ok(Ask::Dry), "{name}: two are asked already");
        let before = picker.epoch();
        assert_eq!(picker.arrived(1, block), Ok(Came::Completed), "{name}");
        assert_ne!(picker.epoch(), before, "{name}");
        assert_eq!(picker.next(0, 5), Ok(Ask::Cancel(block)), "{name}");
        assert!((0..3).all(|slot| picker.next(slot, 6) == Ok(Ask::Dry)), "{name}");
        assert_eq!(picker.arrived(0, block), Ok(Came::Twice), "{name}");
    }
}

/// Neighbours in these slots show these pieces and unchoke us.
fn meet(picker: &mut dyn Rule, slots: std::ops::Range<u8>, pieces: u32) {
    for slot in slots {
        picker.join(slot, &flags(pieces)).unwrap();
        picker.choke(slot, false).unwrap();
    }
}

/// How many blocks are asked of the neighbour before it is dry.
fn asked(picker: &mut dyn Rule, slot: u8) -> usize {
    let count = (0..).take_while(|&word| matches!(picker.next(slot, word).unwrap(), Ask::Request(_))).count();
    assert_eq!(picker.next(slot, 9), Ok(Ask::Dry));
    count
}

/// Three neighbours show four pieces. The second one is asked again for as few as may be, and for one more where the first one brings one.
#[test]
fn endgame_asks_few_of_a_neighbour() {
    for (rush, again) in [(0, 0), (1, 1), (3, 3), (16, 4)] {
        for (name, mut picker) in pickers(Endgame { rush, ..ENDGAME }) {
            meet(picker.as_mut(), 0..2, 0xf << 28);
            assert_eq!((asked(picker.as_mut(), 0), asked(picker.as_mut(), 1)), (4, again), "{name}");
            if rush == 1 {
                let before = picker.epoch();
                let brought = (0..4).find(|&piece| {
                    assert_eq!(picker.arrived(0, Block { piece, index: 0 }), Ok(Came::Completed), "{name}");
                    picker.epoch() != before
                });
                assert_eq!(picker.next(1, 1), Ok(Ask::Cancel(Block { piece: brought.unwrap(), index: 0 })), "{name}");
                assert_eq!(asked(picker.as_mut(), 1), usize::from(brought != Some(3)), "{name}");
            }
        }
    }
}

/// Two neighbours show piece 0. Nobody shows the others, or a third neighbour does for a while.
#[test]
fn endgame_waits_for_what_is_shown() {
    for (endgame, again) in [(ENDGAME, 1), (OF_ALL, 0)] {
        for (name, mut picker) in pickers(endgame) {
            meet(picker.as_mut(), 0..2, 1 << 31);
            assert_eq!((asked(picker.as_mut(), 0), asked(picker.as_mut(), 1)), (1, again), "{name}");
            picker.join(2, &flags(3 << 30)).unwrap();
            meet(picker.as_mut(), 3..4, 1 << 31);
            picker.choke(1, true).unwrap();
            assert_eq!(asked(picker.as_mut(), 3), 0, "{name}: piece 1 is shown, and asked of nobody");
            let before = picker.epoch();
            picker.leave(2).unwrap();
            assert_eq!(asked(picker.as_mut(), 3), again, "{name}");
            assert!(again == 0 || picker.epoch() != before, "{name}");
        }
    }
}

/// The neighbour in slot 0 brings each other block that it is asked for.
fn take_all_but(picker: &mut dyn Rule, kept: Block) {
    for _ in 1..PIECES {
        let Ok(Ask::Request(block)) = picker.next(0, 9) else { panic!("no request") };
        assert_ne!(block, kept);
        assert_eq!(picker.arrived(0, block), Ok(Came::Completed));
    }
}

/// What was asked of a neighbour that chokes us is free for others, and the epoch tells it.
#[test]
fn a_choke_frees_what_was_asked() {
    for (name, mut picker) in pickers(OF_ALL) {
        for slot in 0..2 {
            picker.join(slot, &flags(1 << 31)).unwrap();
            picker.choke(slot, false).unwrap();
        }
        let block = Block { piece: 0, index: 0 };
        assert_eq!(picker.next(0, 1), Ok(Ask::Request(block)), "{name}");
        assert_eq!(picker.next(1, 1), Ok(Ask::Dry), "{name}");
        let before = picker.epoch();
        picker.choke(0, true).unwrap();
        assert_ne!(picker.epoch(), before, "{name}");
        assert_eq!(picker.next(0, 1), Ok(Ask::Full), "{name}");
        assert_eq!(picker.next(1, 1), Ok(Ask::Request(block)), "{name}");
        assert_eq!(picker.arrived(0, block), Ok(Came::Completed), "{name}: it comes after all");
        assert_eq!(picker.next(1, 1), Ok(Ask::Cancel(block)), "{name}");
    }
}

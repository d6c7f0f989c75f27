//! libtorrent's own picker on small cases by hand. They need the feature `libtorrent`.
#![cfg(feature = "libtorrent")]

use swarm::libtorrent::{Client, Libtorrent};
use swarm::rule::{Ask, Block, Came, Content, Rule};
use swarm::rules;
use swarm::scenario::named;
use swarm::swarm::run;

const CONTENT: Content = Content { pieces: 8, blocks: 4 };

/// Neighbours that show these pieces come and unchoke us, in slots from 0 on.
fn client(by_pieces: bool, shown: &[&[u32]]) -> Libtorrent {
    let mut client = Libtorrent::new(Client { by_pieces }, 1, CONTENT, 5);
    for (slot, pieces) in shown.iter().enumerate() {
        client.join(slot as u8, &[0]).unwrap();
        pieces.iter().for_each(|&piece| client.have(slot as u8, piece).unwrap());
        client.choke(slot as u8, false).unwrap();
    }
    client
}

/// All that is asked of the neighbour until it is full or there is nothing: piece and block of each.
fn asked(client: &mut Libtorrent, slot: u8) -> Vec<(u32, u32)> {
    let next = || match client.next(slot, 0).unwrap() {
        Ask::Request(block) => Some((block.piece, block.index)),
        _ => None,
    };
    std::iter::from_fn(next).collect()
}

fn bring(client: &mut Libtorrent, slot: u8, piece: u32) {
    (0..4).for_each(|index| assert_ne!(client.arrived(slot, Block { piece, index }), Ok(Came::Twice)));
}

#[test]
fn the_first_four_pieces_are_completed_one_after_the_other() {
    let mut client = client(false, &[&[0, 3, 5], &[0, 3, 5, 6]]);
    let first = asked(&mut client, 0);
    assert_eq!(first.len(), 5);
    assert!(first[..4].iter().all(|(piece, _)| *piece == first[0].0) && first[4].1 == 0);
    // The other neighbour goes on with what is open.
    assert_eq!(asked(&mut client, 1)[..3], [1, 2, 3].map(|index| (first[4].0, index)));
}

#[test]
fn then_a_rarer_piece_comes_before_a_begun_one() {
    let mut client = client(false, &[&[0, 4, 5, 6, 7], &[0, 1, 4, 5, 6, 7]]);
    (4..8).for_each(|piece| bring(&mut client, 0, piece));
    assert_eq!(client.next(0, 0), Ok(Ask::Request(Block { piece: 0, index: 0 })));
    assert_eq!(asked(&mut client, 1)[..4], [0, 1, 2, 3].map(|index| (1, index)));
}

#[test]
fn begun_pieces_come_first_where_more_than_three_are_open_at_two_neighbours() {
    for (open, is_begun) in [(3, false), (4, true)] {
        let content = Content { pieces: 16, blocks: 4 };
        let mut client = Libtorrent::new(Client { by_pieces: false }, 1, content, 1);
        client.join(0, &[0b1111_1000, 0b0000_1111]).unwrap();
        client.join(1, &[0b1111_1100, 0b0000_0000]).unwrap();
        (12..16).for_each(|piece| bring(&mut client, 0, piece));
        (0..open).for_each(|piece| assert_eq!(client.arrived(0, Block { piece, index: 0 }), Ok(Came::Stored)));
        client.choke(1, false).unwrap();
        let piece = asked(&mut client, 1)[0].0;
        assert_eq!(piece < open, is_begun, "{open}");
        assert!(is_begun || piece == 5);
    }
}

#[test]
fn a_choke_frees_what_was_asked() {
    let mut client = client(false, &[&[0], &[0]]);
    assert_eq!(asked(&mut client, 0).len(), 4);
    assert_eq!(asked(&mut client, 1), []);
    let before = client.epoch();
    client.choke(0, true).unwrap();
    assert_ne!(client.epoch(), before);
    assert_eq!(client.next(0, 0), Ok(Ask::Full));
    assert_eq!(asked(&mut client, 1).len(), 4);
    assert_eq!(client.arrived(0, Block { piece: 0, index: 2 }), Ok(Came::Stored));
    assert_eq!(client.next(1, 0), Ok(Ask::Cancel(Block { piece: 0, index: 2 })));
}

/// When all pieces that aren't had are begun, a neighbour of which nothing is asked is asked for one block that another is asked for.
#[test]
fn endgame_asks_for_one_block_twice_and_cancels() {
    let mut client = client(false, &[&[0, 1, 2, 3, 4, 5, 6, 7], &[0, 1]]);
    (2..8).for_each(|piece| bring(&mut client, 0, piece));
    (0..3).for_each(|index| assert_eq!(client.arrived(0, Block { piece: 0, index }), Ok(Came::Stored)));
    let last = asked(&mut client, 0);
    assert_eq!(last.len(), 5);
    let twice = asked(&mut client, 1);
    assert!(twice.len() == 1 && last.contains(&twice[0]), "{last:?}, {twice:?}");
    let block = Block { piece: twice[0].0, index: twice[0].1 };
    assert_ne!(client.arrived(1, block), Ok(Came::Twice));
    assert_eq!(client.next(0, 0), Ok(Ask::Cancel(block)));
    assert_eq!(client.arrived(0, block), Ok(Came::Twice));
}

/// Neighbours that bring a block each second bring a piece of 16 in 20 seconds. So each has a piece of its own, though all are as rare.
#[test]
fn by_pieces_each_neighbour_has_its_own() {
    for (by_pieces, own) in [(true, true), (false, false)] {
        let mut client = Libtorrent::new(Client { by_pieces }, 1, Content { pieces: 8, blocks: 16 }, 5);
        (0..3).for_each(|slot| client.join(slot, &[0xff]).unwrap());
        for block in (0..64).map(|number| Block { piece: 4 + number / 16, index: number % 16 }) {
            client.arrived(0, block).unwrap();
        }
        (0..60).for_each(|number| client.depth(number % 3, 6).unwrap());
        (0..3).for_each(|slot| client.choke(slot, false).unwrap());
        let blocks = [0, 1, 2].map(|slot| asked(&mut client, slot));
        assert!(blocks.iter().all(|blocks| blocks.len() == 6));
        assert_eq!(blocks.iter().all(|blocks| blocks[0].1 == 0), own, "{blocks:?}");
    }
}

#[test]
fn the_same_draw_gives_the_same_run() {
    let mut scenario = named("flash").unwrap();
    (scenario.guests, scenario.content.pieces) = (40, 30);
    let rule = rules::named("libtorrent itself").unwrap();
    let times = [1, 1, 2].map(|draw| run(&scenario.setup(draw), &rule, draw).unwrap().times);
    assert_eq!(times[0], times[1]);
    assert_ne!(times[0], times[2]);
}

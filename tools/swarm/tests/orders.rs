//! Orders of the field's clients, and the rule `open`, on small cases by hand.

use swarm::book::Book;
use swarm::field::{Libtorrent, OnePiece, Transmission};
use swarm::open::{Begun, Open};
use swarm::plain::{Order, Plain, Ties};
use swarm::rule::{Ask, Block, Came, Content, Rule};
use swarm::rules::ENDGAME;

/// The rule with the library's ties, and rarest first from the beginning.
const OPEN: Open = Open { open: 1, random: 0, begun: Begun::Least, fresh: Ties::Least };

/// libtorrent's order, with its bound of open pieces.
fn capped() -> Libtorrent {
    Libtorrent::new(1, true)
}

fn plain(content: Content, order: impl Order + 'static) -> Plain {
    Plain::new(Book::new(content, 64, ENDGAME), Box::new(order), Ties::Least)
}

/// Neighbours that show these pieces come and unchoke us, in slots from 0 on.
fn meet(picker: &mut Plain, shown: &[&[u32]]) {
    for (slot, pieces) in shown.iter().enumerate() {
        picker.join(slot as u8, &[0; 8]).unwrap();
        pieces.iter().for_each(|&piece| picker.have(slot as u8, piece).unwrap());
        picker.choke(slot as u8, false).unwrap();
    }
}

/// What is asked next of the neighbour: piece and block.
fn next(picker: &mut Plain, slot: u8, word: u64) -> (u32, u32) {
    match picker.next(slot, word).unwrap() {
        Ask::Request(block) => (block.piece, block.index),
        other => panic!("{other:?}"),
    }
}

/// The neighbour brings all that it shows but these pieces.
fn bring_all_but(picker: &mut Plain, slot: u8, content: Content, kept: &[u32]) {
    for piece in (0..content.pieces).filter(|piece| !kept.contains(piece)) {
        for index in 0..content.blocks {
            assert_ne!(picker.arrived(slot, Block { piece, index }), Ok(Came::Twice));
        }
    }
}

/// Piece 0 is begun and two neighbours show it. Slot 1 alone shows piece 1, which isn't begun.
fn common_begun_and_rare_unbegun(order: impl Order + 'static) -> Plain {
    let mut picker = plain(Content { pieces: 4, blocks: 4 }, order);
    meet(&mut picker, &[&[0], &[0, 1]]);
    assert_eq!(next(&mut picker, 0, 0), (0, 0));
    picker
}

#[test]
fn with_0_open_a_begun_piece_comes_before_a_rarer_one() {
    let mut picker = common_begun_and_rare_unbegun(Open { open: 0, ..OPEN });
    assert_eq!([0; 4].map(|_| next(&mut picker, 1, 0)), [(0, 1), (0, 2), (0, 3), (1, 0)]);
}

#[test]
fn with_1_open_a_second_piece_is_begun_where_it_is_rarer_and_no_third() {
    let mut picker = common_begun_and_rare_unbegun(OPEN);
    picker.have(1, 2).unwrap();
    // Piece 0 alone is open, so the rarer ones lead. Then two are open: the rarer of these, and no third.
    assert_eq!(next(&mut picker, 1, 2), (2, 0));
    assert_eq!([0; 3].map(|_| next(&mut picker, 1, 1)), [(2, 1), (2, 2), (2, 3)]);
    // Piece 2 is asked whole, so one is open again.
    assert_eq!(next(&mut picker, 1, 1), (1, 0));
}

#[test]
fn of_pieces_as_rare_a_begun_one_leads() {
    let mut picker = plain(Content { pieces: 4, blocks: 4 }, Open { open: 8, ..OPEN });
    meet(&mut picker, &[&[0, 1, 2, 3]]);
    assert_eq!(next(&mut picker, 0, 2), (2, 0));
    assert_eq!(next(&mut picker, 0, 3), (2, 1));
}

#[test]
fn of_unbegun_pieces_as_rare_the_first_from_the_word_on_is_begun() {
    for (word, piece) in [(0, 1), (1, 1), (2, 3), (3, 3), (4, 1), (7, 3)] {
        let mut picker = plain(Content { pieces: 4, blocks: 1 }, OPEN);
        meet(&mut picker, &[&[0, 1, 3], &[0]]);
        assert_eq!(next(&mut picker, 0, word), (piece, 0), "{word}");
    }
}

#[test]
fn too_many_open_pieces_go_on_with_the_rarest() {
    let content = Content { pieces: 4, blocks: 4 };
    let begin = |open| {
        let mut picker = plain(content, Open { open, ..OPEN });
        meet(&mut picker, &[&[0], &[1], &[0, 1, 2], &[0]]);
        assert_eq!((next(&mut picker, 0, 0), next(&mut picker, 1, 0)), ((0, 0), (1, 0)));
        picker
    };
    // Slot 2 alone shows piece 2. Two others show piece 1 and three piece 0.
    assert_eq!(next(&mut begin(2), 2, 0), (2, 0));
    assert_eq!(next(&mut begin(1), 2, 0), (1, 1));
    assert_eq!(next(&mut begin(0), 2, 0), (0, 1));
}

#[test]
fn a_crowd_of_open_pieces_that_the_neighbour_lacks_lets_it_begin_one() {
    let mut picker = plain(Content { pieces: 4, blocks: 4 }, OPEN);
    meet(&mut picker, &[&[0], &[1], &[2, 3], &[3]]);
    assert_eq!((next(&mut picker, 0, 0), next(&mut picker, 1, 0)), ((0, 0), (1, 0)));
    assert_eq!(next(&mut picker, 2, 3), (2, 0));
}

#[test]
fn the_first_piece_is_any_and_is_completed_first() {
    let content = Content { pieces: 4, blocks: 2 };
    let mut picker = plain(content, Open { open: 8, random: 1, ..OPEN });
    meet(&mut picker, &[&[0, 1, 2, 3], &[2, 3]]);
    // Pieces 0 and 1 are rarer.
    assert_eq!([3, 0, 0].map(|word| next(&mut picker, 0, word)), [(3, 0), (3, 1), (0, 0)]);
    let [first, second] = [0, 1].map(|index| picker.arrived(0, Block { piece: 3, index }).unwrap());
    assert_eq!((first, second), (Came::Stored, Came::Completed));
    assert_eq!([0; 2].map(|_| next(&mut picker, 0, 2)), [(0, 1), (1, 0)]);
}

/// Pieces 0 and 1 are begun, and as rare. Of piece 1 two blocks are held, of piece 0 one is held and two are asked.
#[test]
fn begun_pieces_as_rare_are_told_apart_by_what_they_lack() {
    for (begun, piece) in [(Begun::Least, 0), (Begun::FewestLacking, 1), (Begun::FewestFree, 0)] {
        let mut picker = plain(Content { pieces: 2, blocks: 4 }, Open { begun, ..OPEN });
        meet(&mut picker, &[&[0, 1], &[0], &[1]]);
        for index in 0..2 {
            picker.arrived(2, Block { piece: 1, index }).unwrap();
        }
        assert_eq!([0; 3].map(|_| next(&mut picker, 1, 0)), [(0, 0), (0, 1), (0, 2)]);
        picker.arrived(1, Block { piece: 0, index: 0 }).unwrap();
        assert_eq!(next(&mut picker, 0, 0).0, piece, "{begun:?}");
    }
}

/// A downloader that has four pieces of eight. Slots 0 and 1 show piece 0, and slot 1 alone piece 1.
fn past_the_beginning(order: impl Order + 'static, blocks: u32) -> Plain {
    let content = Content { pieces: 8, blocks };
    let mut picker = plain(content, order);
    meet(&mut picker, &[&[0, 4, 5, 6, 7], &[0, 1, 2, 3]]);
    bring_all_but(&mut picker, 0, content, &[0, 1, 2, 3]);
    picker
}

#[test]
fn libtorrents_order_begins_a_rarer_piece() {
    let mut picker = past_the_beginning(capped(), 4);
    assert_eq!(next(&mut picker, 0, 0), (0, 0));
    let (begun, block) = next(&mut picker, 1, 0);
    assert!(begun != 0 && block == 0);
    assert_eq!([1, 2, u64::MAX].map(|word| next(&mut picker, 1, word)), [(begun, 1), (begun, 2), (begun, 3)]);
}

/// Two neighbours allow three open pieces. With a fourth the begun ones come first, of these the rarest.
#[test]
fn libtorrents_order_goes_on_where_too_many_pieces_are_open() {
    for (is_capped, is_begun) in [(true, true), (false, false)] {
        let content = Content { pieces: 16, blocks: 4 };
        let mut picker = plain(content, Libtorrent::new(1, is_capped));
        meet(&mut picker, &[&[0, 1, 2, 3, 12, 13], &[0, 1, 2, 3, 4]]);
        bring_all_but(&mut picker, 0, content, &[0, 1, 2, 3, 4, 12, 13]);
        (0..4).for_each(|piece| assert_eq!(picker.arrived(0, Block { piece, index: 0 }), Ok(Came::Stored)));
        let (piece, _) = next(&mut picker, 1, 0);
        assert_eq!(piece < 4, is_begun, "{is_capped}");
    }
}

/// 25 neighbours allow 37 open pieces. But 32 of 64 blocks are 32 MiB, so 33 are too many. All show piece 0, and the last alone piece 59.
#[test]
fn libtorrents_order_bounds_the_bytes_of_open_pieces() {
    let content = Content { pieces: 64, blocks: 64 };
    for (begun, expected) in [(32, 59), (33, 0)] {
        let mut picker = plain(content, capped());
        let mut shown: Vec<&[u32]> = vec![&[0]; 24];
        shown.push(&[0, 59]);
        meet(&mut picker, &shown);
        bring_all_but(&mut picker, 0, content, &(0..60).collect::<Vec<_>>());
        (0..begun).for_each(|piece| assert_eq!(picker.arrived(0, Block { piece, index: 0 }), Ok(Came::Stored)));
        assert_eq!(next(&mut picker, 24, 0).0, expected, "{begun}");
    }
}

#[test]
fn libtorrents_order_completes_its_first_pieces() {
    let mut picker = plain(Content { pieces: 8, blocks: 2 }, capped());
    meet(&mut picker, &[&[0, 3, 5], &[0, 3, 5, 6]]);
    assert_eq!([4, 0].map(|word| next(&mut picker, 0, word)), [(5, 0), (5, 1)]);
    assert_eq!([2, 1].map(|word| next(&mut picker, 0, word)), [(3, 0), (3, 1)]);
}

#[test]
fn transmissions_order_takes_what_lacks_fewest_blocks() {
    let mut picker = plain(Content { pieces: 4, blocks: 4 }, Transmission::new(1));
    meet(&mut picker, &[&[0, 1, 2], &[0, 1], &[0]]);
    // Nothing has come, so all lack the same. Piece 2 is the rarest, and what is asked of it doesn't count.
    assert_eq!(next(&mut picker, 0, 0), (2, 0));
    assert_eq!(next(&mut picker, 1, 0), (1, 0));
    picker.arrived(2, Block { piece: 0, index: 0 }).unwrap();
    assert_eq!(next(&mut picker, 0, 0), (0, 1));
    assert_eq!(next(&mut picker, 1, 0), (0, 2));
}

#[test]
fn transmissions_ties_are_each_downloaders_own_and_stay() {
    let first = |peer| {
        let mut picker = plain(Content { pieces: 8, blocks: 4 }, Transmission::new(peer));
        meet(&mut picker, &[&[0, 1, 2, 3, 4, 5, 6, 7]]);
        let asked = [0, 1, 2, 3].map(|word| next(&mut picker, 0, word));
        let piece = asked[0].0;
        assert_eq!(asked, [(piece, 0), (piece, 1), (piece, 2), (piece, 3)]);
        piece
    };
    let pieces: Vec<u32> = (1..20).map(first).collect();
    assert!(pieces.iter().any(|piece| *piece != pieces[0]), "{pieces:?}");
}

#[test]
fn with_one_piece_a_peer_each_has_its_own() {
    let mut picker = plain(Content { pieces: 2, blocks: 4 }, OnePiece { random: 0 });
    meet(&mut picker, &[&[0, 1], &[0, 1], &[0, 1]]);
    let (first, _) = next(&mut picker, 0, 0);
    let second = 1 - first;
    assert_eq!(next(&mut picker, 1, 0), (second, 0));
    assert_eq!((next(&mut picker, 0, 0), next(&mut picker, 1, 0)), ((first, 1), (second, 1)));
    // Nothing is left for the third, so it helps.
    assert_eq!(next(&mut picker, 2, 0).1, 2);
}

#[test]
fn with_one_piece_a_peer_what_a_choked_one_left_is_taken_over() {
    let mut picker = plain(Content { pieces: 8, blocks: 4 }, OnePiece { random: 0 });
    meet(&mut picker, &[&[0], &[0, 1, 2, 3, 4, 5, 6, 7], &[0]]);
    assert_eq!(next(&mut picker, 0, 0), (0, 0));
    assert_ne!(next(&mut picker, 1, 0).0, 0);
    picker.arrived(0, Block { piece: 0, index: 0 }).unwrap();
    picker.choke(0, true).unwrap();
    assert_eq!([0; 2].map(|_| next(&mut picker, 2, 0)), [(0, 1), (0, 2)]);
}

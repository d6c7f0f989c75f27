//! Each call, at each kind of picker, by a torrent of seven pieces.

use piecepick::{hash, hash_four, sys, Answer, Block, Digest, Error, File, Job, Keeps, Kind, Options, PickRule, Picker, Reason};
use std::mem::size_of;
use std::sync::Mutex;
use std::thread;

const BLOCK: usize = 1 << 14;
const PIECE: usize = 2 * BLOCK;
const PIECES: u32 = 7;
const ALL: [u8; 1] = [0b1111_1110];

/// The last piece has one block and a short one.
fn content() -> Vec<u8> {
    (0..6 * PIECE + BLOCK + 100).map(|at| (at * 7 + at / 251) as u8).collect()
}

fn piece(content: &[u8], piece: u32) -> &[u8] {
    content.chunks(PIECE).nth(piece as usize).unwrap()
}

fn sha1(bytes: &[u8]) -> Digest {
    hash(bytes)
}

fn digests(content: &[u8]) -> Vec<Digest> {
    content.chunks(PIECE).map(sha1).collect()
}

fn info(content: &[u8]) -> Vec<u8> {
    let digests = digests(content).concat();
    let head = format!("d6:lengthi{}e4:name4:some12:piece lengthi{PIECE}e6:pieces{}:", content.len(), digests.len());
    [head.as_bytes(), &digests, b"e"].concat()
}

fn metainfo(content: &[u8]) -> Vec<u8> {
    [b"d4:info".as_slice(), &info(content), b"e"].concat()
}

fn picker(keeps: Keeps) -> Picker {
    let content = content();
    let options = Options::new().keeps(keeps).workers(3).random(0);
    Picker::open_parts(PIECE as u32, content.len() as u64, &digests(&content), options).unwrap()
}

/// A worker's peer that has each piece and has unchoked us.
fn with_peer(keeps: Keeps) -> Picker {
    let mut picker = picker(keeps);
    assert_eq!(picker.join(0), Ok(Answer::Joined));
    assert_eq!(picker.bits(0, &ALL), Ok(Answer::Noted { interesting: true }));
    assert_eq!(picker.unchoke(0), Ok(Answer::Quiet));
    picker
}

/// Brings a piece that nobody was asked for, or was.
fn bring(picker: &mut Picker, number: u32, bytes: &[u8]) {
    let blocks = bytes.chunks(BLOCK).count();
    for (index, block) in bytes.chunks(BLOCK).enumerate() {
        let answer = picker.arrived(0, number, (index * BLOCK) as u32, block);
        assert_eq!(answer, Ok(if index + 1 == blocks { Answer::Full } else { Answer::Stored }));
    }
}

#[test]
fn structs_are_those_of_c() {
    assert_eq!(size_of::<sys::piecepick_answer>(), 24);
    assert_eq!(size_of::<sys::piecepick_options>(), 40);
    assert_eq!(size_of::<sys::piecepick_digest>(), 20);
    assert_eq!(piecepick::version(), 10_200);
}

#[test]
fn a_metainfo_file_is_read() {
    let content = content();
    let picker = Picker::open(&metainfo(&content), Options::default()).unwrap();
    assert_eq!((picker.pieces(), picker.workers(), picker.total()), (PIECES, 50, content.len() as u64));
    assert_eq!(picker.name(), b"some");
    assert_eq!(picker.infohash(), sha1(&info(&content)));
    assert_eq!(picker.piece_hash(6), Ok(sha1(piece(&content, 6))));
    assert_eq!(picker.piece_length(6), Ok((BLOCK + 100) as u32));
    assert_eq!(picker.blocks(6), Ok(2));
    assert_eq!(picker.piece_hash(7), Err(Error::Piece));
}

fn listed(length: u64, path: &[&str]) -> File {
    File { length, path: path.iter().map(|name| name.as_bytes().to_vec()).collect() }
}

#[test]
fn files_are_listed() {
    let content = content();
    let picker = Picker::open(&metainfo(&content), Options::default()).unwrap();
    assert_eq!(picker.files(), [listed(content.len() as u64, &["some"])]);
    let files = "d6:lengthi5e4:pathl3:oneeed6:lengthi0e4:pathl0:2:..4:a/b\0eed6:lengthi11e4:pathl4:deep3:twoee";
    let head = format!("d4:infod5:filesl{files}e4:name6:folder12:piece lengthi16e6:pieces20:");
    let picker = Picker::open(&[head.as_bytes(), &[0; 20], b"ee"].concat(), Options::default()).unwrap();
    let expected = [listed(5, &["folder", "one"]), listed(0, &["folder", "", "..", "a/b\0"]), listed(11, &["folder", "deep", "two"])];
    assert_eq!(picker.files(), expected);
    assert_eq!(picker.total(), 16);
}

#[test]
fn a_torrent_of_parts_has_no_name_and_no_files() {
    let picker = picker(Keeps::Nothing);
    assert_eq!((picker.name(), picker.infohash(), picker.files()), (vec![], [0; 20], vec![]));
}

#[test]
fn what_is_wrong_at_open_is_told() {
    let good = metainfo(&content());
    let open = |options| Picker::open(&good, options).map(|_| ()).unwrap_err();
    assert_eq!(Picker::open(b"", Options::new()).map(|_| ()), Err(Error::Bencode));
    assert_eq!(Picker::open(b"i1e", Options::new()).map(|_| ()), Err(Error::NotDictionary));
    assert_eq!(Picker::open(b"de", Options::new()).map(|_| ()), Err(Error::MissingKey));
    assert_eq!(open(Options::new().workers(0)), Error::Worker);
    assert_eq!(open(Options::new().workers(1025)), Error::Worker);
    assert_eq!(open(Options::new().depth(65)), Error::Rules);
    assert_eq!(open(Options::new().deepest(4097)), Error::Rules);
    assert_eq!(open(Options::new().askers(0)), Error::Rules);
    assert_eq!(open(Options::new().open(1025)), Error::Rules);
    assert_eq!(open(Options::new().rush(4097)), Error::Rules);
    assert_eq!(open(Options::new().random(PIECES + 1)), Error::Rules);
    assert_eq!(Picker::open_parts(0, 1, &[[0; 20]], Options::new()).map(|_| ()), Err(Error::PieceLength));
    assert_eq!(Picker::open_parts(1, 0, &[], Options::new()).map(|_| ()), Err(Error::NoContent));
    assert_eq!(Picker::open_parts(1, 2, &[[0; 20]], Options::new()).map(|_| ()), Err(Error::CountMismatch));
    assert_eq!(Error::Worker.to_string(), "no such worker number, or the option workers isn't 1 to 1,024");
}

#[test]
fn a_peer_comes_and_goes() {
    let mut picker = picker(Keeps::Nothing);
    assert_eq!(picker.next(0, 1), Ok(Answer::Refused(Reason::NotJoined)));
    assert_eq!(picker.join(3), Err(Error::Worker));
    assert_eq!(picker.join(0), Ok(Answer::Joined));
    assert_eq!(picker.join(0), Ok(Answer::Refused(Reason::AlreadyJoined)));
    assert_eq!(picker.next(0, 1), Ok(Answer::Choked));
    assert_eq!(picker.unchoke(0), Ok(Answer::Quiet));
    assert_eq!(picker.next(0, 1), Ok(Answer::NothingLeft));
    assert_eq!(picker.have(0, 2), Ok(Answer::Noted { interesting: true }));
    assert_eq!(picker.have(0, PIECES), Err(Error::Piece));
    assert_eq!(picker.bits(0, &ALL), Ok(Answer::Refused(Reason::LateBits)));
    assert_eq!(picker.bits(0, &[0, 0]), Err(Error::BitsLength));
    assert_eq!(picker.haves(0, &[1]), Err(Error::SpareBits));
    assert_eq!(picker.haves(0, &ALL), Ok(Answer::Noted { interesting: true }));
    assert_eq!(picker.availability(5), Ok(1));
    assert_eq!(picker.choke(0), Ok(Answer::Quiet));
    assert_eq!(picker.leave(0), Ok(Answer::Quiet));
    assert_eq!(picker.availability(5), Ok(0));
}

#[test]
fn blocks_are_asked_and_released() {
    let mut picker = with_peer(Keeps::Nothing);
    assert_eq!(picker.depth(0, 2), Ok(Answer::Quiet));
    assert_eq!(picker.depth(0, 501), Ok(Answer::Refused(Reason::WrongDepth)));
    let first = requested(&mut picker, 0, 1);
    let second = requested(&mut picker, 0, 2);
    assert_eq!(picker.next(0, 3).unwrap().kind(), Kind::PipeFull);
    assert_eq!(picker.outstanding(0), Ok(2));
    assert_eq!((picker.outstanding_at(0, 0), picker.outstanding_at(0, 1)), (Ok(first), Ok(second)));
    assert_eq!(picker.outstanding_at(0, 2), Err(Error::Place));
    assert_eq!(picker.release(0, first.piece, first.begin), Ok(Answer::Quiet));
    assert_eq!(picker.release(0, first.piece, first.begin), Ok(Answer::Refused(Reason::NotRequested)));
    assert_eq!(picker.outstanding(0), Ok(1));
}

/// Two peers that have each piece. The first one is asked for the first block of piece 0, and is late with it.
fn with_late(depth: u32) -> Picker {
    let mut picker = with_peer(Keeps::Nothing);
    picker.join(1).unwrap();
    picker.bits(1, &ALL).unwrap();
    picker.unchoke(1).unwrap();
    for worker in 0..2 {
        picker.depth(worker, depth).unwrap();
    }
    assert_eq!(asked_by(&mut picker, 0), (0, 0, PickRule::Rarest));
    assert_eq!(picker.late(0, 0, 0), Ok(Answer::Quiet));
    picker
}

/// The block that is requested next of the worker's peer.
fn requested(picker: &mut Picker, worker: u32, random: u64) -> Block {
    match picker.next(worker, random) {
        Ok(Answer::Request(block)) => block,
        other => panic!("no request: {other:?}"),
    }
}

/// The place of the next request, and its rule.
fn asked_by(picker: &mut Picker, worker: u32) -> (u32, usize, PickRule) {
    let block = requested(picker, worker, 0);
    (block.piece, block.begin as usize, picker.rule(block.piece, block.begin / BLOCK as u32).unwrap())
}

/// The first block of piece 0.
const FIRST: Block = Block { piece: 0, begin: 0, length: BLOCK as u32 };

#[test]
fn a_late_block_is_asked_of_another_peer() {
    let content = content();
    let mut picker = with_late(4);
    assert_eq!((picker.outstanding(0), picker.outstanding_at(0, 0)), (Ok(1), Ok(FIRST)));
    assert_eq!(asked_by(&mut picker, 0), (0, BLOCK, PickRule::Rarest));
    assert_eq!(asked_by(&mut picker, 1), (0, 0, PickRule::Late));
    assert_eq!(picker.arrived(1, 0, 0, &content[..BLOCK]), Ok(Answer::Stored));
    assert_eq!(picker.next(0, 0), Ok(Answer::Cancel(FIRST)));
    assert_eq!(asked_by(&mut picker, 0), (1, 0, PickRule::Rarest));
    assert_eq!(PickRule::Late.to_string(), "another peer is late with it");
}

#[test]
fn a_late_block_comes_after_all() {
    let content = content();
    let mut picker = with_late(4);
    assert_eq!(picker.arrived(0, 0, 0, &content[..BLOCK]), Ok(Answer::Stored));
    assert_eq!(picker.outstanding(0), Ok(0));
    assert_eq!(asked_by(&mut picker, 0), (0, BLOCK, PickRule::Begun));
    assert_eq!(asked_by(&mut picker, 1), (1, 0, PickRule::Rarest));
}

#[test]
fn a_late_block_counts_for_the_depth() {
    let mut picker = with_late(1);
    assert_eq!(picker.next(0, 0), Ok(Answer::PipeFull));
    picker.depth(0, 2).unwrap();
    assert_eq!(asked_by(&mut picker, 0), (0, BLOCK, PickRule::Rarest));
}

#[test]
fn what_is_not_asked_is_not_late() {
    let content = content();
    let mut picker = with_late(4);
    assert_eq!(picker.late(2, 0, 0), Ok(Answer::Refused(Reason::NotJoined)));
    for (worker, piece, begin) in [(1, 0, 0), (0, 0, BLOCK as u32), (0, 0, 1), (0, 1, 0)] {
        assert_eq!(picker.late(worker, piece, begin), Ok(Answer::Refused(Reason::NotRequested)));
    }
    assert_eq!(picker.late(3, 0, 0), Err(Error::Worker));
    assert_eq!(picker.late(0, PIECES, 0), Err(Error::Piece));
    picker.arrived(0, 0, 0, &content[..BLOCK]).unwrap();
    assert_eq!(picker.late(0, 0, 0), Ok(Answer::Refused(Reason::NotRequested)));
}

#[test]
fn late_twice_is_as_once() {
    let content = content();
    let mut picker = with_late(4);
    assert_eq!(picker.late(0, 0, 0), Ok(Answer::Quiet));
    assert_eq!(picker.outstanding(0), Ok(1));
    picker.arrived(1, 0, 0, &content[..BLOCK]).unwrap();
    assert_eq!(picker.next(0, 0), Ok(Answer::Cancel(FIRST)));
    assert_eq!(asked_by(&mut picker, 0), (0, BLOCK, PickRule::Begun));
}

#[test]
fn a_choke_and_a_release_end_a_late_request() {
    for worker in 0..2 {
        let mut picker = with_late(4);
        picker.choke(0).unwrap();
        picker.unchoke(0).unwrap();
        assert_eq!(asked_by(&mut picker, worker), (0, 0, PickRule::Rarest));
        let mut picker = with_late(4);
        assert_eq!(picker.release(0, 0, 0), Ok(Answer::Quiet));
        assert_eq!(picker.late(0, 0, 0), Ok(Answer::Refused(Reason::NotRequested)));
        assert_eq!(picker.outstanding(0), Ok(0));
        assert_eq!(asked_by(&mut picker, worker), (0, 0, PickRule::Rarest));
    }
}

#[test]
fn the_only_peer_is_late_with_the_last_block() {
    let content = content();
    let mut picker = with_peer(Keeps::Nothing);
    let last = PIECES - 1;
    for number in 0..last {
        bring(&mut picker, number, piece(&content, number));
        assert_eq!(picker.settle(number, &sha1(piece(&content, number))), Ok(Answer::Complete));
    }
    let bytes = piece(&content, last);
    assert_eq!(picker.arrived(0, last, BLOCK as u32, &bytes[BLOCK..]), Ok(Answer::Stored));
    assert_eq!(asked_by(&mut picker, 0), (last, 0, PickRule::Begun));
    assert_eq!(picker.late(0, last, 0), Ok(Answer::Quiet));
    assert_eq!(picker.next(0, 0), Ok(Answer::Idle));
    assert_eq!(picker.arrived(0, last, 0, &bytes[..BLOCK]), Ok(Answer::Full));
    assert_eq!(picker.settle(last, &sha1(bytes)), Ok(Answer::Complete));
    assert_eq!((picker.next(0, 0), picker.is_complete()), (Ok(Answer::NothingLeft), true));
}

#[test]
fn endgame_waits_for_a_late_block() {
    let mut picker = with_late(4);
    picker.want(&[0b1000_0000]).unwrap();
    let before = picker.epoch();
    assert_eq!(asked_by(&mut picker, 0), (0, BLOCK, PickRule::Rarest));
    assert_eq!(picker.next(0, 0), Ok(Answer::Idle));
    assert_eq!(picker.epoch(), before);
    assert_eq!(asked_by(&mut picker, 1), (0, 0, PickRule::Late));
    assert!(picker.epoch() > before);
    assert_eq!(asked_by(&mut picker, 1), (0, BLOCK, PickRule::Endgame));
    assert_eq!((picker.next(0, 0), picker.next(1, 0)), (Ok(Answer::Idle), Ok(Answer::Idle)));
    let before = picker.epoch();
    assert_eq!(picker.late(1, 0, 0), Ok(Answer::Quiet));
    assert!(picker.epoch() > before);
}

#[test]
fn a_slow_peer_gets_nothing_urgent() {
    let mut picker = with_peer(Keeps::Nothing);
    picker.set_levels(&[7, 5, 4, 2, 0, 0, 0]).unwrap();
    assert_eq!(picker.reach(0, 4), Ok(Answer::Quiet));
    for number in [2, 2, 3, 3] {
        let block = requested(&mut picker, 0, 1);
        assert_eq!(block.piece, number);
    }
    assert_eq!(picker.next(0, 1), Ok(Answer::Idle));
    assert_eq!(picker.reach(0, 7), Ok(Answer::Quiet));
    assert_eq!(picker.next(0, 1), Ok(Answer::Request(Block { piece: 0, begin: 0, length: BLOCK as u32 })));
    for level in [8, 260, u32::MAX] {
        assert_eq!(picker.reach(0, level), Ok(Answer::Refused(Reason::WrongLevel)));
    }
    assert_eq!(picker.reach(1, 7), Ok(Answer::Refused(Reason::NotJoined)));
    assert_eq!(picker.reach(3, 7), Err(Error::Worker));
    assert_eq!(picker.reach(0, 0), Ok(Answer::Quiet));
    assert_eq!((picker.outstanding(0), picker.next(0, 1)), (Ok(5), Ok(Answer::Idle)));
}

#[test]
fn a_reach_goes_with_its_peer() {
    let mut picker = with_peer(Keeps::Nothing);
    picker.reach(0, 3).unwrap();
    assert_eq!(picker.next(0, 1), Ok(Answer::Idle));
    picker.leave(0).unwrap();
    picker.join(0).unwrap();
    picker.bits(0, &ALL).unwrap();
    picker.unchoke(0).unwrap();
    assert_eq!(picker.next(0, 1).unwrap().kind(), Kind::Request);
}

/// Two peers, and two pieces of two blocks, which both have. The second peer works alone, and has begun piece 0.
fn with_alone() -> Picker {
    let mut picker = Picker::open_parts(PIECE as u32, 2 * PIECE as u64, &[[0; 20]; 2], Options::new().workers(3).random(0)).unwrap();
    for worker in 0..2 {
        come_with_both(&mut picker, worker);
    }
    assert_eq!(picker.alone(1, true), Ok(Answer::Quiet));
    assert_eq!(asked_by(&mut picker, 1), (0, 0, PickRule::Rarest));
    picker
}

fn come_with_both(picker: &mut Picker, worker: u32) {
    picker.join(worker).unwrap();
    picker.bits(worker, &[0b1100_0000]).unwrap();
    picker.unchoke(worker).unwrap();
}

#[test]
fn a_piece_of_a_peer_alone_is_asked_of_nobody_else() {
    let mut picker = with_alone();
    assert_eq!(asked_by(&mut picker, 0), (1, 0, PickRule::Rarest));
    assert_eq!(asked_by(&mut picker, 0), (1, BLOCK, PickRule::Begun));
    assert_eq!(picker.next(0, 0), Ok(Answer::Idle));
    let before = picker.epoch();
    assert_eq!(picker.alone(1, false), Ok(Answer::Quiet));
    assert!(picker.epoch() > before);
    assert_eq!(asked_by(&mut picker, 0), (0, BLOCK, PickRule::Begun));
}

#[test]
fn a_peer_alone_goes_on_with_no_piece_of_others() {
    let mut picker = with_alone();
    assert_eq!(asked_by(&mut picker, 0), (1, 0, PickRule::Rarest));
    assert_eq!(asked_by(&mut picker, 1), (0, BLOCK, PickRule::Begun));
    assert_eq!(picker.next(1, 0), Ok(Answer::Idle));
    // Once each block is requested, endgame shares all pieces.
    assert_eq!(asked_by(&mut picker, 0), (1, BLOCK, PickRule::Begun));
    assert_eq!(asked_by(&mut picker, 0), (0, 0, PickRule::Endgame));
    assert_eq!(asked_by(&mut picker, 1), (1, 0, PickRule::Endgame));
}

#[test]
fn a_choke_and_a_leave_share_the_pieces_of_a_peer_alone() {
    for leaves in [false, true] {
        let mut picker = with_alone();
        assert_eq!(picker.arrived(1, 0, 0, &[0; BLOCK]), Ok(Answer::Stored));
        assert_eq!(asked_by(&mut picker, 0), (1, 0, PickRule::Rarest));
        assert_eq!(asked_by(&mut picker, 0), (1, BLOCK, PickRule::Begun));
        assert_eq!(picker.next(0, 0), Ok(Answer::Idle));
        assert_eq!(if leaves { picker.leave(1) } else { picker.choke(1) }, Ok(Answer::Quiet));
        assert_eq!(asked_by(&mut picker, 0), (0, BLOCK, PickRule::Begun));
    }
}

#[test]
fn the_next_peer_works_with_the_others() {
    let mut picker = with_alone();
    picker.leave(1).unwrap();
    for yes in [true, false] {
        assert_eq!(picker.alone(1, yes), Ok(Answer::Refused(Reason::NotJoined)));
        assert_eq!(picker.alone(3, yes), Err(Error::Worker));
    }
    come_with_both(&mut picker, 1);
    assert_eq!(asked_by(&mut picker, 1), (0, 0, PickRule::Rarest));
    assert_eq!(asked_by(&mut picker, 0), (0, BLOCK, PickRule::Begun));
}

/// Two peers that have each piece, of which nothing is requested.
fn with_both(keeps: Keeps) -> Picker {
    let mut picker = with_peer(keeps);
    picker.join(1).unwrap();
    picker.bits(1, &ALL).unwrap();
    picker.unchoke(1).unwrap();
    picker
}

/// A block of which a request is in flight already.
fn in_flight(piece: u32, begin: usize) -> Result<Answer, Error> {
    Ok(Answer::InFlight(Block { piece, begin: begin as u32, length: BLOCK as u32 }))
}

const NOT_NOW: Result<Answer, Error> = Ok(Answer::Refused(Reason::NotWaiting));

#[test]
fn a_request_that_is_in_flight_already_counts() {
    let content = content();
    let mut picker = with_both(Keeps::Nothing);
    let before = picker.epoch();
    assert_eq!(asked_by(&mut picker, 0), (0, 0, PickRule::Rarest));
    let counted = picker.requested(0, 3, BLOCK as u32);
    assert_eq!((counted, counted.unwrap().kind()), (in_flight(3, BLOCK), Kind::InFlight));
    assert_eq!((picker.outstanding(0), picker.askers(3, 1), picker.epoch()), (Ok(2), Ok(1), before));
    assert_eq!(picker.outstanding_at(0, 1).map(Answer::InFlight), counted);
    // Nobody else is asked for it, and a cancel is due where another peer brings it.
    assert_eq!(asked_by(&mut picker, 1), (0, BLOCK, PickRule::Begun));
    assert_eq!(asked_by(&mut picker, 1), (3, 0, PickRule::Begun));
    assert_eq!(asked_by(&mut picker, 1), (1, 0, PickRule::Rarest));
    assert_eq!(picker.arrived(1, 3, BLOCK as u32, &piece(&content, 3)[BLOCK..]), Ok(Answer::Stored));
    assert_eq!(picker.next(0, 0), Ok(Answer::Cancel(Block { piece: 3, begin: BLOCK as u32, length: BLOCK as u32 })));
}

#[test]
fn endgame_begins_by_what_is_in_flight_already() {
    let mut picker = with_both(Keeps::Nothing);
    picker.want(&[0b1000_0000]).unwrap();
    let before = picker.epoch();
    assert_eq!((picker.requested(0, 0, 0), picker.epoch()), (in_flight(0, 0), before));
    assert_eq!(picker.requested(0, 0, BLOCK as u32), in_flight(0, BLOCK));
    assert!(picker.epoch() > before);
    assert_eq!(asked_by(&mut picker, 1), (0, 0, PickRule::Endgame));
}

#[test]
fn what_may_not_be_requested_now_is_not_counted() {
    let content = content();
    let second = BLOCK as u32;
    let mut picker = with_both(Keeps::Begun);
    assert_eq!(picker.requested(2, 0, 0), Ok(Answer::Refused(Reason::NotJoined)));
    assert_eq!(picker.requested(0, 0, 1), Ok(Answer::Refused(Reason::NoSuchBlock)));
    assert_eq!(picker.requested(0, 0, PIECE as u32), Ok(Answer::Refused(Reason::NoSuchBlock)));
    assert_eq!(picker.requested(3, PIECES, 0), Err(Error::Worker));
    assert_eq!(picker.requested(2, PIECES, 0), Err(Error::Piece));
    picker.depth(0, 1).unwrap();
    assert_eq!(picker.requested(0, 0, 0), in_flight(0, 0));
    assert_eq!(picker.requested(0, 0, second), NOT_NOW); // as many as may be are in flight
    picker.depth(0, 4).unwrap();
    assert_eq!((picker.requested(0, 0, 0), picker.requested(1, 0, 0)), (NOT_NOW, NOT_NOW));
    picker.late(0, 0, 0).unwrap();
    assert_eq!((picker.requested(0, 0, 0), picker.requested(1, 0, 0)), (NOT_NOW, in_flight(0, 0)));
    picker.arrived(1, 0, 0, &content[..BLOCK]).unwrap();
    assert_eq!((picker.requested(1, 0, 0), picker.requested(0, 1, 0)), (NOT_NOW, NOT_NOW)); // held, and a cancel is due
    assert_eq!(picker.next(0, 0), Ok(Answer::Cancel(FIRST)));
    picker.set_level(1, 5).unwrap();
    picker.reach(0, 4).unwrap();
    assert_eq!(picker.requested(0, 1, 0), NOT_NOW);
    picker.set_level(1, 0).unwrap();
    assert_eq!(picker.requested(0, 1, 0), NOT_NOW);
    picker.set_level(1, 4).unwrap();
    picker.lack(0, 1).unwrap();
    assert_eq!(picker.requested(0, 1, 0), NOT_NOW);
    picker.have(0, 1).unwrap();
    picker.alone(1, true).unwrap();
    assert_eq!((picker.requested(1, 5, 0), picker.requested(0, 5, second)), (in_flight(5, 0), NOT_NOW));
    assert_eq!((picker.requested(0, 1, 0), picker.requested(1, 1, second)), (in_flight(1, 0), NOT_NOW));
    picker.choke(0).unwrap();
    assert_eq!(picker.requested(0, 1, 0), NOT_NOW);
    assert_eq!(with_both(Keeps::Journal).requested(0, 0, 0), Err(Error::Keeps));
}

#[test]
fn what_is_gone_or_bad_is_lacking() {
    let mut picker = Picker::open_parts(PIECE as u32, 2 * PIECE as u64, &[[0; 20]; 2], Options::new().workers(1)).unwrap();
    picker.join(0).unwrap();
    for begin in [0, BLOCK as u32] {
        picker.arrived(0, 0, begin, &[0; BLOCK]).unwrap();
    }
    assert!(picker.is_waiting(0).unwrap());
    let before = picker.epoch();
    assert_eq!(picker.discard(0, BLOCK as u32), Ok(Answer::Failed));
    assert!(picker.epoch() > before && !picker.is_waiting(0).unwrap());
    assert_eq!(picker.sender(0, 0), Ok(0));
    assert_eq!(picker.sender(0, 1), Err(Error::NotHeld));
    assert_eq!(picker.discard(0, 1), Ok(Answer::Refused(Reason::NoSuchBlock)));
    assert_eq!(picker.lose(0), Ok(Answer::Failed));
    assert_eq!(picker.sender(0, 0), Err(Error::NotHeld));
    assert_eq!(picker.lose(2), Err(Error::Piece));
    assert_eq!(picker.discard(2, 0), Err(Error::Piece));
    let mut journal = Picker::open_parts(PIECE as u32, 2 * PIECE as u64, &[[0; 20]; 2], Options::new().keeps(Keeps::Journal)).unwrap();
    assert_eq!(journal.lose(0), Err(Error::Keeps));
    assert_eq!(journal.discard(0, 0), Err(Error::Keeps));
}

#[test]
fn a_dropped_piece_is_asked_of_another_peer() {
    let mut picker = with_peer(Keeps::Nothing);
    picker.want(&[0b1000_0000]).unwrap();
    picker.join(1).unwrap();
    picker.have(1, 0).unwrap();
    picker.unchoke(1).unwrap();
    let blocks = [0, BLOCK as u32].map(|begin| Answer::Request(Block { piece: 0, begin, length: BLOCK as u32 }));
    assert_eq!(blocks.map(|_| picker.next(0, 1).unwrap()), blocks);
    let before = picker.epoch();
    assert_eq!(picker.lack(0, 0), Ok(Answer::Noted { interesting: false }));
    assert!(picker.epoch() > before);
    assert_eq!((picker.outstanding(0), picker.availability(0)), (Ok(0), Ok(1)));
    assert_eq!(picker.next(0, 1), Ok(Answer::NothingLeft));
    assert_eq!(blocks.map(|_| picker.next(1, 1).unwrap()), blocks);
    assert_eq!(picker.have(0, 0), Ok(Answer::Noted { interesting: true }));
    assert_eq!(picker.availability(0), Ok(2));
    assert_eq!(picker.lack(3, 0), Err(Error::Worker));
    assert_eq!(picker.lack(0, PIECES), Err(Error::Piece));
}

#[test]
fn a_piece_that_was_never_shown_may_be_dropped() {
    let mut picker = picker(Keeps::Nothing);
    assert_eq!(picker.lack(0, 4), Ok(Answer::Refused(Reason::NotJoined)));
    picker.join(0).unwrap();
    assert_eq!(picker.lack(0, 4), Ok(Answer::Noted { interesting: false }));
    assert_eq!(picker.bits(0, &ALL), Ok(Answer::Refused(Reason::LateBits)));
    assert_eq!(picker.have(0, 2), Ok(Answer::Noted { interesting: true }));
    assert_eq!(picker.lack(0, 4), Ok(Answer::Noted { interesting: true }));
    assert_eq!((picker.availability(2), picker.availability(4)), (Ok(1), Ok(0)));
}

#[test]
fn the_usual_depth_is_sixteen() {
    let mut picker = Picker::open_parts(20 * BLOCK as u32, 20 * BLOCK as u64, &[[0; 20]], Options::new()).unwrap();
    picker.join(0).unwrap();
    picker.have(0, 0).unwrap();
    picker.unchoke(0).unwrap();
    let asked = (0..20).take_while(|word| picker.next(0, *word).unwrap().kind() == Kind::Request).count();
    assert_eq!((asked, picker.next(0, 0).unwrap().kind()), (16, Kind::PipeFull));
}

/// Two peers that show these pieces of forty, of a block each, and have unchoked us.
fn with_two_peers(options: Options, flags: [u8; 5]) -> Picker {
    let mut picker = Picker::open_parts(BLOCK as u32, 40 * BLOCK as u64, &[[0; 20]; 40], options.workers(2).depth(64)).unwrap();
    for worker in 0..2 {
        picker.join(worker).unwrap();
        picker.bits(worker, &flags).unwrap();
        picker.unchoke(worker).unwrap();
    }
    picker
}

/// How many blocks the peer is asked for until it has none.
fn asked(picker: &mut Picker, worker: u32) -> usize {
    let asked = (0..).take_while(|word| picker.next(worker, *word).unwrap().kind() == Kind::Request).count();
    assert_eq!(picker.next(worker, 0), Ok(Answer::Idle));
    asked
}

#[test]
fn endgame_asks_few_blocks_of_a_peer() {
    let usual = Options::new();
    for (options, again) in [(usual, 32), (usual.rush(0), 0), (usual.rush(1), 1), (usual.rush(33), 33), (usual.rush(4096), 40)] {
        let mut picker = with_two_peers(options, [0xff; 5]);
        assert_eq!((asked(&mut picker, 0), asked(&mut picker, 1)), (40, again));
    }
    // With one in flight it gets a second one once the first came from the other peer.
    let mut picker = with_two_peers(usual.rush(1), [0xff; 5]);
    assert_eq!((asked(&mut picker, 0), asked(&mut picker, 1)), (40, 1));
    let block = picker.outstanding_at(1, 0).unwrap();
    assert_eq!(picker.arrived(0, block.piece, block.begin, &[0; BLOCK]), Ok(Answer::Full));
    assert_eq!(picker.next(1, 0), Ok(Answer::Cancel(block)));
    assert_eq!(asked(&mut picker, 1), 1);
}

#[test]
fn endgame_waits_for_what_is_shown() {
    let usual = Options::new();
    for (options, again) in [(usual, 3), (usual.shown(true), 3), (usual.shown(false), 0)] {
        let mut picker = with_two_peers(options, [0b1110_0000, 0, 0, 0, 0]);
        assert_eq!((asked(&mut picker, 0), asked(&mut picker, 1)), (3, again));
    }
}

#[test]
fn a_block_from_another_peer_is_cancelled() {
    let content = content();
    let mut picker = with_peer(Keeps::Nothing);
    picker.join(1).unwrap();
    let Block { piece: number, begin, length } = requested(&mut picker, 0, 1);
    let bytes = &piece(&content, number)[begin as usize..][..length as usize];
    assert_eq!(picker.arrived(1, number, begin, &bytes[1..]), Ok(Answer::Refused(Reason::WrongLength)));
    assert_eq!(picker.arrived(1, number, begin, bytes), Ok(Answer::Stored));
    assert_eq!(picker.arrived(1, number, begin, bytes), Ok(Answer::Dropped));
    assert_eq!(picker.sender(number, begin / BLOCK as u32), Ok(1));
    assert_eq!(picker.sender(number, 1 - begin / BLOCK as u32), Err(Error::NotHeld));
    assert_eq!(picker.sender(number, 2), Err(Error::Block));
    assert_eq!(picker.next(0, 2), Ok(Answer::Cancel(Block { piece: number, begin, length })));
}

#[test]
fn levels_say_what_comes_first() {
    let mut picker = with_peer(Keeps::Nothing);
    assert_eq!(picker.level(3), Ok(4));
    assert_eq!(picker.set_level(3, 7), Ok(Answer::Quiet));
    assert_eq!(picker.set_level(3, 8), Ok(Answer::Refused(Reason::WrongLevel)));
    assert_eq!(picker.set_level(PIECES, 7), Err(Error::Piece));
    let block = requested(&mut picker, 0, 1);
    assert_eq!((picker.level(3), block.piece), (Ok(7), 3));
    assert_eq!(picker.set_levels(&[0; 6]), Ok(Answer::Refused(Reason::WrongCount)));
    let before = picker.epoch();
    assert_eq!(picker.set_levels(&[0; 7]), Ok(Answer::Quiet));
    assert!(picker.epoch() > before && picker.has_wanted() && !picker.is_complete());
    assert_eq!(picker.want(&[0b0100_0000]), Ok(Answer::Quiet));
    assert_eq!((picker.level(1), picker.level(3), picker.has_wanted()), (Ok(4), Ok(0), false));
    assert_eq!(picker.set_in_order(true), Ok(Answer::Quiet));
    assert!(picker.is_in_order());
    assert_eq!(picker.set_in_order(false), Ok(Answer::Quiet));
    assert!(!picker.is_in_order());
}

#[test]
fn some_levels_come_in_order() {
    let mut picker = with_peer(Keeps::Nothing);
    picker.set_levels(&[4, 4, 4, 4, 4, 5, 5]).unwrap();
    assert_eq!(picker.order_from(), 8);
    assert_eq!(picker.set_in_order_from(5), Ok(Answer::Quiet));
    assert_eq!((picker.order_from(), picker.is_in_order()), (5, false));
    for number in [5, 5, 6, 6] {
        let block = requested(&mut picker, 0, 6);
        assert_eq!(block.piece, number);
    }
    // All are as rare here, and the word names the first one of them that isn't in order.
    assert_eq!(picker.next(0, 3), Ok(Answer::Request(Block { piece: 3, begin: 0, length: BLOCK as u32 })));
    assert_eq!(picker.set_in_order_from(1), Ok(Answer::Quiet));
    assert_eq!((picker.order_from(), picker.is_in_order()), (1, true));
    assert_eq!(picker.next(0, 3), Ok(Answer::Request(Block { piece: 0, begin: 0, length: BLOCK as u32 })));
    for level in [9, 260, u32::MAX] {
        assert_eq!(picker.set_in_order_from(level), Ok(Answer::Refused(Reason::WrongLevel)));
    }
    assert_eq!(picker.order_from(), 1);
}

#[test]
fn the_newest_order_holds() {
    let mut picker = picker(Keeps::Nothing);
    for (rising, level) in [(true, 0), (false, 8)] {
        assert_eq!(picker.set_in_order_from(5), Ok(Answer::Quiet));
        assert_eq!(picker.set_in_order(rising), Ok(Answer::Quiet));
        assert_eq!((picker.order_from(), picker.is_in_order()), (level, rising));
    }
}

/// The piece of the next request, and its rule.
fn ruled(picker: &mut Picker, worker: u32) -> (u32, PickRule) {
    let block = requested(picker, worker, 1);
    (block.piece, picker.rule(block.piece, block.begin / BLOCK as u32).unwrap())
}

#[test]
fn a_request_tells_its_rule() {
    let content = content();
    let mut picker = Picker::open_parts(PIECE as u32, content.len() as u64, &digests(&content), Options::new()).unwrap();
    for worker in 0..2 {
        picker.join(worker).unwrap();
        picker.bits(worker, &ALL).unwrap();
        picker.unchoke(worker).unwrap();
    }
    assert_eq!(ruled(&mut picker, 0), (1, PickRule::Random));
    assert_eq!(ruled(&mut picker, 0), (1, PickRule::Begun));
    bring(&mut picker, 1, piece(&content, 1));
    assert_eq!(picker.settle(1, &sha1(piece(&content, 1))), Ok(Answer::Complete));
    assert_eq!(ruled(&mut picker, 0), (2, PickRule::Rarest));
    picker.set_in_order(true).unwrap();
    assert_eq!([(); 2].map(|()| ruled(&mut picker, 0)), [(0, PickRule::InOrder); 2]);
    // Both blocks of the one piece that is wanted are in flight at the other peer.
    picker.want(&[0b1000_0000]).unwrap();
    assert_eq!([(); 2].map(|()| ruled(&mut picker, 1)), [(0, PickRule::Endgame); 2]);
    assert_eq!((picker.rule(PIECES, 0), picker.rule(0, 2)), (Err(Error::Piece), Err(Error::Block)));
    assert_eq!((picker.askers(0, 0), picker.askers(1, 0), picker.askers(0, 2)), (Ok(2), Ok(0), Err(Error::Block)));
    assert_eq!((picker.is_interesting(0), picker.is_interesting(picker.workers())), (Ok(true), Err(Error::Worker)));
    picker.want(&[0]).unwrap();
    assert_eq!(picker.is_interesting(0), Ok(false));
    assert_eq!(PickRule::Endgame.to_string(), "endgame");
}

#[test]
fn the_caller_hashes_what_it_keeps() {
    let content = content();
    let mut picker = with_peer(Keeps::Nothing);
    assert_eq!(picker.settle(1, &[0; 20]), Err(Error::NotWaiting));
    bring(&mut picker, 1, piece(&content, 1));
    assert_eq!(picker.is_waiting(1), Ok(true));
    assert_eq!(picker.settle(1, &[0; 20]), Ok(Answer::Failed));
    bring(&mut picker, 1, piece(&content, 1));
    assert_eq!(picker.settle(1, &sha1(piece(&content, 1))), Ok(Answer::Complete));
    assert_eq!((picker.has_piece(1), picker.has_piece(2)), (Ok(true), Ok(false)));
    assert_eq!(picker.verdict(2, true), Err(Error::NotWaiting));
    bring(&mut picker, 2, piece(&content, 2));
    assert_eq!(picker.verdict(2, false), Ok(Answer::Failed));
    bring(&mut picker, 2, piece(&content, 2));
    assert_eq!((picker.verdict(2, true), picker.has_piece(2)), (Ok(Answer::Complete), Ok(true)));
    assert_eq!(picker.job_take(1).map(|_| ()), Err(Error::Keeps));
    assert_eq!(picker.settle_now(1), Err(Error::Keeps));
    assert_eq!(picker.read(1), Err(Error::Keeps));
    assert_eq!(picker.audit(), Err(Error::Keeps));
}

/// A block comes to a client that keeps the content itself: it writes the bytes where they are stored, and at no other answer.
fn bring_to(file: &mut [u8], picker: &mut Picker, worker: u32, number: u32, begin: usize, block: &[u8]) -> Answer {
    let answer = picker.arrived(worker, number, begin as u32, block).unwrap();
    if matches!(answer, Answer::Stored | Answer::Full) {
        file[begin..begin + block.len()].copy_from_slice(block);
    }
    answer
}

#[test]
fn a_bad_copy_that_comes_second_is_thrown_away() {
    let content = content();
    let (good, bad) = (piece(&content, 1), [0; BLOCK]);
    let (mut picker, mut file) = (with_peer(Keeps::Nothing), [0; PIECE]);
    picker.join(1).unwrap();
    assert_eq!(bring_to(&mut file, &mut picker, 0, 1, 0, &good[..BLOCK]), Answer::Stored);
    assert_eq!(bring_to(&mut file, &mut picker, 1, 1, 0, &bad), Answer::Dropped);
    assert_eq!(bring_to(&mut file, &mut picker, 0, 1, BLOCK, &good[BLOCK..]), Answer::Full);
    assert_eq!(bring_to(&mut file, &mut picker, 1, 1, BLOCK, &bad), Answer::Dropped);
    assert_eq!((picker.sender(1, 0), picker.sender(1, 1)), (Ok(0), Ok(0)));
    assert_eq!(picker.settle(1, &sha1(&file)), Ok(Answer::Complete));
}

#[test]
fn a_bad_copy_that_comes_first_names_its_sender() {
    let content = content();
    let (good, bad) = (piece(&content, 1), [0; BLOCK]);
    let (mut picker, mut file) = (with_peer(Keeps::Nothing), [0; PIECE]);
    picker.join(1).unwrap();
    assert_eq!(bring_to(&mut file, &mut picker, 1, 1, 0, &bad), Answer::Stored);
    assert_eq!(bring_to(&mut file, &mut picker, 0, 1, 0, &good[..BLOCK]), Answer::Dropped);
    assert_eq!(bring_to(&mut file, &mut picker, 0, 1, BLOCK, &good[BLOCK..]), Answer::Full);
    assert_eq!((picker.sender(1, 0), picker.sender(1, 1)), (Ok(1), Ok(0)));
    assert_eq!(picker.settle(1, &sha1(&file)), Ok(Answer::Failed));
}

#[test]
fn what_a_disk_has_is_restored() {
    let content = content();
    let mut picker = picker(Keeps::Nothing);
    let whole = piece(&content, 6);
    assert_eq!(picker.restore(2, 6, whole, &sha1(whole)), Ok(Answer::Refused(Reason::NotJoined)));
    picker.join(2).unwrap();
    assert_eq!(picker.restore(2, 6, &whole[1..], &sha1(whole)), Err(Error::Length));
    assert_eq!(picker.restore(2, 6, whole, &[0; 20]), Ok(Answer::Failed));
    assert_eq!(picker.restore(2, 6, whole, &sha1(whole)), Ok(Answer::Complete));
    assert_eq!(picker.restore(2, 6, whole, &sha1(whole)), Err(Error::Begun));
    assert_eq!(with_peer(Keeps::Begun).restore(0, 6, whole, &sha1(whole)), Err(Error::Keeps));
}

#[test]
fn what_a_disk_has_is_resumed() {
    let mut picker = picker(Keeps::Nothing);
    assert_eq!(picker.resume(2, 6, true), Ok(Answer::Refused(Reason::NotJoined)));
    picker.join(2).unwrap();
    assert_eq!(picker.resume(2, picker.pieces(), true), Err(Error::Piece));
    assert_eq!(picker.resume(2, 6, false), Ok(Answer::Failed));
    assert_eq!(picker.resume(2, 6, true), Ok(Answer::Complete));
    assert_eq!(picker.resume(2, 6, true), Err(Error::Begun));
    assert_eq!((picker.has_piece(6), picker.sender(6, 0)), (Ok(true), Ok(2)));
    assert_eq!(with_peer(Keeps::Begun).resume(0, 6, true), Err(Error::Keeps));
}

#[test]
fn a_block_is_received_without_its_bytes() {
    let mut picker = with_peer(Keeps::Nothing);
    assert_eq!(picker.received(0, 1, 0, BLOCK - 1), Ok(Answer::Refused(Reason::WrongLength)));
    assert_eq!(picker.received(0, 1, 5, BLOCK), Ok(Answer::Refused(Reason::NoSuchBlock)));
    assert_eq!(picker.received(0, 1, 0, BLOCK), Ok(Answer::Stored));
    assert_eq!(picker.received(0, 1, 0, BLOCK), Ok(Answer::Dropped));
    assert_eq!(picker.received(0, 1, BLOCK as u32, BLOCK), Ok(Answer::Full));
    assert_eq!((picker.is_waiting(1), picker.verdict(1, true)), (Ok(true), Ok(Answer::Complete)));
    assert_eq!(with_peer(Keeps::Begun).received(0, 1, 0, BLOCK), Err(Error::Keeps));
}

#[test]
fn a_job_hashes_away_from_its_picker() {
    let content = content();
    let mut picker = with_peer(Keeps::Begun);
    assert_eq!(picker.job_take(1).map(|_| ()), Err(Error::NotWaiting));
    bring(&mut picker, 1, piece(&content, 1));
    let job = picker.job_take(1).unwrap();
    assert_eq!(picker.job_settle(&job), Err(Error::NotHashed));
    let job = thread::spawn(move || hashed(job)).join().unwrap();
    assert_eq!(picker.job_settle(&job), Ok(Answer::Complete));
    assert_eq!(picker.job_settle(&job), Err(Error::NotWaiting));
    drop(picker);
    assert_eq!(job.read_into(&mut [0; 3]), Err(Error::Length));
    assert_eq!((job.piece(), job.read().as_slice()), (1, piece(&content, 1)));
}

fn hashed(mut job: Job) -> Job {
    job.hash().unwrap();
    job
}

#[test]
fn a_stale_verdict_is_refused() {
    let content = content();
    let mut picker = with_peer(Keeps::Begun);
    bring(&mut picker, 0, piece(&content, 1));
    let (first, second) = (picker.job_take(0).unwrap(), picker.job_take(0).unwrap());
    assert_eq!(picker.job_settle(&hashed(first)), Ok(Answer::Failed));
    bring(&mut picker, 0, piece(&content, 0));
    assert_eq!(picker.job_settle(&hashed(second)), Err(Error::Stale));
    assert_eq!(picker.is_waiting(0), Ok(true));
}

#[test]
fn a_journal_is_audited() {
    let content = content();
    let mut picker = with_peer(Keeps::Journal);
    for number in 0..PIECES {
        bring(&mut picker, number, piece(&content, number));
        assert_eq!(picker.read(number), Err(Error::Incomplete));
        assert_eq!(picker.settle_now(number), Ok(Answer::Complete));
        assert_eq!(picker.read(number).unwrap(), piece(&content, number));
    }
    assert_eq!(picker.read_into(0, &mut [0; 1]), Err(Error::Length));
    assert!(picker.is_complete() && picker.has_wanted());
    assert_eq!(picker.audit(), Ok(()));
}

#[test]
fn threads_share_a_picker_by_a_mutex() {
    let content = content();
    let picker = Mutex::new(with_peer(Keeps::Begun));
    thread::scope(|scope| {
        for number in 0..PIECES {
            let (picker, bytes) = (&picker, piece(&content, number));
            scope.spawn(move || {
                bring(&mut picker.lock().unwrap(), number, bytes);
                let job = picker.lock().unwrap().job_take(number).unwrap();
                assert_eq!(picker.lock().unwrap().job_settle(&hashed(job)), Ok(Answer::Complete));
            });
        }
    });
    assert!(picker.into_inner().unwrap().is_complete());
}

#[test]
fn messages_are_hashed_alone_and_four_at_once() {
    let abc = [0xa9, 0x99, 0x3e, 0x36, 0x47, 0x06, 0x81, 0x6a, 0xba, 0x3e, 0x25, 0x71, 0x78, 0x50, 0xc2, 0x6c, 0x9c, 0xd0, 0xd8, 0x9d];
    assert_eq!(hash(b"abc"), abc);
    assert_eq!(hash_four([b"abc"; 4]), [abc; 4]);
    assert_eq!(hash_four([b"abc", b"", b"abc", b"abcd"])[2], abc);
}

//! Depth by rate, by the table that the tests of all languages read.

use piecepick::{DepthByRate, Options};

const TABLE: &str = include_str!("../../depths.txt");

/// Makes the call of an event. Gives the depth that it answers, if it answers one, and else the one that is so then.
fn play(peer: &mut DepthByRate, event: &str) -> u32 {
    let (name, numbers) = event.split_once(' ').unwrap_or((event, ""));
    let numbers: Vec<u64> = numbers.split_whitespace().map(|word| word.parse().unwrap()).collect();
    match (name, numbers.as_slice()) {
        ("begin", &[now, depth, deepest]) => {
            let options = Options::new().depth(depth.try_into().unwrap()).deepest(deepest.try_into().unwrap());
            *peer = DepthByRate::new(&options, now);
        }
        ("came", &[now, bytes]) => peer.came(bytes, now),
        ("timed_out", &[]) => peer.timed_out(),
        ("endgame", &[flag]) => peer.set_in_endgame(flag == 1),
        ("follow", &[now]) => return peer.follow(now),
        _ => panic!("no event: {event}"),
    }
    peer.depth()
}

#[test]
fn each_depth_is_that_of_the_table() {
    let mut peer = DepthByRate::new(&Options::new(), 0);
    let lines = TABLE.lines().enumerate().filter(|(_, line)| !line.is_empty() && !line.starts_with('#'));
    for (at, line) in lines {
        let (event, wanted) = line.split_once(" = ").unwrap();
        let wanted: u32 = wanted.parse().unwrap();
        assert_eq!((play(&mut peer, event), peer.depth()), (wanted, wanted), "line {}: {line}", at + 1);
    }
}

#[test]
fn the_usual_depths_are_16_to_500() {
    let mut peer = DepthByRate::new(&Options::new(), 0);
    assert_eq!(peer.depth(), 16);
    peer.came(1 << 40, 0);
    assert_eq!(peer.follow(0), 500);
}

//! One seed and one downloader: how long it takes follows from the lines.

use swarm::peer::Line;
use swarm::queue::{Micros, SECOND};
use swarm::rule::Content;
use swarm::rules;
use swarm::setup::{Guest, Setup};
use swarm::swarm::run;

const CONTENT: Content = Content { pieces: 30, blocks: 16 };

fn setup(seed: Line, guest: Line) -> Setup {
    Setup {
        content: CONTENT,
        seeds: vec![seed],
        seed_gives: None,
        heeds_cancels: true,
        guests: vec![Guest { at: 0, line: guest }],
        stays: None,
        have_delay: 1_000,
        sampled: SECOND,
        patience: 100 * SECOND,
    }
}

fn line(up: Micros, down: Micros, delay: Micros) -> Line {
    Line { up, down, delay }
}

/// The time of each rule but those whose depth is another.
fn times(setup: &Setup) -> Vec<(&'static str, Vec<Micros>)> {
    let rules = rules::all().into_iter().filter(|rule| rule.depths().is_none() && !rule.name.contains("depth"));
    rules.map(|rule| (rule.name, run(setup, &rule, 1).unwrap().times)).collect()
}

/// Interest, unchoke and the first request take a delay each, then the blocks leave without a gap, and the last one takes a delay.
#[test]
fn the_line_up_of_the_seed_is_the_limit() {
    let setup = setup(line(50_000, 1_000, 20_000), line(1_000, 10_000, 10_000));
    let expected = 4 * 30_000 + CONTENT.all_blocks() * 50_000;
    for rule in rules::all() {
        assert_eq!(run(&setup, &rule, 1).unwrap().times, [expected], "{}", rule.name);
    }
}

/// Each of two seeds sends half of the blocks. Of the last two, which come at once, one waits for the line down.
#[test]
fn two_seeds_take_half_the_time() {
    let seed = line(50_000, 1_000, 20_000);
    let setup = Setup { seeds: vec![seed; 2], ..setup(seed, line(1_000, 10_000, 10_000)) };
    let run = run(&setup, &rules::named("ours, 8 open").unwrap(), 1).unwrap();
    assert_eq!(run.times, [4 * 30_000 + CONTENT.all_blocks() / 2 * 50_000 + 10_000]);
    assert!((setup.bound().seeds - 12_000_000.0).abs() < 1.0);
}

/// The first byte takes four delays, then the blocks come through the line down without a gap.
#[test]
fn the_line_down_is_the_limit() {
    let setup = setup(line(1_000, 1_000, 20_000), line(1_000, 50_000, 10_000));
    let expected = 4 * 30_000 + CONTENT.all_blocks() * 50_000;
    for (name, times) in times(&setup) {
        assert_eq!(times, [expected], "{name}");
    }
}

/// Five blocks are asked at a time. Each block is asked for when the fifth before it came, and comes two delays and its own time later.
#[test]
fn the_depth_is_the_limit() {
    let (up, delay, depth) = (1_000, 30_000, 5);
    let setup = setup(line(up, 1_000, 20_000), line(1_000, 100, 10_000));
    let expected = 4 * delay + depth * up + (CONTENT.all_blocks() / depth - 1) * (2 * delay + up);
    for (name, times) in times(&setup) {
        assert_eq!(times, [expected], "{name}");
    }
}

/// The pipe of 64 holds more than the way there and back, which takes 60 blocks.
#[test]
fn a_deeper_pipe_fills_the_line() {
    let setup = setup(line(1_000, 1_000, 20_000), line(1_000, 1_000, 10_000));
    let rule = rules::named("ours, depth 64").unwrap();
    assert_eq!(run(&setup, &rule, 1).unwrap().times, [4 * 30_000 + CONTENT.all_blocks() * 1_000]);
}

/// The three bounds by hand: 480 blocks through the slower of the lines, and over what both send up.
#[test]
fn the_bounds_are_those_of_the_lines() {
    let bound = setup(line(30_000, 1_000, 0), line(60_000, 10_000, 0)).bound();
    assert_eq!((bound.down, bound.seeds), (4_800_000.0, 14_400_000.0));
    assert!((bound.all - 9_600_000.0).abs() < 1.0, "{bound:?}");
    assert_eq!(bound.greatest(), 14_400_000.0);
}

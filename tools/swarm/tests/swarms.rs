//! Whole swarms: they are the same each time, lose nothing, and don't beat their bounds.

use swarm::meter::Outcome;
use swarm::rules;
use swarm::scenario::{named, Scenario, ALL};
use swarm::swarm::run;

fn small(name: &str) -> Scenario {
    let mut scenario = named(name).unwrap();
    scenario.guests = 40;
    scenario.content.pieces = 480 / scenario.content.blocks;
    scenario
}

fn outcome(scenario: &Scenario, rule: &str, draw: u64) -> Outcome {
    run(&scenario.setup(draw), &rules::named(rule).unwrap(), draw).unwrap()
}

/// All that doesn't depend on the machine, nor on how often a picker was asked in vain.
fn facts(outcome: Outcome) -> Outcome {
    Outcome { spent: Default::default(), ..outcome }
}

/// All but those that need the feature `libtorrent`, and each of them once.
#[test]
fn the_rules_of_each_scenario_are_there() {
    for scenario in ALL {
        for (place, name) in scenario.rules.iter().enumerate() {
            let is_linked = rules::LINKED.contains(name);
            assert!(rules::named(name).is_some() || is_linked && !cfg!(feature = "libtorrent"), "{}: {name}", scenario.name);
            assert!(!scenario.rules[..place].contains(name), "{}: {name}", scenario.name);
        }
    }
}

/// Who follows which rule of a mix.
#[test]
fn a_mix_has_its_share() {
    for mix in rules::mixes() {
        let share: u32 = mix.name.split_once(" of 10").unwrap().0.rsplit(' ').next().unwrap().parse().unwrap();
        assert_eq!((0..100).filter(|&peer| mix.is_mixed_in(peer)).count() as u32, 10 * share, "{}", mix.name);
    }
}

#[test]
fn the_same_draw_gives_the_same_run() {
    for rule in ["ours", "random"] {
        let runs = [1, 1, 2].map(|draw| facts(outcome(&small("steady"), rule, draw)));
        assert_eq!(runs[0], runs[1]);
        assert_ne!(runs[0].times, runs[2].times);
    }
}

/// Two programs that choose by the same rules, ties among them, make the same requests throughout a swarm.
#[test]
fn the_library_and_a_control_with_its_ties_agree() {
    for (ours, control) in rules::TWINS {
        for name in ["flash", "fast", "steady", "leaves", "short"] {
            let scenario = small(name);
            let runs = [ours, control].map(|rule| facts(outcome(&scenario, rule, 3)));
            assert!(runs[0].requests > 0);
            assert_eq!(runs[0], runs[1], "{control}, {name}");
        }
    }
}

/// Strict priority is written twice: as an order of its own, and as the rule `open` with none.
#[test]
fn with_0_open_a_swarm_is_strict() {
    for name in ["flash", "fast", "steady", "leaves", "short", "long"] {
        let scenario = small(name);
        let runs = ["rarest, ties of ours", "0 open"].map(|rule| facts(outcome(&scenario, rule, 3)));
        assert_eq!(runs[0], runs[1], "{name}");
    }
}

/// Pieces of one block are never open, so all that differs is which piece is rarest.
#[test]
fn with_pieces_of_one_block_open_pieces_make_no_difference() {
    let runs = ["0 open", "8 open", "16 open", "8 open, fewest lacking"].map(|rule| facts(outcome(&small("short"), rule, 3)));
    assert!(runs.iter().all(|run| *run == runs[0]));
}

#[test]
fn more_pieces_are_begun_where_more_may_be_open() {
    let scenario = small("flash");
    let [strict, open] = ["0 open", "8 open"].map(|rule| outcome(&scenario, rule, 1));
    assert!(1.0 <= strict.begun() && strict.begun() < open.begun(), "{}, {}", strict.begun(), open.begun());
    assert!(open.begun() <= open.begun.most.into() && open.begun.most <= scenario.content.pieces);
}

#[test]
fn each_peer_gets_each_block_and_none_is_lost_on_the_way() {
    for rule in rules::all() {
        for name in ["flash", "fast", "steady"] {
            let scenario = small(name);
            let run = outcome(&scenario, rule.name, 1);
            let blocks = run.blocks;
            assert_eq!(run.times.len(), 40, "{}, {name}", rule.name);
            assert_eq!(blocks.received - blocks.twice, 40 * scenario.content.all_blocks(), "{}, {name}", rule.name);
            assert_eq!(blocks.sent, blocks.received + blocks.lost + blocks.under_way, "{}, {name}", rule.name);
            assert!(run.requests >= blocks.received, "{}, {name}", rule.name);
            assert!(run.ends.len() == 40 && run.ends.iter().max() <= run.times.last(), "{}, {name}", rule.name);
        }
    }
}

#[test]
fn no_swarm_beats_its_bound() {
    for rule in rules::all() {
        for name in ["flash", "fast"] {
            let scenario = small(name);
            let bound = scenario.setup(1).bound().greatest();
            let end = outcome(&scenario, rule.name, 1).end;
            assert!(end as f64 > bound, "{}, {name}: {end} at a bound of {bound}", rule.name);
        }
    }
}

/// The seed leaves before all is out. What somebody has comes to everybody all the same. An endgame comes where it waits for no more than that:
/// each peer gets a block twice or more, and otherwise hardly anybody one.
#[test]
fn a_piece_that_is_nowhere_holds_no_endgame_up() {
    let scenario = small("leaves");
    let mut setup = scenario.setup(1);
    setup.seed_gives = Some(scenario.content.all_blocks() * 9 / 10);
    let [shown, all] = ["ours, 8 open", "ours, 8 open, awaits all"].map(|rule| run(&setup, &rules::named(rule).unwrap(), 1).unwrap());
    for outcome in [&shown, &all] {
        let last = outcome.samples.last().unwrap();
        assert!(outcome.missing > 0 && outcome.times.is_empty());
        assert_eq!(last.copies, u64::from(last.peers * (scenario.content.pieces - outcome.missing)));
    }
    assert!(shown.blocks.twice > 40 && all.blocks.twice < 10, "{:?}, {:?}", shown.blocks, all.blocks);
}

#[test]
fn with_one_asker_few_blocks_come_twice() {
    let scenario = small("flash");
    let [one, two, all] = ["ours, 1 asker", "ours", "ours, no bound"].map(|rule| outcome(&scenario, rule, 1).blocks.twice);
    assert!(one < two && two < all, "{one}, {two}, {all}");
}

/// Where seeds pass over cancels, most of what endgame asks again comes twice, and takes its time. Without endgame the last blocks wait for the
/// slow seed.
#[test]
fn a_bound_on_endgame_saves_blocks_and_time() {
    let mut scenario = named("deaf").unwrap();
    scenario.content.pieces = 400;
    let rules = ["ours, 8 open, depth 500, rush 0", "ours, 8 open, depth 500", "ours, 8 open, depth 500, any rush"];
    let [none, usual, any] = rules.map(|rule| outcome(&scenario, rule, 1));
    assert!(none.blocks.twice == 0 && usual.blocks.twice > 0 && any.blocks.twice > 10 * usual.blocks.twice);
    assert!(usual.times < any.times && any.times < none.times, "{:?}", [usual.times, any.times, none.times]);
}

#[test]
fn a_swarm_without_its_seed_stops_where_pieces_are_gone() {
    let run = outcome(&small("leaves"), "ours, in order", 1);
    assert!(run.missing > 0 && run.times.is_empty() && run.spread.is_none());
    let sent_at_most = small("leaves").content.all_blocks() * 110 / 100;
    assert!(u64::from(30 - run.missing) * 16 <= sent_at_most);
}

#[test]
fn pieces_are_out_when_the_seed_has_sent_them() {
    let run = outcome(&small("flash"), "ours", 1);
    let spread = run.spread.unwrap();
    assert!(spread.sent >= small("flash").content.all_blocks());
    assert!(spread.at <= run.end);
    assert_eq!(run.samples.last().map(|sample| sample.rarest), Some(41));
}

/// The seed alone would take the time of all blocks of all peers.
#[test]
fn peers_give_each_other_most_of_what_they_get() {
    let scenario = small("flash");
    let setup = scenario.setup(1);
    let alone = 40 * scenario.content.all_blocks() * setup.seeds[0].up;
    for rule in ["ours", "rarest", "random"] {
        let end = outcome(&scenario, rule, 1).end;
        assert!(end < alone / 4, "{rule}: {end} of {alone}");
    }
}

/// Of two downloaders there are two pairs while both are here and lack something. Nobody is interested in one that has nothing.
#[test]
fn pairs_are_those_of_connected_downloaders() {
    let mut scenario = small("flash");
    scenario.guests = 2;
    let mut setup = scenario.setup(1);
    setup.sampled = 100_000;
    setup.guests.iter_mut().for_each(|guest| guest.at = 0);
    let run = run(&setup, &rules::named("ours").unwrap(), 1).unwrap();
    for sample in run.samples.iter().filter(|sample| sample.at > 0) {
        assert_eq!((sample.pairs, sample.downloaders), if sample.downloaders == 2 { (2, 2) } else { (0, sample.downloaders) });
        assert!(sample.interested <= sample.pairs);
        assert!(sample.interested == 0 || sample.copies > u64::from(scenario.content.pieces));
    }
    assert!([0, 2].iter().all(|count| run.samples.iter().any(|sample| sample.pairs == 2 && sample.interested == *count)));
    assert!((0.0..=100.0).contains(&run.interest()));
}

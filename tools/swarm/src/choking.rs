//! Whom a peer serves: tit for tat, and the turns of a seed (Cohen 2003; BEP 3).

use crate::queue::Micros;

/// How many interested neighbours are unchoked at a time. One of them is the optimistic one.
pub const UNCHOKED: usize = 4;

/// A neighbour that is interested in us.
#[derive(Clone, Copy, Debug)]
pub struct Rival {
    /// The slot of the neighbour.
    pub slot: u8,
    /// The blocks that came from it in the last 20 seconds.
    pub received: u32,
    /// Since when it is unchoked, if it is.
    pub unchoked_at: Option<Micros>,
}

/// Whom to unchoke.
#[derive(Clone, Debug, PartialEq, Eq)]
pub struct Decision {
    /// These slots and no others.
    pub unchoked: Vec<u8>,
    /// The one of them that is unchoked whatever it gives.
    pub optimistic: Option<u8>,
}

/// A downloader unchokes those that gave most, and one more. The rivals stand in a random order, which breaks ties. The optimistic one stays
/// until the turn comes to another, unless it earned its place or lost its interest.
pub fn tit_for_tat(rivals: &[Rival], optimistic: Option<u8>, is_turn: bool) -> Decision {
    let mut by_rate: Vec<&Rival> = rivals.iter().collect();
    by_rate.sort_by_key(|rival| std::cmp::Reverse(rival.received));
    let mut unchoked: Vec<u8> = by_rate.iter().take(UNCHOKED - 1).map(|rival| rival.slot).collect();
    let is_other = |slot: &u8| !unchoked.contains(slot);
    let stays = optimistic.filter(|slot| is_other(slot) && rivals.iter().any(|rival| rival.slot == *slot));
    let another = rivals.iter().map(|rival| rival.slot).find(|slot| is_other(slot) && Some(*slot) != optimistic);
    let optimistic = if is_turn { another.or(stays) } else { stays.or(another) };
    unchoked.extend(optimistic);
    Decision { unchoked, optimistic }
}

/// A seed gives the place of the neighbour that was unchoked longest to another one. The rivals stand in a random order.
pub fn in_turns(rivals: &[Rival]) -> Decision {
    let mut kept: Vec<(Micros, u8)> = rivals.iter().filter_map(|rival| Some((rival.unchoked_at?, rival.slot))).collect();
    kept.sort_by_key(|&(since, _)| std::cmp::Reverse(since));
    let (newer, older) = kept.split_at(kept.len().min(UNCHOKED - 1));
    let choked = rivals.iter().filter(|rival| rival.unchoked_at.is_none()).map(|rival| rival.slot);
    let slots = newer.iter().map(|&(_, slot)| slot).chain(choked).chain(older.iter().map(|&(_, slot)| slot));
    Decision { unchoked: slots.take(UNCHOKED).collect(), optimistic: None }
}

#[cfg(test)]
mod tests {
    use super::*;

    fn rivals(received: &[u32]) -> Vec<Rival> {
        received.iter().enumerate().map(|(slot, &received)| Rival { slot: slot as u8, received, unchoked_at: None }).collect()
    }

    fn decision(unchoked: &[u8], optimistic: Option<u8>) -> Decision {
        Decision { unchoked: unchoked.to_vec(), optimistic }
    }

    #[test]
    fn the_three_that_gave_most_are_unchoked_and_one_more() {
        let decided = tit_for_tat(&rivals(&[1, 9, 0, 7, 8, 2]), None, false);
        assert_eq!(decided, decision(&[1, 4, 3, 0], Some(0)));
    }

    #[test]
    fn the_optimistic_one_stays_until_its_turn_ends() {
        let rivals = rivals(&[1, 9, 0, 7, 8, 2]);
        assert_eq!(tit_for_tat(&rivals, Some(5), false), decision(&[1, 4, 3, 5], Some(5)));
        assert_eq!(tit_for_tat(&rivals, Some(5), true), decision(&[1, 4, 3, 0], Some(0)));
        assert_eq!(tit_for_tat(&rivals, Some(0), true), decision(&[1, 4, 3, 2], Some(2)));
    }

    #[test]
    fn an_optimistic_one_that_gives_most_leaves_its_place_to_another() {
        assert_eq!(tit_for_tat(&rivals(&[3, 9, 2, 7, 1]), Some(1), false), decision(&[1, 3, 0, 2], Some(2)));
    }

    #[test]
    fn an_optimistic_one_without_interest_is_replaced() {
        assert_eq!(tit_for_tat(&rivals(&[3, 9, 2, 7, 1]), Some(9), false), decision(&[1, 3, 0, 2], Some(2)));
    }

    #[test]
    fn the_only_one_left_stays_optimistic_at_its_turn() {
        assert_eq!(tit_for_tat(&rivals(&[3, 9, 2, 7]), Some(2), true), decision(&[1, 3, 0, 2], Some(2)));
        assert_eq!(tit_for_tat(&rivals(&[3, 9]), None, true), decision(&[1, 0], None));
        assert_eq!(tit_for_tat(&[], None, true), decision(&[], None));
    }

    fn served(unchoked_at: &[Option<Micros>]) -> Vec<u8> {
        let rivals = unchoked_at.iter().enumerate();
        let rivals: Vec<Rival> = rivals.map(|(slot, &unchoked_at)| Rival { slot: slot as u8, received: 0, unchoked_at }).collect();
        in_turns(&rivals).unchoked
    }

    #[test]
    fn a_seed_drops_the_one_that_was_unchoked_longest() {
        assert_eq!(served(&[Some(20), None, Some(10), Some(40), None, Some(30)]), [3, 5, 0, 1]);
    }

    #[test]
    fn a_seed_drops_nobody_where_nobody_waits() {
        assert_eq!(served(&[Some(20), Some(10), Some(40), Some(30)]), [2, 3, 0, 1]);
        assert_eq!(served(&[Some(20), None, None]), [0, 1, 2]);
        assert_eq!(served(&[None, None, None, None, None]), [0, 1, 2, 3]);
    }
}

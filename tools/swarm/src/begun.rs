//! How many pieces a downloader has begun, whatever its picker is: some block of them is held or asked, and they aren't had.

/// The blocks of each piece that are held or asked, counted.
#[derive(Clone, Debug, Default)]
pub struct Begun {
    /// How often blocks of the piece are held or asked.
    blocks: Vec<u32>,
    count: u32,
}

impl Begun {
    /// Nothing is begun.
    pub fn new(pieces: u32) -> Begun {
        Begun { blocks: vec![0; pieces as usize], count: 0 }
    }

    /// A block of the piece is asked, or came.
    pub fn add(&mut self, piece: u32) {
        let blocks = &mut self.blocks[piece as usize];
        *blocks += 1;
        self.count += u32::from(*blocks == 1);
    }

    /// A block of the piece is no longer asked.
    pub fn remove(&mut self, piece: u32) {
        if let Some(blocks) = self.blocks[piece as usize].checked_sub(1) {
            self.blocks[piece as usize] = blocks;
            self.count -= u32::from(blocks == 0);
        }
    }

    /// The piece is had. Nothing of it counts any more.
    pub fn finish(&mut self, piece: u32) {
        let blocks = std::mem::take(&mut self.blocks[piece as usize]);
        self.count -= u32::from(blocks > 0);
    }

    /// How many pieces are begun.
    pub fn count(&self) -> u32 {
        self.count
    }
}

/// What the begun pieces were at all requests of a swarm.
#[derive(Clone, Copy, Debug, Default, PartialEq, Eq)]
pub struct BegunAtRequests {
    pub sum: u64,
    pub most: u32,
}

impl BegunAtRequests {
    /// So many were begun when a request was made.
    pub fn note(&mut self, count: u32) {
        self.sum += u64::from(count);
        self.most = self.most.max(count);
    }
}

#[cfg(test)]
mod tests {
    use super::*;

    #[test]
    fn a_piece_is_begun_from_its_first_block_to_its_last() {
        let mut begun = Begun::new(3);
        begun.add(1);
        begun.add(1);
        begun.add(2);
        assert_eq!(begun.count(), 2);
        begun.remove(1);
        assert_eq!(begun.count(), 2);
        begun.finish(1);
        begun.remove(2);
        assert_eq!(begun.count(), 0);
        begun.remove(1);
        assert_eq!(begun.count(), 0);
    }

    #[test]
    fn sum_and_greatest_are_noted() {
        let mut noted = BegunAtRequests::default();
        [2, 5, 3].into_iter().for_each(|count| noted.note(count));
        assert_eq!(noted, BegunAtRequests { sum: 10, most: 5 });
    }
}

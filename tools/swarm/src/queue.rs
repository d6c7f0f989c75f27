//! What is to happen, by its time. What was put first comes first among events of one time.

use std::cmp::Ordering;
use std::collections::BinaryHeap;

/// Microseconds since the run began.
pub type Micros = u64;

/// A second.
pub const SECOND: Micros = 1_000_000;

#[derive(Clone, Debug)]
struct Entry<E> {
    at: Micros,
    sequence: u64,
    event: E,
}

impl<E> Entry<E> {
    fn key(&self) -> (Micros, u64) {
        (self.at, self.sequence)
    }
}

impl<E> PartialEq for Entry<E> {
    fn eq(&self, other: &Entry<E>) -> bool {
        self.key() == other.key()
    }
}

impl<E> Eq for Entry<E> {}

impl<E> PartialOrd for Entry<E> {
    fn partial_cmp(&self, other: &Entry<E>) -> Option<Ordering> {
        Some(self.cmp(other))
    }
}

/// The standard heap gives the greatest entry first, so an earlier one is greater.
impl<E> Ord for Entry<E> {
    fn cmp(&self, other: &Entry<E>) -> Ordering {
        other.key().cmp(&self.key())
    }
}

/// Events in the order of their times.
#[derive(Clone, Debug)]
pub struct Queue<E> {
    heap: BinaryHeap<Entry<E>>,
    sequence: u64,
    now: Micros,
}

impl<E> Default for Queue<E> {
    fn default() -> Queue<E> {
        Queue { heap: BinaryHeap::new(), sequence: 0, now: 0 }
    }
}

impl<E> Queue<E> {
    /// The time of the event that was taken last.
    pub fn now(&self) -> Micros {
        self.now
    }

    /// How many events were put so far.
    pub fn count(&self) -> u64 {
        self.sequence
    }

    /// The event is to happen so long from now.
    pub fn put(&mut self, after: Micros, event: E) {
        self.heap.push(Entry { at: self.now + after, sequence: self.sequence, event });
        self.sequence += 1;
    }

    /// The next event. It is its time now.
    pub fn take(&mut self) -> Option<E> {
        let entry = self.heap.pop()?;
        self.now = entry.at;
        Some(entry.event)
    }

    /// The events that wait, in no order.
    pub fn waiting(&self) -> impl Iterator<Item = &E> {
        self.heap.iter().map(|entry| &entry.event)
    }
}

#[cfg(test)]
mod tests {
    use super::*;

    #[test]
    fn events_come_by_time_and_then_as_they_were_put() {
        let mut queue = Queue::default();
        for (after, name) in [(5, "c"), (1, "a"), (5, "d"), (3, "b"), (5, "e")] {
            queue.put(after, name);
        }
        assert_eq!((queue.take(), queue.now()), (Some("a"), 1));
        queue.put(4, "f");
        let rest: Vec<_> = std::iter::from_fn(|| queue.take().map(|name| (queue.now(), name))).collect();
        assert_eq!(rest, [(3, "b"), (5, "c"), (5, "d"), (5, "e"), (5, "f")]);
        assert_eq!(queue.count(), 6);
    }
}

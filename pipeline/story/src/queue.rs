//! The queue that a month comes by: it delivers every hour at least once, some of them more often, and in no order.
use crate::random::Random;

/// Of a hundred hours, how many come three times, and how many twice.
const THREE_TIMES: usize = 4;
const TWICE: usize = 30;
/// Once in so many times a message is delivered alone, and else two at once: of these once in so many times, where that can be, the same one twice.
const ALONE: usize = 4;
const THE_SAME: usize = 2;

/// What is still to be delivered.
pub struct Queue {
    /// The hours, the next one last.
    left: Vec<usize>,
    random: Random,
}

impl Queue {
    /// The queue of so many hours; the seed decides the rest.
    pub fn new(hours: usize, seed: u64) -> Self {
        let mut queue = Self {
            left: Vec::new(),
            random: Random::new(seed),
        };
        for hour in 0..hours {
            for _ in 0..queue.some_times() {
                queue.put(hour);
            }
        }
        queue
    }

    fn some_times(&mut self) -> usize {
        match self.random.below(100) {
            share if share < THREE_TIMES => 3,
            share if share < THREE_TIMES + TWICE => 2,
            _ => 1,
        }
    }

    /// Puts an hour in at any place.
    pub fn put(&mut self, hour: usize) {
        let place = self.random.between(0, self.left.len());
        self.left.push(hour);
        let last = self.left.len() - 1;
        self.left.swap(place, last);
    }

    /// How many times an hour is still to be delivered.
    pub fn times(&self, hour: usize) -> usize {
        self.left.iter().filter(|&&other| other == hour).count()
    }

    /// Delivers the next hour, or two hours at once.
    pub fn deliver(&mut self) -> Option<Vec<usize>> {
        let hour = self.left.pop()?;
        let mut hours = vec![hour];
        if !self.random.one_in(ALONE) {
            hours.extend(self.beside(hour));
        }
        Some(hours)
    }

    /// What is delivered at once with an hour.
    fn beside(&mut self, hour: usize) -> Option<usize> {
        let same = self.left.iter().position(|&other| other == hour);
        match same {
            Some(place) if self.random.one_in(THE_SAME) => Some(self.left.swap_remove(place)),
            _ => self.left.pop(),
        }
    }
}

#[cfg(test)]
mod tests {
    use super::*;

    const HOURS: usize = pivotshade::Table::HOURS;

    fn delivered(seed: u64) -> Vec<Vec<usize>> {
        let mut queue = Queue::new(HOURS, seed);
        std::iter::from_fn(|| queue.deliver()).collect()
    }

    #[test]
    fn every_hour_is_delivered_at_least_once_and_some_more_often() {
        let hours = delivered(1).concat();
        let times = |hour| hours.iter().filter(|&&other| other == hour).count();
        let times: Vec<usize> = (0..HOURS).map(times).collect();
        let queue = Queue::new(HOURS, 1);
        assert!((0..HOURS).all(|hour| queue.times(hour) == times[hour]));
        let having = |wanted| times.iter().filter(|&&times| times == wanted).count();
        assert_eq!(having(1) + having(2) + having(3), HOURS);
        assert!((HOURS / 5..HOURS / 2).contains(&having(2)));
        assert!((1..HOURS / 10).contains(&having(3)));
    }

    #[test]
    fn they_come_in_no_order_and_the_same_one_also_at_once() {
        let deliveries = delivered(1);
        assert!(deliveries.iter().any(|hours| hours.len() == 1));
        let mut twos = deliveries.iter().filter(|hours| hours.len() == 2);
        assert!(twos.any(|hours| hours[0] == hours[1]));
        let steps = deliveries.concat();
        let down = steps.windows(2).filter(|two| two[1] < two[0]).count();
        assert!((steps.len() / 3..2 * steps.len() / 3).contains(&down));
    }

    #[test]
    fn what_is_put_in_again_is_delivered_again() {
        let mut queue = Queue::new(1, 1);
        while queue.deliver().is_some() {}
        queue.put(0);
        assert_eq!(queue.deliver(), Some(vec![0]));
        assert_eq!(queue.deliver(), None);
    }
}

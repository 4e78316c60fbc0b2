//! Sums of rain that the story keeps for itself, to hold the workers' totals to.
use crate::words::millimetres;

/// A total for each cell, in hundredths of a millimetre.
pub struct Ledger(Vec<u64>);

impl Ledger {
    /// One of so many cells, in which nothing is.
    pub fn new(cells: usize) -> Self {
        Self(vec![0; cells])
    }

    /// Adds a map, so many times.
    pub fn add(&mut self, map: &[u32], times: usize) {
        for (total, &rain) in self.0.iter_mut().zip(map) {
            let added = u64::from(rain).checked_mul(times as u64);
            *total = added
                .and_then(|added| total.checked_add(added))
                .expect("a month of 32 bits an hour fits in 64");
        }
    }

    /// The totals.
    pub fn totals(&self) -> &[u64] {
        &self.0
    }

    /// The rain of all cells together.
    pub fn in_all(&self) -> u128 {
        self.0.iter().copied().map(u128::from).sum()
    }

    /// Whether these are its totals; where not, which cell differs first, and by how much.
    pub fn compare(&self, totals: &[u64]) -> Result<(), String> {
        if totals.len() != self.0.len() {
            return Err(format!(
                "the table has {} cells and not {}",
                totals.len(),
                self.0.len()
            ));
        }
        let pairs = self.0.iter().zip(totals).enumerate();
        let mut differ = pairs.filter(|(_, (right, total))| right != total);
        let (cell, (&right, &total)) = match differ.next() {
            Some(first) => first,
            None => return Ok(()),
        };
        let by = millimetres(total.abs_diff(right).into());
        let way = match total > right {
            true => "much",
            false => "little",
        };
        Err(format!(
            "the total of cell {cell} is {}, {by} too {way}; {} cells more are wrong",
            millimetres(total.into()),
            differ.count()
        ))
    }
}

#[cfg(test)]
mod tests {
    use super::*;

    fn ledger() -> Ledger {
        let mut ledger = Ledger::new(3);
        ledger.add(&[0, 250, u32::MAX], 1);
        ledger.add(&[7, 250, u32::MAX], 2);
        ledger
    }

    #[test]
    fn each_cell_is_summed_for_itself() {
        let most = 3 * u64::from(u32::MAX);
        assert_eq!(ledger().totals(), [14, 750, most]);
        assert_eq!(ledger().in_all(), 764 + u128::from(most));
    }

    #[test]
    fn the_first_wrong_cell_is_named() {
        let right = ledger().0;
        assert_eq!(ledger().compare(&right), Ok(()));
        let words = |totals: &[u64]| ledger().compare(totals).unwrap_err();
        assert_eq!(words(&right[1..]), "the table has 2 cells and not 3");
        assert_eq!(
            words(&[14, 1_000, right[2]]),
            "the total of cell 1 is 10.00 mm, 2.50 mm too much; 0 cells more are wrong"
        );
        assert_eq!(
            words(&[13, 0, 0]),
            "the total of cell 0 is 0.13 mm, 0.01 mm too little; 2 cells more are wrong"
        );
    }
}

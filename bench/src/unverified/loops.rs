//! Whether every atom of a set reaches every atom of it over edges inside the set.

/// Edges between the places of a set's atoms, of which there are at most 128: for each place those that an edge comes from, as bits.
pub struct Edges {
    into: Vec<u128>,
}

impl Edges {
    pub fn none(places: usize) -> Edges {
        Edges { into: vec![0; places] }
    }

    pub fn add(&mut self, from: usize, to: usize) {
        self.into[to] |= 1 << from;
    }

    /// The first place reaches every place, itself included, and is reached from every place.
    pub fn is_loop(&self) -> bool {
        let all = u128::MAX >> (128 - self.into.len());
        self.reaching_first() == all && self.reached_from_first() == all
    }

    /// The places that reach the first.
    fn reaching_first(&self) -> u128 {
        let mut found = self.into[0];
        let mut left = found;
        while left != 0 {
            let new = self.into[left.trailing_zeros() as usize] & !found;
            left = left & (left - 1) | new;
            found |= new;
        }
        found
    }

    /// The places that the first reaches.
    fn reached_from_first(&self) -> u128 {
        let mut found = self.next(1);
        loop {
            let more = found | self.next(found);
            if more == found {
                return found;
            }
            found = more;
        }
    }

    /// The places that an edge comes to from one of these.
    fn next(&self, from: u128) -> u128 {
        let bits = self.into.iter().enumerate().filter(|(_, into)| **into & from != 0);
        bits.fold(0, |found, (place, _)| found | 1 << place)
    }
}

#[cfg(test)]
mod tests {
    use super::*;

    fn is_loop(places: usize, edges: &[(usize, usize)]) -> bool {
        let mut all = Edges::none(places);
        edges.iter().for_each(|&(from, to)| all.add(from, to));
        all.is_loop()
    }

    #[test]
    fn loops() {
        assert!(is_loop(1, &[(0, 0)]) && !is_loop(1, &[]));
        assert!(is_loop(2, &[(0, 1), (1, 0)]));
        assert!(!is_loop(2, &[(0, 0), (1, 1)]) && !is_loop(2, &[(0, 0), (0, 1)]) && !is_loop(2, &[(1, 0), (1, 1)]));
        let ring: Vec<(usize, usize)> = (0..65).map(|place| (place, (place + 1) % 65)).collect();
        let turned: Vec<(usize, usize)> = ring.iter().map(|&(from, to)| (to, from)).collect();
        assert!(is_loop(65, &ring) && is_loop(65, &turned));
        for cut in 0..65 {
            assert!(!is_loop(65, &[&ring[..cut], &ring[cut + 1..]].concat()), "{cut}");
        }
    }
}

//! The set A of the `a` step, as a least set, by naive iteration.

use super::LARGEST;

/// A set of literals over the variables.
#[derive(Clone)]
pub struct Literals {
    inside: Vec<bool>,
}

fn place(literal: i32) -> usize {
    (literal + LARGEST) as usize
}

impl Literals {
    pub fn of(literals: &[i32]) -> Literals {
        let mut set = Literals { inside: vec![false; place(LARGEST) + 1] };
        for literal in literals {
            set.add(*literal);
        }
        set
    }

    fn add(&mut self, literal: i32) {
        self.inside[place(literal)] = true;
    }

    pub fn holds(&self, literal: i32) -> bool {
        self.inside[place(literal)]
    }

    /// Whether a literal and its complement are both inside.
    pub fn contradictory(&self) -> bool {
        (1..=LARGEST).any(|variable| self.holds(variable) && self.holds(-variable))
    }
}

/// "the least set that contains L and, for each literal of a live nogood whose other literals are all in A, the complement of that literal"
pub fn closure(live: &[&[i32]], start: &[i32]) -> Literals {
    let mut inside = Literals::of(start);
    while enlarge(live, &mut inside) {}
    inside
}

/// One round over all live nogoods; whether the set grew.
fn enlarge(live: &[&[i32]], inside: &mut Literals) -> bool {
    let mut grown = false;
    for nogood in live {
        for literal in *nogood {
            let others = nogood.iter().all(|other| other == literal || inside.holds(*other));
            if others && !inside.holds(-literal) {
                inside.add(-literal);
                grown = true;
            }
        }
    }
    grown
}

#[cfg(test)]
mod tests {
    use super::*;

    #[test]
    fn follows() {
        let live: [&[i32]; 3] = [&[1, -2], &[2, 3], &[-1, 4, 5]];
        let set = closure(&live, &[1]);
        assert!(set.holds(2) && set.holds(-3) && !set.holds(-4) && !set.holds(-5));
        assert!(!set.contradictory());
        assert!(closure(&live, &[1, 3]).contradictory());
        assert!(closure(&[&[7], &[-7]], &[]).contradictory());
        assert!(!closure(&[&[]], &[]).contradictory());
    }
}

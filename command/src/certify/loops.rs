//! Loops that a model of the completion rests on without reason: the answer to a model that is no answer set.

use std::collections::HashMap;

use super::completion::Completion;

/// The loops, each ascending, of atoms that hold in a model and are not in the least model of its reduct, and none of whose external bodies
/// holds. There is one at least where the model is one of the completion.
pub fn unfounded_loops(completion: &Completion, holds: &dyn Fn(i32) -> bool, unfounded: &[i32]) -> Vec<Vec<i32>> {
    let places: HashMap<i32, usize> = unfounded.iter().enumerate().map(|(place, atom)| (*atom, place)).collect();
    // By place, those unfounded atoms that stand positively in a body that holds and gives the atom.
    let needs: Vec<Vec<usize>> = unfounded
        .iter()
        .map(|atom| {
            let bodies = completion.bodies_of(*atom).map(|body| &completion.bodies[body]);
            let held = bodies.filter(|body| body.iter().all(|literal| holds(literal.abs()) == (*literal > 0)));
            held.flatten().filter_map(|literal| places.get(literal).copied()).collect()
        })
        .collect();
    let components = components(&needs);
    let inside = |component: &&Vec<usize>| {
        let member = |place: &usize| component.contains(place);
        component.iter().all(|place| needs[*place].iter().all(member) && !needs[*place].is_empty())
    };
    let of = |component: &Vec<usize>| {
        let mut atoms: Vec<i32> = component.iter().map(|place| unfounded[*place]).collect();
        atoms.sort_unstable();
        atoms
    };
    components.iter().filter(inside).map(of).collect()
}

/// The strongly connected components of a graph (Tarjan's algorithm, without recursion).
pub fn components(edges: &[Vec<usize>]) -> Vec<Vec<usize>> {
    let mut search = Search { index: vec![None; edges.len()], low: vec![0; edges.len()], ..Search::default() };
    for start in 0..edges.len() {
        if search.index[start].is_none() {
            search.from(start, edges);
        }
    }
    search.found
}

#[derive(Default)]
struct Search {
    index: Vec<Option<usize>>,
    low: Vec<usize>,
    on_stack: Vec<usize>,
    count: usize,
    found: Vec<Vec<usize>>,
}

impl Search {
    fn from(&mut self, start: usize, edges: &[Vec<usize>]) {
        let mut path = vec![(start, 0)];
        self.enter(start);
        while let Some((node, next)) = path.pop() {
            match edges[node].get(next) {
                Some(&to) => {
                    path.push((node, next + 1));
                    match self.index[to] {
                        None => {
                            self.enter(to);
                            path.push((to, 0));
                        }
                        Some(index) if self.on_stack.contains(&to) => self.low[node] = self.low[node].min(index),
                        Some(_) => {}
                    }
                }
                None => self.leave(node, path.last().map(|(before, _)| *before)),
            }
        }
    }

    fn enter(&mut self, node: usize) {
        self.index[node] = Some(self.count);
        self.low[node] = self.count;
        self.count += 1;
        self.on_stack.push(node);
    }

    fn leave(&mut self, node: usize, before: Option<usize>) {
        if let Some(before) = before {
            self.low[before] = self.low[before].min(self.low[node]);
        }
        if Some(self.low[node]) == self.index[node] {
            let from = self.on_stack.iter().rposition(|entered| *entered == node).unwrap_or(0);
            self.found.push(self.on_stack.split_off(from));
        }
    }
}

#[cfg(test)]
mod tests {
    use super::super::completion::tests::completion;
    use super::*;

    #[test]
    fn components_of_a_graph() {
        let mut found = components(&[vec![1], vec![2], vec![0, 3], vec![4], vec![3], vec![5], vec![]]);
        found.iter_mut().for_each(|component| component.sort_unstable());
        found.sort();
        assert_eq!(found, [vec![0, 1, 2], vec![3, 4], vec![5], vec![6]]);
    }

    #[test]
    fn loops_that_rest_on_themselves() {
        // 1 :- 2. 2 :- 1. 3 :- 4, 1. 4 :- 3. 5 :- 5. 5 :- 1, not 2. 6 :- not 1.
        let lines =
            ["1 0 1 1 0 1 2", "1 0 1 2 0 1 1", "1 0 1 3 0 2 4 1", "1 0 1 4 0 1 3", "1 0 1 5 0 1 5", "1 0 1 5 0 2 1 -2", "1 0 1 6 0 1 -1"];
        let completion = completion(&lines);
        let mut loops = unfounded_loops(&completion, &|atom| atom < 6, &[1, 2, 3, 4, 5]);
        loops.sort();
        // {3, 4} leans on 1: its turn comes when {1, 2} is gone; the body of 5 that leans on 1 does not hold
        assert_eq!(loops, [vec![1, 2], vec![5]]);
        assert_eq!(unfounded_loops(&completion, &|_| false, &[]), [[0; 0]; 0]);
    }
}

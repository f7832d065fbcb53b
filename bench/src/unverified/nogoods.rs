//! The live nogoods and propagation over them with two watched literals. What follows from the nogoods alone is kept from step to
//! step; a deletion undoes what it was the reason of. Deleting finds its nogood by a hash of the set.
//!
//! A literal is a code: twice its variable, and one more for a negative one. In each nogood the two literals in front are
//! watched: neither is true, unless the other is false. Nogoods of two literals have lists of their own, since their watches
//! never move. A nogood is known by its place in `words`, where its length stands.

use super::hashing;

const FREE: u8 = 0;
const TRUE: u8 = 1;
const FALSE: u8 = 2;

/// The words of a nogood in the store before its literals: the step that added it, and their count.
pub const NOGOOD_WORDS: usize = 2;

/// As the reason of a literal: it is assumed.
const ASSUMED: u32 = u32::MAX;

/// So many lists of nogoods by hash at first, and so many nogoods for each before there are twice as many lists.
const LISTS: usize = 2_048;
const MOST_EACH: usize = 4;

/// The code of a literal.
pub fn code_of(literal: i32) -> u32 {
    literal.unsigned_abs() << 1 | u32::from(literal < 0)
}

/// A nogood that watches a literal, and another literal of it: where that one is false there is nothing to do.
#[derive(Clone, Copy)]
struct Watch {
    nogood: u32,
    other: u32,
}

/// A nogood with the hash of its set.
#[derive(Clone, Copy)]
struct Hashed {
    hash: u32,
    nogood: u32,
}

pub struct Nogoods {
    /// Each nogood's length and literals. Those of a deleted nogood stay.
    words: Vec<u32>,
    lists: Vec<Vec<Hashed>>,
    live: usize,
    live_words: usize,
    empty: usize,
    /// The live nogoods of one literal.
    units: Vec<u32>,
    newest: u32,
    /// By code: the nogoods of two literals and the longer ones that watch it, and its value.
    pairs: Vec<Vec<Watch>>,
    watches: Vec<Vec<Watch>>,
    values: Vec<u8>,
    /// By variable: why its literal is true, and where it stands in the trail.
    reasons: Vec<u32>,
    places: Vec<u32>,
    /// The true literals, oldest first, and how many of them were propagated.
    trail: Vec<u32>,
    done: usize,
    /// A nogood that the trail violates with nothing assumed.
    violated: Option<u32>,
    /// By code: the last deletion that asked for it.
    asked: Vec<u32>,
    deletions: u32,
}

impl Nogoods {
    /// No nogoods, over the variables up to the largest.
    pub fn over(largest: usize) -> Self {
        let mut nogoods = Nogoods {
            words: Vec::new(),
            lists: vec![Vec::new(); LISTS],
            live: 0,
            live_words: 0,
            empty: 0,
            units: Vec::new(),
            newest: 0,
            pairs: Vec::new(),
            watches: Vec::new(),
            values: Vec::new(),
            reasons: Vec::new(),
            places: Vec::new(),
            trail: Vec::new(),
            done: 0,
            violated: None,
            asked: Vec::new(),
            deletions: 0,
        };
        nogoods.reach(largest);
        nogoods
    }

    /// The variables go up to this one at least.
    pub fn reach(&mut self, variable: usize) {
        let entries = (variable + 1).max(self.reasons.len());
        self.pairs.resize(2 * entries, Vec::new());
        self.watches.resize(2 * entries, Vec::new());
        self.values.resize(2 * entries, FREE);
        self.asked.resize(2 * entries, 0);
        self.reasons.resize(entries, ASSUMED);
        self.places.resize(entries, 0);
    }

    pub fn live(&self) -> usize {
        self.live
    }

    /// The words that a store has to hold.
    pub fn words(&self) -> usize {
        self.live_words
    }

    pub fn has_empty(&self) -> bool {
        self.empty > 0
    }

    fn literals(&self, nogood: u32) -> &[u32] {
        let from = nogood as usize + 1;
        &self.words[from..from + self.words[nogood as usize] as usize]
    }

    fn value(&self, code: u32) -> u8 {
        self.values[code as usize]
    }

    /// Whether propagation from the literals comes to a conflict.
    pub fn refutes(&mut self, codes: &[u32]) -> bool {
        if self.has_empty() || !self.settle() {
            return true;
        }
        let mark = self.trail.len();
        let refuted = !self.assume(codes) || self.propagate().is_some();
        self.undo(mark);
        refuted
    }

    /// The values, by code, that propagation from the literals comes to: whether a literal is true. Nothing where it comes to a
    /// conflict.
    pub fn closure(&mut self, codes: &[u32]) -> Option<Vec<bool>> {
        if self.has_empty() || !self.settle() {
            return None;
        }
        let mark = self.trail.len();
        let open = self.assume(codes) && self.propagate().is_none();
        let truths = open.then(|| self.values.iter().map(|&value| value == TRUE).collect());
        self.undo(mark);
        truths
    }

    /// Propagates what nogoods alone gave; whether there is no conflict.
    fn settle(&mut self) -> bool {
        if self.violated.is_none() {
            self.violated = self.propagate();
        }
        self.violated.is_none()
    }

    /// Makes literals true; whether none is false.
    fn assume(&mut self, codes: &[u32]) -> bool {
        for &code in codes {
            match self.value(code) {
                TRUE => {}
                FALSE => return false,
                _ => self.make_true(code, ASSUMED),
            }
        }
        true
    }

    fn make_true(&mut self, code: u32, reason: u32) {
        let variable = (code >> 1) as usize;
        self.values[code as usize] = TRUE;
        self.values[(code ^ 1) as usize] = FALSE;
        self.reasons[variable] = reason;
        self.places[variable] = self.trail.len() as u32;
        self.trail.push(code);
    }

    /// Only the first so many literals of the trail stay, and they count as propagated if they were.
    fn undo(&mut self, mark: usize) {
        for &code in &self.trail[mark..] {
            self.values[code as usize] = FREE;
            self.values[(code ^ 1) as usize] = FREE;
        }
        self.trail.truncate(mark);
        self.done = self.done.min(mark);
    }

    /// Propagates to the end, or to a nogood that is violated.
    fn propagate(&mut self) -> Option<u32> {
        while self.done < self.trail.len() {
            let code = self.trail[self.done];
            self.done += 1;
            let violated = self.visit_pairs(code).or_else(|| self.visit_longer(code));
            if violated.is_some() {
                return violated;
            }
        }
        None
    }

    /// Visits the nogoods of two literals with one that is true now.
    fn visit_pairs(&mut self, code: u32) -> Option<u32> {
        for i in 0..self.pairs[code as usize].len() {
            let watch = self.pairs[code as usize][i];
            match self.value(watch.other) {
                FALSE => {}
                TRUE => return Some(watch.nogood),
                _ => self.make_true(watch.other ^ 1, watch.nogood),
            }
        }
        None
    }

    /// Visits the longer nogoods that watch a literal which is true now.
    fn visit_longer(&mut self, code: u32) -> Option<u32> {
        if self.watches[code as usize].is_empty() {
            return None;
        }
        let mut list = std::mem::take(&mut self.watches[code as usize]);
        let violated = self.visit(code, &mut list);
        self.watches[code as usize] = list;
        violated
    }

    /// Goes through such a list. The nogoods that find another literal to watch leave it.
    fn visit(&mut self, code: u32, list: &mut Vec<Watch>) -> Option<u32> {
        let mut kept = 0;
        let mut violated = None;
        for i in 0..list.len() {
            let watch = list[i];
            if violated.is_some() || self.value(watch.other) == FALSE {
                list[kept] = watch;
                kept += 1;
                continue;
            }
            if let Some(first) = self.stays(code, watch.nogood) {
                list[kept] = Watch { nogood: watch.nogood, other: first };
                kept += 1;
                match self.value(first) {
                    FALSE => {}
                    TRUE => violated = Some(watch.nogood),
                    _ => self.make_true(first ^ 1, watch.nogood),
                }
            }
        }
        list.truncate(kept);
        violated
    }

    /// Looks for a literal to watch instead of one that is true now. Where there is none to take, the other watched literal.
    fn stays(&mut self, code: u32, nogood: u32) -> Option<u32> {
        let from = nogood as usize + 1;
        let end = from + self.words[nogood as usize] as usize;
        let row = &mut self.words[from..end];
        if row[0] == code {
            row.swap(0, 1);
        }
        let first = row[0];
        if self.values[first as usize] == FALSE {
            return Some(first);
        }
        for k in 2..row.len() {
            if self.values[row[k] as usize] != TRUE {
                row.swap(1, k);
                self.watches[row[1] as usize].push(Watch { nogood, other: first });
                return None;
            }
        }
        Some(first)
    }

    /// One more live nogood.
    pub fn add(&mut self, codes: &[u32]) {
        let nogood = self.words.len() as u32;
        self.words.push(codes.len() as u32);
        self.words.extend_from_slice(codes);
        let hash = hashing::of_set(codes);
        let list = self.list_of(hash);
        self.lists[list].push(Hashed { hash, nogood });
        self.newest = nogood;
        self.live += 1;
        if self.live > MOST_EACH * self.lists.len() {
            self.lengthen();
        }
        self.live_words += NOGOOD_WORDS + codes.len();
        match codes.len() {
            0 => self.empty += 1,
            1 => {
                self.units.push(nogood);
                self.look_at_unit(nogood);
            }
            _ => self.watch(nogood),
        }
    }

    /// What a nogood of one literal gives.
    fn look_at_unit(&mut self, nogood: u32) {
        let code = self.literals(nogood)[0];
        match self.value(code) {
            TRUE => self.violated = self.violated.or(Some(nogood)),
            FREE => self.make_true(code ^ 1, nogood),
            _ => {}
        }
    }

    /// Two literals of a new nogood are watched, such that are not true as far as there are any.
    fn watch(&mut self, nogood: u32) {
        let from = nogood as usize + 1;
        let row = &mut self.words[from..];
        let mut open = 0;
        for k in 0..row.len() {
            if open < 2 && self.values[row[k] as usize] != TRUE {
                row.swap(open, k);
                open += 1;
            }
        }
        let (first, second) = (row[0], row[1]);
        let lists = if row.len() == 2 { &mut self.pairs } else { &mut self.watches };
        lists[first as usize].push(Watch { nogood, other: second });
        lists[second as usize].push(Watch { nogood, other: first });
        if open == 0 {
            self.violated = self.violated.or(Some(nogood));
        } else if open == 1 && self.value(first) == FREE {
            self.make_true(first ^ 1, nogood);
        }
    }

    /// Deletes the oldest live nogood with just these literals, if there is one.
    pub fn delete(&mut self, codes: &[u32]) {
        let Some(nogood) = self.take(codes) else { return };
        self.live -= 1;
        self.live_words -= NOGOOD_WORDS + codes.len();
        match codes.len() {
            0 => self.empty -= 1,
            1 => self.units.retain(|&unit| unit != nogood),
            _ => self.unwatch(nogood),
        }
        self.withdraw(nogood);
    }

    /// Finds a nogood by its set and takes it out of the list of its hash.
    fn take(&mut self, codes: &[u32]) -> Option<u32> {
        self.deletions += 1;
        for &code in codes {
            self.asked[code as usize] = self.deletions;
        }
        let hash = hashing::of_set(codes);
        let list = self.list_of(hash);
        let place = self.lists[list].iter().position(|entry| entry.hash == hash && self.is_asked(entry.nogood, codes.len()))?;
        Some(self.lists[list].remove(place).nogood)
    }

    fn list_of(&self, hash: u32) -> usize {
        hash as usize % self.lists.len()
    }

    /// Twice as many lists, in each the oldest first as before.
    fn lengthen(&mut self) {
        let old = std::mem::take(&mut self.lists);
        self.lists = vec![Vec::new(); 2 * old.len()];
        for entry in old.into_iter().flatten() {
            let list = self.list_of(entry.hash);
            self.lists[list].push(entry);
        }
    }

    /// The nogood has so many literals, and all are asked for.
    fn is_asked(&self, nogood: u32, count: usize) -> bool {
        let row = self.literals(nogood);
        row.len() == count && row.iter().all(|&code| self.asked[code as usize] == self.deletions)
    }

    fn unwatch(&mut self, nogood: u32) {
        let row = self.literals(nogood);
        let watched = [row[0], row[1]];
        let lists = if row.len() == 2 { &mut self.pairs } else { &mut self.watches };
        for code in watched {
            let list = &mut lists[code as usize];
            if let Some(i) = list.iter().position(|watch| watch.nogood == nogood) {
                list.swap_remove(i);
            }
        }
    }

    /// Nothing may rest on a nogood that was deleted.
    fn withdraw(&mut self, nogood: u32) {
        match self.place_given_by(nogood) {
            Some(place) if self.is_untouched_since(nogood, place) => self.undo(place),
            Some(place) => self.restart(place),
            None if self.violated == Some(nogood) => self.restart(self.trail.len()),
            None => {}
        }
    }

    /// Where in the trail the literal stands whose reason a nogood is.
    fn place_given_by(&self, nogood: u32) -> Option<usize> {
        let given = |&&code: &&u32| self.value(code) == FALSE && self.reasons[(code >> 1) as usize] == nogood;
        self.literals(nogood).iter().find(given).map(|&code| self.places[(code >> 1) as usize] as usize)
    }

    /// Neither was a nogood added since, nor has anything followed: all is as it was before the nogood came.
    fn is_untouched_since(&self, nogood: u32, place: usize) -> bool {
        self.newest == nogood && self.violated.is_none() && place + 1 == self.trail.len() && self.done <= place
    }

    /// Undoes the trail from a place on; what is left is propagated anew, since watches may rest on what was undone.
    fn restart(&mut self, place: usize) {
        self.undo(place);
        self.done = 0;
        self.violated = None;
        for i in 0..self.units.len() {
            self.look_at_unit(self.units[i]);
        }
    }
}

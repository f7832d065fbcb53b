//! The seven kinds of step, questions 26 to 34 and 56.

use super::bodies::Rules;
use super::nogoods::{code_of, Nogoods};
use super::LARGEST;

/// What the steps work on.
pub struct Checking {
    rules: Rules,
    nogoods: Nogoods,
    known: Vec<bool>,
    store_words: usize,
    /// The literals of the nogood that a step is about, or the body that it names.
    row: Vec<u32>,
    body: Vec<i32>,
}

impl Checking {
    pub fn start(rules: Rules, store_words: usize) -> Self {
        let mut known = vec![false; LARGEST + 1];
        known[1..=rules.atoms].fill(true);
        let nogoods = Nogoods::over(rules.atoms);
        Checking { rules, nogoods, known, store_words, row: Vec::new(), body: Vec::new() }
    }

    pub fn live(&self) -> usize {
        self.nogoods.live()
    }

    pub fn has_empty(&self) -> bool {
        self.nogoods.has_empty()
    }

    /// One step, or the refusal's number.
    pub fn step(&mut self, letter: u8, numbers: &[i32]) -> Result<(), u8> {
        let introduces = letter == b'b' || letter == b'e';
        let old = if introduces { &numbers[1..] } else { numbers };
        if !old.iter().all(|n| self.known[n.unsigned_abs() as usize]) {
            return Err(26);
        }
        match letter {
            b'a' => self.addition(numbers)?,
            b'b' => self.naming(numbers)?,
            b'c' => self.completion(numbers)?,
            b'd' => self.deletion(numbers),
            b'e' => self.extension(numbers)?,
            b'l' => self.unfounded(numbers)?,
            _ => self.support(numbers)?,
        }
        if self.nogoods.words() > self.store_words {
            return Err(34);
        }
        Ok(())
    }

    fn addition(&mut self, numbers: &[i32]) -> Result<(), u8> {
        self.take(numbers);
        if !self.nogoods.refutes(&self.row) {
            return Err(33);
        }
        self.nogoods.add(&self.row);
        Ok(())
    }

    fn deletion(&mut self, numbers: &[i32]) {
        self.take(numbers);
        self.nogoods.delete(&self.row);
    }

    fn naming(&mut self, numbers: &[i32]) -> Result<(), u8> {
        let name = numbers[0] as usize;
        if self.known[name] {
            return Err(27);
        }
        self.body.clear();
        self.body.extend_from_slice(&numbers[1..]);
        self.body.sort_unstable_by_key(|literal| literal.unsigned_abs());
        if !self.rules.name(&self.body, name) {
            return Err(28);
        }
        self.define(numbers);
        Ok(())
    }

    fn extension(&mut self, numbers: &[i32]) -> Result<(), u8> {
        if self.known[numbers[0] as usize] {
            return Err(27);
        }
        self.define(numbers);
        Ok(())
    }

    /// The name is known, and its definition live.
    fn define(&mut self, numbers: &[i32]) {
        self.known[numbers[0] as usize] = true;
        self.nogoods.reach(numbers[0] as usize);
        self.take(numbers);
        self.row[0] ^= 1;
        self.nogoods.add(&self.row);
        let name = code_of(numbers[0]);
        for &literal in &numbers[1..] {
            self.nogoods.add(&[name, code_of(-literal)]);
        }
    }

    fn completion(&mut self, numbers: &[i32]) -> Result<(), u8> {
        let head = numbers.get(1).copied().unwrap_or(0);
        if numbers.len() > 2 || !self.rules.derives(numbers[0] as usize, head) {
            return Err(29);
        }
        self.join(numbers);
        Ok(())
    }

    fn support(&mut self, numbers: &[i32]) -> Result<(), u8> {
        if !self.rules.supports(numbers[0], &numbers[1..]) {
            return Err(30);
        }
        self.join(numbers);
        Ok(())
    }

    fn unfounded(&mut self, numbers: &[i32]) -> Result<(), u8> {
        if numbers.iter().any(|&n| n as usize > self.rules.atoms) {
            return Err(31);
        }
        if !self.rules.is_loop(numbers) {
            return Err(56);
        }
        self.take(&numbers[..1]);
        let row = &mut self.row;
        if !self.rules.externals(numbers, |name| row.push(code_of(-(name as i32)))) {
            return Err(32);
        }
        self.nogoods.add(&self.row);
        Ok(())
    }

    /// The first number with the complements of the others is live.
    fn join(&mut self, numbers: &[i32]) {
        self.take(numbers);
        self.row[1..].iter_mut().for_each(|code| *code ^= 1);
        self.nogoods.add(&self.row);
    }

    fn take(&mut self, numbers: &[i32]) {
        self.row.clear();
        self.row.extend(numbers.iter().map(|&n| code_of(n)));
    }
}

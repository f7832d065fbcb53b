//! Atoms as tables: those of a predicate together, and where two arguments have few values, as a grid of them.

use std::collections::BTreeSet;

use crate::page::Mark;

/// The most columns and rows of a grid.
const MOST_COLUMNS: usize = 16;
const MOST_ROWS: usize = 60;

/// What stands in a cell.
pub type Cell = Vec<(String, Mark)>;

/// A row, with a label where the table is a grid.
#[derive(Debug, PartialEq, Eq)]
pub struct Row {
    pub label: Option<String>,
    pub cells: Vec<Cell>,
}

/// A table; without heads it has one column.
#[derive(Debug, PartialEq, Eq)]
pub struct Table {
    pub title: String,
    pub heads: Vec<String>,
    pub rows: Vec<Row>,
}

/// An atom's predicate and arguments, and what is known of it.
struct Atom {
    predicate: String,
    arguments: Vec<String>,
    mark: Mark,
}

/// The tables of atoms, by predicate and number of arguments, in the order of the first of each.
pub fn tables(atoms: &[(String, Mark)]) -> Vec<Table> {
    let mut groups: Vec<((String, usize), Vec<Atom>)> = Vec::new();
    for (text, mark) in atoms {
        let (predicate, arguments) = parsed(text);
        let key = (predicate.clone(), arguments.len());
        let atom = Atom { predicate, arguments, mark: *mark };
        match groups.iter_mut().find(|(known, _)| *known == key) {
            Some((_, group)) => group.push(atom),
            None => groups.push((key, vec![atom])),
        }
    }
    groups.iter().map(|((predicate, count), atoms)| table(predicate, *count, atoms)).collect()
}

fn table(predicate: &str, count: usize, atoms: &[Atom]) -> Table {
    let title = if count == 0 { String::from(predicate) } else { format!("{predicate}/{count}") };
    if count < 2 {
        let cell = atoms.iter().map(|atom| (atom.arguments.first().unwrap_or(&atom.predicate).clone(), atom.mark)).collect();
        return Table { title, heads: Vec::new(), rows: vec![Row { label: None, cells: vec![cell] }] };
    }
    let (first, second) = (values(atoms, 0), values(atoms, 1));
    if first.len() <= MOST_ROWS && second.len() <= MOST_COLUMNS {
        return grid(title, &first, &second, atoms, (0, 1));
    }
    if second.len() <= MOST_ROWS && first.len() <= MOST_COLUMNS {
        return grid(title, &second, &first, atoms, (1, 0));
    }
    let row = |atom: &Atom| Row { label: None, cells: atom.arguments.iter().map(|argument| vec![(argument.clone(), atom.mark)]).collect() };
    Table { title, heads: (1..=count).map(|place| format!("argument {place}")).collect(), rows: atoms.iter().map(row).collect() }
}

/// A grid of two arguments; in a cell stand the others, or a sign where there are none.
fn grid(title: String, rows: &[String], columns: &[String], atoms: &[Atom], (down, across): (usize, usize)) -> Table {
    let item = |atom: &Atom| {
        let others: Vec<String> = atom.arguments.iter().skip(2).cloned().collect();
        (if others.is_empty() { String::from("●") } else { others.join(", ") }, atom.mark)
    };
    let cell = |row: &String, column: &String| {
        atoms.iter().filter(|atom| atom.arguments[down] == *row && atom.arguments[across] == *column).map(item).collect()
    };
    let row = |row: &String| Row { label: Some(row.clone()), cells: columns.iter().map(|column| cell(row, column)).collect() };
    Table { title, heads: [&[String::new()], columns].concat(), rows: rows.iter().map(row).collect() }
}

/// The values of an argument: numbers by size, others by letters.
fn values(atoms: &[Atom], place: usize) -> Vec<String> {
    let different: BTreeSet<&String> = atoms.iter().map(|atom| &atom.arguments[place]).collect();
    let mut values: Vec<String> = different.into_iter().cloned().collect();
    values.sort_by_key(|value| value.parse::<i64>().map_or((1, 0), |number| (0, number)));
    values
}

/// The predicate and the arguments of an atom; what is not written so is a predicate as a whole.
fn parsed(text: &str) -> (String, Vec<String>) {
    let inner = text.strip_suffix(')').and_then(|front| front.split_once('('));
    let Some((predicate, inner)) = inner.filter(|(predicate, _)| !predicate.is_empty()) else { return (String::from(text), Vec::new()) };
    let (mut arguments, mut depth, mut quoted, mut escaped) = (vec![String::new()], 0, false, false);
    for letter in inner.chars() {
        let ends = letter == ',' && depth == 0 && !quoted;
        match letter {
            '"' if !escaped => quoted = !quoted,
            '(' if !quoted => depth += 1,
            ')' if !quoted => depth -= 1,
            _ => {}
        }
        escaped = letter == '\\' && !escaped;
        if ends {
            arguments.push(String::new());
        } else if let Some(last) = arguments.last_mut() {
            last.push(letter);
        }
    }
    (String::from(predicate), arguments)
}

#[cfg(test)]
mod tests {
    use super::*;

    #[test]
    fn atoms_and_their_arguments() {
        for (text, predicate, arguments) in [
            ("a", "a", &[][..]),
            ("-a(1)", "-a", &["1"]),
            ("f(g(1,2),\"x,(\\\"\",(3,4))", "f", &["g(1,2)", "\"x,(\\\"\"", "(3,4)"]),
            ("(1,2)", "(1,2)", &[]),
            ("\"a(b\"", "\"a(b\"", &[]),
            ("f((((", "f((((", &[]),
        ] {
            assert_eq!(
                parsed(text),
                (String::from(predicate), arguments.iter().map(|argument| String::from(*argument)).collect()),
                "{text}"
            );
        }
    }

    #[test]
    fn grids_and_lists() {
        let there = |texts: &[&str]| texts.iter().map(|text| (String::from(*text), Mark::There)).collect::<Vec<_>>();
        let tables_of = |texts: &[&str]| tables(&there(texts));
        let days = tables_of(&["on(bob,10,late)", "on(ann,9,early)", "on(bob,9,early)", "x", "n(3)", "n(1)"]);
        assert_eq!(days.iter().map(|table| table.title.as_str()).collect::<Vec<_>>(), ["on/3", "x", "n/1"]);
        assert_eq!(days[0].heads, ["", "9", "10"]);
        assert_eq!(days[0].rows[1], Row { label: Some(String::from("bob")), cells: vec![there(&["early"]), there(&["late"])] });
        assert_eq!(days[0].rows[0].cells, [there(&["early"]), vec![]]);
        assert_eq!(days[2].rows[0].cells, [there(&["3", "1"])]);
        assert_eq!(tables_of(&["p(a,b)"])[0].rows[0].cells, [there(&["●"])]);
        // Where the second has too many values it goes down, and where both have, each atom is a row.
        let many: Vec<String> = (1..=20).map(|place| format!("p(a,{place})")).collect();
        let tall = tables(&many.iter().map(|text| (text.clone(), Mark::Open)).collect::<Vec<_>>());
        assert_eq!((tall[0].heads.len(), tall[0].rows.len()), (2, 20));
        let both: Vec<String> = (1..=70).map(|place| format!("p({place},{place})")).collect();
        let list = tables(&both.iter().map(|text| (text.clone(), Mark::Open)).collect::<Vec<_>>());
        assert_eq!((list[0].heads.len(), list[0].rows.len(), list[0].rows[0].label.is_none()), (2, 70, true));
    }
}

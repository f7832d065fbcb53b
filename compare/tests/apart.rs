//! The reference is written from documents 01 and 02 alone: its sources name nothing outside of it but the standard library.

use std::fs;
use std::path::Path;

/// Paths that lead out of the reference, and crates of the workspace.
const OUTSIDE: [&str; 6] = ["crate::", "super::super", "aspdrupe", "inputs", "bench", "extern "];

fn names_outside(line: &str) -> bool {
    let code = line.split("//").next().unwrap_or("");
    let other_use = code.trim_start().starts_with("use ") && !["use super::", "use std::"].iter().any(|own| code.contains(own));
    other_use || OUTSIDE.iter().any(|name| code.contains(name))
}

#[test]
fn reference_stands_apart() {
    let folder = Path::new(env!("CARGO_MANIFEST_DIR")).join("src/reference");
    let mut files = 0;
    for entry in fs::read_dir(folder).unwrap() {
        let path = entry.unwrap().path();
        let text = fs::read_to_string(&path).unwrap();
        for line in text.lines() {
            assert!(!names_outside(line), "{}: {line}", path.display());
        }
        files += 1;
    }
    assert_eq!(files, 16);
}

#[test]
fn what_leads_outside() {
    for line in ["use crate::tally::Tally;", "    aspdrupe::check_texts(a, b)", "use inputs::Pair;", "use rand::Rng;"] {
        assert!(names_outside(line), "{line}");
    }
    for line in ["use super::LARGEST;", "    use super::*;", "use std::collections::BTreeSet;", "let a = 1; // crate::"] {
        assert!(!names_outside(line), "{line}");
    }
}

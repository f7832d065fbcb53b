//! The constants of this crate are those of the header for C, and the stack that both name is enough for a thread of Rust.

use aspdrupe::*;

const HEADER: &str = include_str!("../../c/aspdrupe.h");

/// The number that the header defines.
fn defined(name: &str) -> usize {
    let prefix = format!("#define ASPDRUPE_{name} ");
    let line = HEADER.lines().find_map(|line| line.strip_prefix(prefix.as_str()));
    line.unwrap_or_else(|| panic!("the header has no {name}")).parse().unwrap()
}

#[test]
fn same_constants() {
    assert_eq!(STACK, defined("STACK"));
    assert_eq!(MERGE_STACK, defined("MERGE_STACK"));
    assert_eq!(TRIM_STACK, defined("TRIM_STACK"));
    assert_eq!(CHEAPEST_STACK, defined("CHEAPEST_STACK"));
    assert_eq!(TREE_STACK, defined("TREE_STACK"));
    assert_eq!(MARKS, defined("MARKS"));
    assert_eq!(MOST_NUMBERS, defined("NUMBERS"));
}

/// Every service that needs no more stack than a check, once. The inputs that go deepest are those of bindings/c/stack.c.
fn call_all() -> [String; 10] {
    let program = b"asp 1 0 0\n1 0 1 1 0 1 2\n1 0 1 2 0 1 1\n1 0 0 0 1 -1\n0\n";
    let proof = b"b 3 -1 0\nb 4 2 0\ns 1 4 0\nc 3 0\nl 1 2 0\na 0\n";
    let (mut table, mut store) = ([0; 20], [0; 32]);
    let read = read_program(program, &mut table);
    let set = test_set(&table, 3, &[], &mut [0; MARKS]);
    let line = read_line(proof, 0).map(|(line, _)| line);
    let verdict = check_texts(program, proof, &mut table, &mut store);
    let long = check_long(program, proof).unwrap().to_string();
    let (mut packet, mut moved) = ([0; 99], [0; 111]);
    let written = write_packet(Version::One, &table, 3, proof, &mut packet);
    let back = read_packet(Version::One, &packet, &mut table, &mut [0; 43]);
    let up = packet_up(&packet, &mut moved);
    let down = packet_down(&moved, &mut packet);
    let split = split_program(program, 6).unwrap().0;
    let verdict = verdict.unwrap().to_string();
    let [written, up, down] = [written, up, down].map(|answer| format!("{answer:?}"));
    [
        format!("{read:?}"),
        format!("{set:?}"),
        format!("{line:?}"),
        verdict,
        long,
        written,
        format!("{back:?}"),
        up,
        down,
        format!("{split:?}"),
    ]
}

// The header's macro is written out here.
#[test]
fn same_memory() {
    assert!(HEADER.contains("#define ASPDRUPE_MEMORY(store_len) (49287 + ((store_len) + 7) / 8 * 25)"));
    for words in [0, 1, 7, 8, 9, 16_384, 1_000_003] {
        assert_eq!(memory_for(words), 49_287 + words.div_ceil(8) * 25, "{words}");
    }
}

#[test]
fn stack_of_a_thread() {
    let thread = std::thread::Builder::new().stack_size(STACK).spawn(call_all).unwrap();
    let expected = [
        "Ok(Read { atoms: 2, rules: 3 })",
        "Ok(Broken(3))",
        "Ok(Line { letter: Body, count: 2, next: 9 })",
        "inconsistent 2 3 6 8",
        "inconsistent 2 3 6 8",
        "Ok(Written(99))",
        "Ok(Read { rules: 3, bytes: 43 })",
        "Ok(Written(111))",
        "Ok(Written(99))",
        "Split { bytes: 53, atoms: 2, rules: 3, old_atoms: 2 }",
    ];
    assert_eq!(thread.join().unwrap(), expected);
}

#[test]
fn stack_of_a_thread_that_merges() {
    let merge = || {
        let program = b"asp 1 0 0\n1 0 1 1 0 1 -1\n0\n";
        let proof = b"b 2 -1 0\nc 2 1 0\ns 1 2 0\na 1 0\na 0\n";
        merge_halves(program, 1, proof, proof, &mut [0; 6], &mut [0; 35], &mut [0; 64])
    };
    let thread = std::thread::Builder::new().stack_size(MERGE_STACK).spawn(merge).unwrap();
    assert_eq!(thread.join().unwrap(), Ok(Merging::Merged(64)));
}

#[test]
fn stack_of_a_thread_that_trims() {
    let trim = || {
        let program = b"asp 1 0 0\n1 0 1 1 0 1 -1\n0\n";
        let mut text = *b"b 2 -1 0\nc 2 1 0\ns 1 2 0\na 1 0\na 0\n";
        trim_proof(program, &mut text, &mut [0; 6], &mut [0; 21])
    };
    let thread = std::thread::Builder::new().stack_size(TRIM_STACK).spawn(trim).unwrap();
    assert_eq!(thread.join().unwrap(), Ok(Trimming::Trimmed(35)));
}

#[test]
fn stack_of_a_thread_that_certifies() {
    let certify = || {
        let program = b"asp 1 0 0\n1 1 2 1 2 0 0\n1 0 0 0 2 -1 -2\n0\n";
        let proof = b"b 3 1 0\nc 3 0\nb 4 2 0\nc 4 0\nb 5 -1 -2 0\nc 5 0\na 0\n";
        check_cheapest(program, &[1], &[1, 3, 2, 5], proof, &mut [0; 12], &mut [0; 40])
    };
    let thread = std::thread::Builder::new().stack_size(CHEAPEST_STACK).spawn(certify).unwrap();
    assert_eq!(thread.join().unwrap(), Ok(Cheapest::Certified(3)));
}

#[test]
fn stack_of_a_thread_that_merges_a_tree() {
    let merge = || {
        let program = b"asp 1 0 0\n1 1 7 1 2 3 4 5 6 7 0 0\n1 0 0 0 1 7\n1 0 0 0 1 -7\n0\n";
        let ends = b"b 8 7 0\nc 8 0\nb 9 -7 0\nc 9 0\na 0\n".repeat(7);
        let tree = [1, 0, 2, 0, 3, 0, 4, 0, 5, 0, 6, 0, 0];
        merge_tree(program, &tree, &ends, &[33; 7], &mut [0; 21], &mut [0; 126], &mut [0; 273])
    };
    let thread = std::thread::Builder::new().stack_size(TREE_STACK).spawn(merge).unwrap();
    assert_eq!(thread.join().unwrap(), Ok(Merging::Merged(273)));
}

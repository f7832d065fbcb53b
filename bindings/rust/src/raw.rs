//! The functions of the static library as C sees them. `bindings/c/aspdrupe.h` says what each returns and leaves.

extern "C" {
    pub fn aspdrupe_read_program(
        text: *const u8,
        text_len: usize,
        table: *mut i32,
        table_len: usize,
        answer: *mut u64,
        answer_len: usize,
    ) -> u32;
    pub fn aspdrupe_test_set(
        table: *const i32,
        table_len: usize,
        rules: u64,
        set: *const u16,
        set_len: usize,
        marks: *mut u8,
        marks_len: usize,
        answer: *mut u64,
        answer_len: usize,
    ) -> u32;
    pub fn aspdrupe_read_line(
        text: *const u8,
        text_len: usize,
        position: u64,
        numbers: *mut i32,
        numbers_len: usize,
        answer: *mut u64,
        answer_len: usize,
    ) -> u32;
    pub fn aspdrupe_check_texts(
        program: *const u8,
        program_len: usize,
        proof: *const u8,
        proof_len: usize,
        table: *mut i32,
        table_len: usize,
        store: *mut i32,
        store_len: usize,
        answer: *mut u64,
        answer_len: usize,
    ) -> u32;
    pub fn aspdrupe_check_long(
        program: *const u8,
        program_len: usize,
        proof: *const u8,
        proof_len: usize,
        table: *mut i32,
        table_len: usize,
        store: *mut i32,
        store_len: usize,
        memory: *mut u32,
        memory_len: usize,
        answer: *mut u64,
        answer_len: usize,
    ) -> u32;
    pub fn aspdrupe_write_packet(
        version: u64,
        table: *const i32,
        table_len: usize,
        rules: u64,
        proof: *const u8,
        proof_len: usize,
        packet: *mut u8,
        packet_len: usize,
        answer: *mut u64,
        answer_len: usize,
    ) -> u32;
    pub fn aspdrupe_read_packet(
        version: u64,
        packet: *const u8,
        packet_len: usize,
        table: *mut i32,
        table_len: usize,
        proof: *mut u8,
        proof_len: usize,
        answer: *mut u64,
        answer_len: usize,
    ) -> u32;
    pub fn aspdrupe_packet_up(
        packet: *const u8,
        packet_len: usize,
        output: *mut u8,
        output_len: usize,
        answer: *mut u64,
        answer_len: usize,
    ) -> u32;
    pub fn aspdrupe_packet_down(
        packet: *const u8,
        packet_len: usize,
        output: *mut u8,
        output_len: usize,
        answer: *mut u64,
        answer_len: usize,
    ) -> u32;
    pub fn aspdrupe_merge_halves(
        program: *const u8,
        program_len: usize,
        atom: u64,
        first: *const u8,
        first_len: usize,
        second: *const u8,
        second_len: usize,
        table: *mut i32,
        table_len: usize,
        store: *mut i32,
        store_len: usize,
        output: *mut u8,
        output_len: usize,
        answer: *mut u64,
        answer_len: usize,
    ) -> u32;
    pub fn aspdrupe_trim_proof(
        program: *const u8,
        program_len: usize,
        text: *mut u8,
        text_len: usize,
        table: *mut i32,
        table_len: usize,
        store: *mut i32,
        store_len: usize,
        answer: *mut u64,
        answer_len: usize,
    ) -> u32;
    pub fn aspdrupe_check_cheapest(
        program: *const u8,
        program_len: usize,
        set: *const u16,
        set_len: usize,
        costs: *const i16,
        costs_len: usize,
        proof: *const u8,
        proof_len: usize,
        table: *mut i32,
        table_len: usize,
        store: *mut i32,
        store_len: usize,
        answer: *mut u64,
        answer_len: usize,
    ) -> u32;
    pub fn aspdrupe_merge_tree(
        program: *const u8,
        program_len: usize,
        tree: *const u16,
        tree_len: usize,
        texts: *const u8,
        texts_len: usize,
        lengths: *const u64,
        lengths_len: usize,
        table: *mut i32,
        table_len: usize,
        store: *mut i32,
        store_len: usize,
        output: *mut u8,
        output_len: usize,
        answer: *mut u64,
        answer_len: usize,
    ) -> u32;
    pub fn aspdrupe_split_sums(
        program: *const u8,
        program_len: usize,
        group: u64,
        table: *mut i32,
        table_len: usize,
        output: *mut u8,
        output_len: usize,
        answer: *mut u64,
        answer_len: usize,
    ) -> u32;
}

// What does not fit is not written, and what stands after an answer stays.
#[cfg(test)]
mod tests {
    use super::*;

    const PROGRAM: &[u8] = b"asp 1 0 0\n1 0 1 1 0 1 -1\n0\n";
    const PROOF: &[u8] = b"b 2 -1 0\nc 2 1 0\ns 1 2 0\na 1 0\na 0\n";

    #[test]
    fn counts_that_do_not_fit() {
        for size in 0..6 {
            let mut answer = [9u64; 6];
            let mut table = [7; 6];
            let mut store = [7; 21];
            // SAFETY: the slices are valid for these lengths and do not overlap.
            let code = unsafe {
                aspdrupe_check_texts(
                    PROGRAM.as_ptr(),
                    PROGRAM.len(),
                    PROOF.as_ptr(),
                    PROOF.len(),
                    table.as_mut_ptr(),
                    table.len(),
                    store.as_mut_ptr(),
                    store.len(),
                    answer.as_mut_ptr(),
                    size,
                )
            };
            let mut left = [1, 1, 5, 6, 9, 9];
            left[size.min(4)..].fill(9);
            assert_eq!((code, answer), (0, left));
        }
    }

    #[test]
    fn counts_of_the_long_check_that_do_not_fit() {
        for size in 0..6 {
            let mut answer = [9u64; 6];
            let (mut table, mut store, mut memory) = ([7; 6], [7; 21], [7; 3]);
            // SAFETY: as above.
            let code = unsafe {
                aspdrupe_check_long(
                    PROGRAM.as_ptr(),
                    PROGRAM.len(),
                    PROOF.as_ptr(),
                    PROOF.len(),
                    table.as_mut_ptr(),
                    table.len(),
                    store.as_mut_ptr(),
                    store.len(),
                    memory.as_mut_ptr(),
                    memory.len(),
                    answer.as_mut_ptr(),
                    size,
                )
            };
            let mut left = [1, 1, 5, 6, 9, 9];
            left[size.min(4)..].fill(9);
            assert_eq!((code, answer, memory), (0, left, [0; 3]));
        }
    }

    #[test]
    fn numbers_that_do_not_fit() {
        for size in [0, 1, 65, 67] {
            let mut answer = [9u64; 3];
            let mut numbers = [9i32; 67];
            // SAFETY: as above.
            let code = unsafe {
                aspdrupe_read_line(PROOF.as_ptr(), PROOF.len(), 0, numbers.as_mut_ptr(), size, answer.as_mut_ptr(), answer.len())
            };
            let mut left = [0; 67];
            left[..2].copy_from_slice(&[2, -1]);
            left[size.min(65)..].fill(9);
            assert_eq!((code, answer, numbers), (98, [2, 9, 9], left));
        }
    }

    /// The packet of the version told of the program's table and the proof, in so many bytes: the code, and what is left in an answer of so
    /// many numbers.
    fn written(version: u64, rules: u64, packet: &mut [u8], size: usize) -> (u32, [u64; 3]) {
        let table = [0, 1, 0, 1, 1, -1];
        let mut answer = [9u64; 3];
        // SAFETY: as above.
        let code = unsafe {
            aspdrupe_write_packet(
                version,
                table.as_ptr(),
                table.len(),
                rules,
                PROOF.as_ptr(),
                PROOF.len(),
                packet.as_mut_ptr(),
                packet.len(),
                answer.as_mut_ptr(),
                size,
            )
        };
        (code, answer)
    }

    /// The same for a packet that is read back.
    fn read(version: u64, packet: &[u8], size: usize) -> (u32, [u64; 3]) {
        let (mut table, mut proof) = ([7; 6], [7; 35]);
        let mut answer = [9u64; 3];
        // SAFETY: as above.
        let code = unsafe {
            aspdrupe_read_packet(
                version,
                packet.as_ptr(),
                packet.len(),
                table.as_mut_ptr(),
                table.len(),
                proof.as_mut_ptr(),
                proof.len(),
                answer.as_mut_ptr(),
                size,
            )
        };
        if code != 0 {
            assert_eq!((table, proof), ([0; 6], [0; 35]));
        }
        (code, answer)
    }

    /// A function that moves a packet.
    type Move = unsafe extern "C" fn(*const u8, usize, *mut u8, usize, *mut u64, usize) -> u32;

    /// The same for a packet that is moved.
    fn moved(by: Move, packet: &[u8], output: &mut [u8], size: usize) -> (u32, [u64; 3]) {
        let mut answer = [9u64; 3];
        // SAFETY: as above.
        let code = unsafe { by(packet.as_ptr(), packet.len(), output.as_mut_ptr(), output.len(), answer.as_mut_ptr(), size) };
        (code, answer)
    }

    #[test]
    fn packet_counts_that_do_not_fit() {
        for (version, bytes) in [(1, 57), (2, 61)] {
            for size in 0..=3 {
                let mut packet = vec![7; bytes];
                let mut left = [bytes as u64, 9, 9];
                left[size.min(1)..].fill(9);
                assert_eq!(written(version, 1, &mut packet, size), (0, left));
                let mut left = [1, 35, 9];
                left[size.min(2)..].fill(9);
                assert_eq!(read(version, &packet, size), (0, left));
            }
        }
    }

    #[test]
    fn move_counts_that_do_not_fit() {
        let (mut one, mut two) = ([7; 57], [7; 61]);
        written(1, 1, &mut one, 3);
        written(2, 1, &mut two, 3);
        for size in 0..=3 {
            let (mut up, mut down) = ([7; 62], [7; 59]);
            let mut left = [61, 9, 9];
            left[size.min(1)..].fill(9);
            assert_eq!(moved(aspdrupe_packet_up, &one, &mut up, size), (0, left));
            assert_eq!((&up[..61], up[61]), (&two[..], 0));
            left[..size.min(1)].fill(57);
            assert_eq!(moved(aspdrupe_packet_down, &two, &mut down, size), (0, left));
            assert_eq!((&down[..57], &down[57..]), (&one[..], &[0, 0][..]));
        }
    }

    // "After a refusal .. `answer` stays as it was."
    #[test]
    fn packet_refusals_tell_no_numbers() {
        let mut packet = [7; 57];
        for (rules, length, code) in [(1, 56, 52), (0, 57, 53), (1 << 32 | 1, 57, 53)] {
            assert_eq!(written(1, rules, &mut packet[..length], 3), (code, [9; 3]));
        }
        written(1, 1, &mut packet, 3);
        assert_eq!(read(1, &packet[..4], 3), (51, [9; 3]));
        assert_eq!(read(1, &packet[..56], 3), (52, [9; 3]));
        packet[55] = b'x';
        assert_eq!(read(1, &packet, 3), (53, [9; 3]));
    }

    // A version that is none is 51, whatever else is given.
    #[test]
    fn versions_that_are_none() {
        let mut packet = [7; 57];
        written(1, 1, &mut packet, 3);
        for version in [0, 3, 256 + 1, 1 << 32 | 1, 1 << 32 | 2, u64::MAX] {
            let mut output = [7; 61];
            assert_eq!((written(version, 1, &mut output, 3), output), ((51, [9; 3]), [0; 61]));
            assert_eq!(written(version, 0, &mut [], 3), (51, [9; 3]));
            assert_eq!(read(version, &packet, 3), (51, [9; 3]));
            assert_eq!(read(version, &[], 3), (51, [9; 3]));
        }
    }

    #[test]
    fn move_refusals_tell_no_numbers() {
        let (mut one, mut two) = ([7; 57], [7; 61]);
        written(1, 1, &mut one, 3);
        written(2, 1, &mut two, 3);
        let mut weights = [&b"RVP\x02\x00\x05"[..], &[0; 27]].concat();
        weights[21] = 1;
        let (up, down): (Move, Move) = (aspdrupe_packet_up, aspdrupe_packet_down);
        let bad = [&two[..59], b"x\0"].concat();
        for (by, packet, room, code) in [
            (up, &two[..], 61, 51),
            (down, &one, 57, 51),
            (up, &one[..56], 61, 52),
            (down, &two[..60], 57, 52),
            (up, &one, 60, 52),
            (down, &two, 56, 52),
            (down, &bad, 57, 53),
            (down, &weights, 99, 61),
            (down, &weights, 0, 61),
        ] {
            let mut output = vec![7; room];
            assert_eq!((moved(by, packet, &mut output, 3), output), ((code, [9; 3]), vec![0; room]));
        }
    }

    /// The proof as both halves of the program, with a table and a store of so many words and an output of so many bytes: the code, and what
    /// is left in an answer of so many numbers.
    fn merged(table: usize, store: usize, output: usize, size: usize) -> (u32, [u64; 3]) {
        let (mut table, mut store, mut output) = (vec![7; table], vec![7; store], vec![7; output]);
        let mut answer = [9u64; 3];
        // SAFETY: as above.
        let code = unsafe {
            aspdrupe_merge_halves(
                PROGRAM.as_ptr(),
                PROGRAM.len(),
                1,
                PROOF.as_ptr(),
                PROOF.len(),
                PROOF.as_ptr(),
                PROOF.len(),
                table.as_mut_ptr(),
                table.len(),
                store.as_mut_ptr(),
                store.len(),
                output.as_mut_ptr(),
                output.len(),
                answer.as_mut_ptr(),
                size,
            )
        };
        (code, answer)
    }

    #[test]
    fn merge_counts_that_do_not_fit() {
        for size in 0..=3 {
            let mut left = [64, 9, 9];
            left[size.min(1)..].fill(9);
            assert_eq!(merged(6, 35, 64, size), (0, left));
            let mut left = [2, 0, 9];
            left[size.min(2)..].fill(9);
            assert_eq!(merged(5, 35, 64, size), (10, left));
        }
    }

    // "`answer` stays as it was" where no number is told.
    #[test]
    fn merge_refusals_tell_no_numbers() {
        for (store, output, code) in [(20, 64, 57), (35, 63, 58), (34, 64, 59)] {
            assert_eq!(merged(6, store, output, 3), (code, [9; 3]));
        }
    }

    /// The proof trimmed with a table and a store of so many words: the code, and what is left in an answer of so many numbers.
    fn trimmed(table: usize, store: usize, size: usize) -> (u32, [u64; 3]) {
        let (mut table, mut store, mut text) = (vec![7; table], vec![7; store], PROOF.to_vec());
        let mut answer = [9u64; 3];
        // SAFETY: as above.
        let code = unsafe {
            aspdrupe_trim_proof(
                PROGRAM.as_ptr(),
                PROGRAM.len(),
                text.as_mut_ptr(),
                text.len(),
                table.as_mut_ptr(),
                table.len(),
                store.as_mut_ptr(),
                store.len(),
                answer.as_mut_ptr(),
                size,
            )
        };
        (code, answer)
    }

    #[test]
    fn trim_counts_that_do_not_fit() {
        for size in 0..=3 {
            let mut left = [35, 9, 9];
            left[size.min(1)..].fill(9);
            assert_eq!(trimmed(6, 21, size), (0, left));
            let mut left = [2, 0, 9];
            left[size.min(2)..].fill(9);
            assert_eq!(trimmed(5, 21, size), (10, left));
            assert_eq!(trimmed(6, 20, size), (60, [9; 3]));
        }
    }

    /// A choice over 1 and 2 of which one must hold, where 1 costs 3 and 2 costs 5: the set {1} with a table and a store of so many words. The
    /// code, and what is left in an answer of so many numbers.
    fn cheapest(costs: &[i16], table: usize, store: usize, size: usize) -> (u32, [u64; 3]) {
        let program = b"asp 1 0 0\n1 1 2 1 2 0 0\n1 0 0 0 2 -1 -2\n0\n";
        let proof = b"b 3 1 0\nc 3 0\nb 4 2 0\nc 4 0\nb 5 -1 -2 0\nc 5 0\na 0\n";
        let (set, mut table, mut store) = ([1], vec![7; table], vec![7; store]);
        let mut answer = [9u64; 3];
        // SAFETY: as above.
        let code = unsafe {
            aspdrupe_check_cheapest(
                program.as_ptr(),
                program.len(),
                set.as_ptr(),
                set.len(),
                costs.as_ptr(),
                costs.len(),
                proof.as_ptr(),
                proof.len(),
                table.as_mut_ptr(),
                table.len(),
                store.as_mut_ptr(),
                store.len(),
                answer.as_mut_ptr(),
                size,
            )
        };
        (code, answer)
    }

    #[test]
    fn costs_that_do_not_fit() {
        for size in 0..=3 {
            let mut left = [3, 9, 9];
            left[size.min(1)..].fill(9);
            assert_eq!(cheapest(&[1, 3, 2, 5], 12, 40, size), (0, left));
            let mut left = [3, 0, 9];
            left[size.min(2)..].fill(9);
            assert_eq!(cheapest(&[1, 3, 2, 5], 11, 40, size), (10, left));
            assert_eq!(cheapest(&[1, 3, 2], 12, 40, size), (62, [9; 3]));
            assert_eq!(cheapest(&[1, 3, 2, 5], 12, 39, size), (63, [9; 3]));
        }
    }

    /// The proof as both ends of a tree that is split on an atom: the code, and what is left in an answer of so many numbers.
    fn merged_tree(atom: u16, table: usize, store: usize, output: usize, size: usize) -> (u32, [u64; 3]) {
        let (mut table, mut store, mut output) = (vec![7; table], vec![7; store], vec![7; output]);
        let (tree, texts, lengths) = ([atom, 0, 0], PROOF.repeat(2), [PROOF.len() as u64; 2]);
        let mut answer = [9u64; 3];
        // SAFETY: as above.
        let code = unsafe {
            aspdrupe_merge_tree(
                PROGRAM.as_ptr(),
                PROGRAM.len(),
                tree.as_ptr(),
                tree.len(),
                texts.as_ptr(),
                texts.len(),
                lengths.as_ptr(),
                lengths.len(),
                table.as_mut_ptr(),
                table.len(),
                store.as_mut_ptr(),
                store.len(),
                output.as_mut_ptr(),
                output.len(),
                answer.as_mut_ptr(),
                size,
            )
        };
        if code != 0 {
            assert!(table.iter().chain(&store).all(|word| *word == 0) && output.iter().all(|byte| *byte == 0));
        }
        (code, answer)
    }

    /// In a thread with the stack that the merge of a tree needs.
    fn on_tree_stack(test: fn()) {
        std::thread::Builder::new().stack_size(crate::TREE_STACK).spawn(test).unwrap().join().unwrap();
    }

    #[test]
    fn tree_counts_that_do_not_fit() {
        on_tree_stack(|| {
            for size in 0..=3 {
                let mut left = [64, 9, 9];
                left[size.min(1)..].fill(9);
                assert_eq!(merged_tree(1, 6, 35, 64, size), (0, left));
                let mut left = [2, 0, 9];
                left[size.min(2)..].fill(9);
                assert_eq!(merged_tree(1, 5, 35, 64, size), (10, left));
            }
        });
    }

    #[test]
    fn tree_refusals_tell_no_numbers() {
        on_tree_stack(|| {
            for (atom, store, output, code) in [(2, 35, 64, 64), (2, 20, 63, 64), (1, 20, 63, 57), (1, 34, 63, 58), (1, 34, 64, 59)] {
                assert_eq!(merged_tree(atom, 6, store, output, 3), (code, [9; 3]));
            }
        });
    }

    /// Thirteen literals of weight 1 that must not all hold, in groups of so many: the code, and what is left in an
    /// answer of so many numbers.
    fn split(group: u64, table: usize, output: usize, size: usize) -> (u32, [u64; 6]) {
        let pairs: String = (1..=13).map(|atom| format!(" {atom} 1")).collect();
        let program = format!("asp 1 0 0\n1 0 0 1 13 13{pairs}\n0\n");
        let (mut table, mut output, mut answer) = (vec![7; table], vec![7; output], [9u64; 6]);
        // SAFETY: as above.
        let code = unsafe {
            aspdrupe_split_sums(
                program.as_ptr(),
                program.len(),
                group,
                table.as_mut_ptr(),
                table.len(),
                output.as_mut_ptr(),
                output.len(),
                answer.as_mut_ptr(),
                size,
            )
        };
        if code != 0 {
            assert!(table.iter().all(|word| *word == 0) && output.iter().all(|byte| *byte == 0));
        }
        (code, answer)
    }

    #[test]
    fn split_counts_that_do_not_fit() {
        for size in 0..=6 {
            let mut left = [SPLIT as u64, 16, 4, 13, 9, 9];
            left[size.min(4)..].fill(9);
            assert_eq!(split(7, 31, SPLIT, size), (0, left));
            let mut left = [2, 0, 9, 9, 9, 9];
            left[size.min(2)..].fill(9);
            assert_eq!(split(7, 30, SPLIT, size), (10, left));
        }
    }

    /// The bytes of that program with its sum split.
    const SPLIT: usize = 130;

    #[test]
    fn split_refusals_tell_no_numbers() {
        for group in [0, 1, 13, 1 << 32 | 2, u64::MAX] {
            assert_eq!(split(group, 31, 0, 6), (65, [9; 6]));
        }
        assert_eq!(split(7, 31, SPLIT - 1, 6), (66, [9; 6]));
    }
}

/* The fourteen services of the proof checker for C: the program reader, the set test, the proof-line reader, the whole
 * check over two texts, the same for proofs of any length, the writer and the reader of packets, their moves from one
 * version to the other, the merge of two halves' proofs, the trimming of a proof, the certificate of a cheapest answer
 * set, the merge of the proofs at the ends of a tree of splits, and the splitting of long sums. The functions are in
 * target/staticlib/libexports.a, which `bindings/library` writes, for x86-64 Linux.
 *
 * Each function is proved to meet its contract (crates/exports/src/lib.rt and crates/exports/specs/) on every input: no text, no
 * number and no length is asked to be good. What the caller must see to is what C cannot say:
 *   - each pointer is valid for its length, counted in elements: readable where it is const, readable and writable where not;
 *     where the length is 0 it is not followed, and any pointer that is not null and is aligned for its type will do;
 *   - a buffer that is written overlaps no other argument;
 *   - the thread has ASPDRUPE_STACK bytes of stack for the call, ASPDRUPE_MERGE_STACK for aspdrupe_merge_halves, ASPDRUPE_TRIM_STACK
 *     for aspdrupe_trim_proof, ASPDRUPE_CHEAPEST_STACK for aspdrupe_check_cheapest, and ASPDRUPE_TREE_STACK for aspdrupe_merge_tree.
 * Nothing else: no function allocates, keeps a pointer, has a state of its own, or fails to return. Calls with buffers of their
 * own may run at the same time.
 *
 * The result is a code. Further numbers are put at the front of `answer`, as many as fit; what does not fit is not written, and
 * all other entries of `answer` stay as they were. ASPDRUPE_ANSWER entries hold every answer. */
#ifndef ASPDRUPE_H
#define ASPDRUPE_H

#include <stddef.h>
#include <stdint.h>

#ifdef __cplusplus
extern "C" {
#endif

/* A thread with a stack of so many bytes has enough for any call but those below, with what the C library takes of a thread's stack for itself.
 * What your own code and its thread-local variables take comes on top. The need does not grow with the texts: the whole check was measured
 * at 725,216 bytes, the splitting of sums at 203,680, the other services but those below at 64,304 or less
 * (bindings/c/stack.c); these figures and those below are of an older kit, and the sizes named hold with today's. Some C libraries give a
 * thread less by default: musl 128 KB. */
#define ASPDRUPE_STACK 786432

/* The same for aspdrupe_merge_halves, which checks the halves over a table of its own beside the one lent: 1,095,104 bytes were measured. */
#define ASPDRUPE_MERGE_STACK 1179648

/* The same for aspdrupe_trim_proof, which tries each step on a copy of the text: 1,262,672 bytes were measured. */
#define ASPDRUPE_TRIM_STACK 1310720

/* The same for aspdrupe_check_cheapest, which checks the proof over a table of its own beside the one lent: 987,808 bytes were measured. */
#define ASPDRUPE_CHEAPEST_STACK 1048576

/* The same for aspdrupe_merge_tree, which keeps the texts of both sides of a split while it merges them, at up to six splits on a path:
 * 2,213,792 bytes were measured. Rust gives a thread less by default: give a thread that calls it more. */
#define ASPDRUPE_TREE_STACK 2359296

/* The most numbers that an answer has. */
#define ASPDRUPE_ANSWER 4

/* The words of memory in which the index of aspdrupe_check_long reaches a store of so many words. More reach no further, and where the store is
 * closed up often they take time. */
#define ASPDRUPE_MEMORY(store_len) (49287 + ((store_len) + 7) / 8 * 25)

/* The marks that the set test asks for. */
#define ASPDRUPE_MARKS 8192

/* The numbers that the proof-line reader puts. */
#define ASPDRUPE_NUMBERS 65

/* What aspdrupe_test_set returns, other than a refusal's number. */
#define ASPDRUPE_YES 0
#define ASPDRUPE_DIFFERS 1
#define ASPDRUPE_BROKEN 2

/* What aspdrupe_check_texts and aspdrupe_check_long return. */
#define ASPDRUPE_INCONSISTENT 0
#define ASPDRUPE_OPEN 1
#define ASPDRUPE_REFUSED_PROGRAM 2
#define ASPDRUPE_REFUSED_PROOF 3

/* Reads a program text.
 * Returns 0 where it is read: answer[0] is N, the largest atom, and answer[1] the number of rules; the table holds the rules' words
 * and 0 after them. The words of a rule are its head kind, head count, body kind and body count, with body kind 1 the bound, then the heads
 * ascending, and the literals ascending by atom, with body kind 1 each with its weight behind it.
 * Otherwise returns the number of the question that the text fails, 1 to 11, 54 or 55: answer[0] is the line, counted from 1, or 0 where
 * the whole text is at fault, and answer[1] is 0; the table is 0 throughout. */
uint32_t aspdrupe_read_program(const uint8_t *text, size_t text_len, int32_t *table, size_t table_len, uint64_t *answer,
                               size_t answer_len);

/* Tests whether a set of atoms is an answer set of the program that a table holds, as aspdrupe_read_program leaves it with that
 * number of rules. The set is ascending; there are ASPDRUPE_MARKS marks.
 * Returns ASPDRUPE_YES; or ASPDRUPE_DIFFERS, where answer[0] is the lowest atom that lies in just one of the set and the least model of
 * its reduct; or ASPDRUPE_BROKEN, where the two are equal and answer[0] is the number of the first broken constraint, counted from 1. A rule
 * with weights is taken for the plain rules that it stands for, and counted once.
 * The marks then hold 1 at each atom of the least model, atom v at marks[v], and 0 elsewhere.
 * Otherwise returns 41 (no such table), 42 (no such set) or 43 (not ASPDRUPE_MARKS marks): all marks are 0. Where no number is
 * named, `answer` stays as it was. */
uint32_t aspdrupe_test_set(const int32_t *table, size_t table_len, uint64_t rules, const uint16_t *set, size_t set_len,
                           uint8_t *marks, size_t marks_len, uint64_t *answer, size_t answer_len);

/* Reads the proof line that begins at a byte position of a text, counted from 0.
 * Returns the letter's byte ('a', 'b', 'c', 'd', 'e', 'l' or 's') where there is one: answer[0] is how many numbers it has, without
 * the closing 0, and answer[1] the position after its newline; `numbers` begins with the line's numbers as written, followed by 0 up
 * to ASPDRUPE_NUMBERS entries, as many as fit.
 * Returns 0 at the end of the text, and otherwise the number of the question that is failed, 21 to 25: the first ASPDRUPE_NUMBERS
 * entries of `numbers` are 0, as many as there are, and `answer` stays as it was.
 * Entries of `numbers` after the first ASPDRUPE_NUMBERS stay as they were. */
uint32_t aspdrupe_read_line(const uint8_t *text, size_t text_len, uint64_t position, int32_t *numbers, size_t numbers_len,
                            uint64_t *answer, size_t answer_len);

/* Checks a proof text against a program text.
 * Returns ASPDRUPE_INCONSISTENT or ASPDRUPE_OPEN where both are good: answer[0] to answer[3] are N, the largest atom, the number of
 * rules, the number of steps, and K, the number of live nogoods after the last step; the table holds the rules' words and the store
 * nogoods, oldest first: the step that added it, the literal count, the literals ascending by variable. Both have 0 after these words. A
 * nogood whose first word is negative was deleted; K counts the others. The deleted ones stay until a step would not fit otherwise; then
 * all that are there go, and the others close up. A step's number is its place in the proof, counted from 1, deletions included.
 * ASPDRUPE_INCONSISTENT means that the program has no answer set.
 * Returns ASPDRUPE_REFUSED_PROGRAM: answer[0] is the number of the question that the program fails, 1 to 11, 54 or 55, and answer[1] the
 * line.
 * Returns ASPDRUPE_REFUSED_PROOF: answer[0] is the number of the question that the proof fails, 21 to 34 or 56, and answer[1] the step.
 * Line and step are counted from 1, and are 0 where the whole text is at fault. After a refusal table and store are 0 throughout. */
uint32_t aspdrupe_check_texts(const uint8_t *program, size_t program_len, const uint8_t *proof, size_t proof_len, int32_t *table,
                              size_t table_len, int32_t *store, size_t store_len, uint64_t *answer, size_t answer_len);

/* Checks a proof text of up to 2,147,483,647 bytes against a program text. Returns what aspdrupe_check_texts returns, with the same numbers, and
 * leaves the same words in table and store, save that question 21 is put with 2,147,483,647 bytes in place of 65,535.
 * The memory is working memory: words of any number, 0 too, whatever they hold. It is 0 throughout afterwards. How long it is decides how long
 * the check takes and nothing else: with ASPDRUPE_MEMORY(store_len) words an index reaches the whole store; past what it reaches, additions and
 * deletions go over the store. A store that holds all nogoods of a proof has no more words than this: for each line of n numbers 2 + n for
 * `a`, `c` and `s`, 2 + n + 4 * (n - 1) for `b` and `e`, and for `l` 3 and as many as there are `b` lines before it. */
uint32_t aspdrupe_check_long(const uint8_t *program, size_t program_len, const uint8_t *proof, size_t proof_len, int32_t *table,
                             size_t table_len, int32_t *store, size_t store_len, uint32_t *memory, size_t memory_len, uint64_t *answer,
                             size_t answer_len);

/* Writes a packet of a version, 1 or 2: a table, as aspdrupe_read_program leaves it with that number of rules, and a proof text, in one
 * sequence of bytes with one form for each such pair. The proof is not checked against the program. Version 1 holds the rules' words without
 * their body kinds, no weights, and variables up to 4,095; version 2 holds the rules' words as they are in the table, and variables up to
 * 8,191. An output of 13 + 4 * table_len + proof_len bytes holds every packet.
 * Returns 0 where it is written: answer[0] is how many bytes it has; the output holds them and 0 after them.
 * Otherwise returns 51 (another version), 53 (a table that aspdrupe_test_set refuses with 41, a proof text with a line that
 * aspdrupe_read_line refuses, and in version 1 a rule of body kind 1, or a variable above 4,095 in either) or 52 (the output is too short),
 * asked in this order: the output is 0 throughout, and `answer` stays as it was. */
uint32_t aspdrupe_write_packet(uint64_t version, const int32_t *table, size_t table_len, uint64_t rules, const uint8_t *proof,
                               size_t proof_len, uint8_t *packet, size_t packet_len, uint64_t *answer, size_t answer_len);

/* Reads a packet of a version, 1 or 2, back into a table and a proof text. The packet is all of the bytes given: zeros that the writer leaves
 * after it are none of it. A table of packet_len / 3 words and a text of 65,535 bytes hold whatever a packet has.
 * Returns 0 where it is read: answer[0] is the number of rules and answer[1] how many bytes the proof text has; the table holds the
 * rules' words, of version 1 each rule with body kind 0, and the text its bytes, each with 0 after them. Written again in that version, they
 * are the same packet.
 * Otherwise returns 51 (another mark, or a version that is not the one told, or a told one that is none), 52 (the lengths in it do not make up
 * the bytes given), 53 (a table or a proof text that aspdrupe_write_packet refuses) or again 52 (the table or the text lent is too short),
 * asked in this order: table and text are 0 throughout, and `answer` stays as it was. */
uint32_t aspdrupe_read_packet(uint64_t version, const uint8_t *packet, size_t packet_len, int32_t *table, size_t table_len, uint8_t *proof,
                              size_t proof_len, uint64_t *answer, size_t answer_len);

/* Moves a packet of version 1 to version 2. An output of packet_len + packet_len / 3 bytes holds every packet made. Moved down again, it has
 * its bytes of before.
 * Returns 0 where it is moved: answer[0] is how many bytes the packet made has; the output holds them and 0 after them.
 * Otherwise returns 51 (another mark or version), 52 (the lengths in it do not make up the bytes given), 53 (a table or a proof text that
 * aspdrupe_write_packet refuses) or again 52 (the output is too short), asked in this order: the output is 0 throughout, and `answer` stays as
 * it was. */
uint32_t aspdrupe_packet_up(const uint8_t *packet, size_t packet_len, uint8_t *output, size_t output_len, uint64_t *answer,
                            size_t answer_len);

/* Moves a packet of version 2 to version 1, where that can hold its pair. An output of packet_len bytes holds every packet made.
 * Returns 0 where it is moved: answer[0] is how many bytes the packet made has; the output holds them and 0 after them.
 * Otherwise returns 51 (another mark or version), 52 (the lengths in it do not make up the bytes given), 53 (a table or a proof text that
 * aspdrupe_write_packet refuses), 61 (a rule of body kind 1, or a variable above 4,095 in a rule or in a step) or again 52 (the output is too
 * short), asked in this order: the output is 0 throughout, and `answer` stays as it was. */
uint32_t aspdrupe_packet_down(const uint8_t *packet, size_t packet_len, uint8_t *output, size_t output_len, uint64_t *answer,
                              size_t answer_len);

/* Merges the proofs of two halves into one proof for the program itself. The program is split on an atom, one of 1 to N: the first proof is
 * for the program with a constraint added that demands the atom, the second for the program with a constraint added that forbids it. Both are
 * accepted where their check comes to ASPDRUPE_INCONSISTENT. 65,535 bytes hold every merged text.
 * Returns 0 where it is written: answer[0] is how many bytes the text has; the output holds it and 0 after it, and table and store are as
 * aspdrupe_check_texts leaves them for the program and that text, which comes to ASPDRUPE_INCONSISTENT.
 * Returns the number of the question that the program fails, 1 to 11, 54 or 55: answer[0] is the line and answer[1] is 0, as
 * aspdrupe_read_program has them.
 * Otherwise returns 57 (the atom is none of the program's, or a half is refused or open when it is checked with the store lent), 58 (a line
 * of more than ASPDRUPE_NUMBERS numbers, a name above 8,191, or a text that is longer than 65,535 bytes or than the output) or 59 (the merged
 * text's live nogoods do not fit the store), asked in this order: `answer` stays as it was.
 * After a refusal, the program's too, table, store and output are 0 throughout. */
uint32_t aspdrupe_merge_halves(const uint8_t *program, size_t program_len, uint64_t atom, const uint8_t *first, size_t first_len,
                               const uint8_t *second, size_t second_len, int32_t *table, size_t table_len, int32_t *store,
                               size_t store_len, uint8_t *output, size_t output_len, uint64_t *answer, size_t answer_len);

/* Leaves of a proof only what it needs. The lent text is the proof, all of it: a zero byte after it is part of it. Steps are tried for removal
 * from the last to the first, and one goes where the proof without it still comes to ASPDRUPE_INCONSISTENT with the store lent; passes
 * over all steps repeat until one removes none.
 * Returns 0 where the proof came to ASPDRUPE_INCONSISTENT: answer[0] is how many bytes are left; the text begins with them, the steps in
 * their old order, and is 0 after them. Table and store are as aspdrupe_check_texts leaves them for the program and that text, which comes to
 * ASPDRUPE_INCONSISTENT, and without any single one of its steps it does not.
 * Returns the number of the question that the program fails, 1 to 11, 54 or 55: answer[0] is the line and answer[1] is 0, as
 * aspdrupe_read_program has them.
 * Otherwise returns 60 (the proof is refused or open when it is checked with the store lent): `answer` stays as it was.
 * After a refusal, the program's too, the text is as it was, and table and store are 0 throughout.
 * A pass is a whole check for each step, and there can be as many passes as steps. */
uint32_t aspdrupe_trim_proof(const uint8_t *program, size_t program_len, uint8_t *text, size_t text_len, int32_t *table, size_t table_len,
                             int32_t *store, size_t store_len, uint64_t *answer, size_t answer_len);

/* Certifies that a set is a cheapest answer set. `costs` holds literals over the program's atoms, each before its cost: at most 12 pairs, no
 * atom twice, in any order, each cost 0 to 4,095. The set is ascending. It costs C, the sum of the costs whose literals it makes true. Where C is
 * above 0 the proof is for the program with one constraint more, its last rule, with a weight body: the cost literals with their costs, and
 * bound C, so that a cost of C or more breaks it.
 * Returns 0 where the set is an answer set and, for C above 0, that proof comes to ASPDRUPE_INCONSISTENT with the store lent: answer[0] is C. No
 * answer set of the program costs less. The table holds the program's rules, without the constraint, and the store is as aspdrupe_check_texts
 * leaves it for the program with it. Where C is 0 no proof is read, and the store is 0 throughout. Two totals returned for one program under
 * lists that differ in one cost by D differ by at most D.
 * Returns the number of the question that the program fails, 1 to 11, 54 or 55: answer[0] is the line and answer[1] is 0, as
 * aspdrupe_read_program has them.
 * Otherwise returns 42 (no such set), 62 (costs_len is odd, more than 12 pairs, a literal that is 0 or over no atom of the program, an atom
 * twice, a cost out of its range, or C above 4,095) or 63 (the set is no answer set, or for C above 0 the proof is refused or open), asked in
 * this order: `answer` stays as it was. No marks are lent, so 43 is not asked.
 * After a refusal, the program's too, table and store are 0 throughout. */
uint32_t aspdrupe_check_cheapest(const uint8_t *program, size_t program_len, const uint16_t *set, size_t set_len, const int16_t *costs,
                                 size_t costs_len, const uint8_t *proof, size_t proof_len, int32_t *table, size_t table_len,
                                 int32_t *store, size_t store_len, uint64_t *answer, size_t answer_len);

/* Merges the proofs at the ends of a tree of splits into one proof for the program itself. `tree` holds the tree's numbers: 0 for an end; for a
 * split its atom, one of 1 to N, then the side that demands the atom, then the side that forbids it. No atom stands twice on a path, and a path
 * has at most six splits. `texts` holds the proofs of the ends in that order, one right after the other, and `lengths` the bytes of each. An
 * end's proof is for the program with one constraint more for each split on its path, in the order from the root, as for aspdrupe_merge_halves;
 * it is accepted where its check comes to ASPDRUPE_INCONSISTENT. A tree of one end, the single number 0, is a plain proof, which is written as it
 * stands. 65,535 bytes hold every merged text.
 * Returns 0 where it is written: answer[0] is how many bytes the text has; the output holds it and 0 after it, and table and store are as
 * aspdrupe_check_texts leaves them for the program and that text, which comes to ASPDRUPE_INCONSISTENT.
 * Returns the number of the question that the program fails, 1 to 11, 54 or 55: answer[0] is the line and answer[1] is 0, as
 * aspdrupe_read_program has them.
 * Otherwise returns 64 (the numbers are no such tree, have others after it, or name an atom that is none of the program's; or there are not as
 * many lengths as ends, or they do not add up to texts_len), asked before any end is read; or what is met first, a side that demands an atom
 * whole before the one that forbids it, and both before their merge: 57 (an end is refused or open when it is checked with the store lent), 58
 * (a merge has a line of more than ASPDRUPE_NUMBERS numbers, a name above 8,191, or a text that is longer than 65,535 bytes or than the output; a
 * tree of one end is longer than the output) or 59 (the live nogoods of a merged text do not fit the store). `answer` stays as it was. Each merge
 * is held to the whole output and store, those inside the tree too; ends under a split are not held to the output.
 * After a refusal, the program's too, table, store and output are 0 throughout. */
uint32_t aspdrupe_merge_tree(const uint8_t *program, size_t program_len, const uint16_t *tree, size_t tree_len, const uint8_t *texts,
                             size_t texts_len, const uint64_t *lengths, size_t lengths_len, int32_t *table, size_t table_len,
                             int32_t *store, size_t store_len, uint8_t *output, size_t output_len, uint64_t *answer, size_t answer_len);

/* Writes a program with its long sums split into short ones. A sum may have 64 literals. One of more than 12 is added
 * up in groups of `group` literals, 2 to 12, those of like weight together, by rules over new atoms above N; the rules
 * that define them stand before the rule itself. All other rules are written as they are read, their numbers in order.
 * What is written has the program's answer sets: each of its answer sets has, up to N, the atoms of one of the program,
 * and each of the program is found so. So where a check of what is written comes to ASPDRUPE_INCONSISTENT, the
 * program has no answer set. An output of 65,535 bytes holds every text that is written.
 * Returns 0 where it is written: answer[0] to answer[3] are its bytes, its largest atom, the number of its rules, and
 * N, the largest atom of the program as written; the output holds the text and 0 after it, and the table the words of
 * the program as written and 0 after them.
 * Returns the number of the question that the program fails, 1 to 11 or 54: answer[0] is the line and answer[1] is 0,
 * as aspdrupe_read_program has them. 55 would be more than 64 literals, which are 6 before it.
 * Otherwise returns 65 (the group size is not 2 to 12) or 66 (what would be written has more than 1,024 rules, an atom
 * above 8,191, or a text that is longer than 65,535 bytes or than the output), asked in this order: `answer` stays as
 * it was.
 * After a refusal, the program's too, table and output are 0 throughout. */
uint32_t aspdrupe_split_sums(const uint8_t *program, size_t program_len, uint64_t group, int32_t *table, size_t table_len, uint8_t *output,
                             size_t output_len, uint64_t *answer, size_t answer_len);

#ifdef __cplusplus
}
#endif

#endif

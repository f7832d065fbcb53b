/* How much stack the services need. Every service is called, on inputs that reach its deepest paths, each call in a thread of its own:
 *
 *   stack           in threads with a stack of ASPDRUPE_STACK bytes, ASPDRUPE_MERGE_STACK for merges, ASPDRUPE_TRIM_STACK for trimming,
 *                   ASPDRUPE_CHEAPEST_STACK for cheapest answer sets, or ASPDRUPE_TREE_STACK for trees: the test, which bindings/c/run builds
 *                   and runs
 *   stack SIZE      in threads with a stack of SIZE bytes
 *   stack measure   in threads with more than enough; prints how many bytes of it each has used, with what the thread itself takes
 *
 * The exit status is 0 where every call has answered as it must. Of a call that leaves its stack the signal is told.
 *
 * To measure, from the repository's root:
 *   bindings/library
 *   cc -pthread -o target/stack bindings/c/stack.c target/staticlib/libexports.a && target/stack measure */
#define _DEFAULT_SOURCE
#include <inttypes.h>
#include <limits.h>
#include <pthread.h>
#include <stdarg.h>
#include <stdio.h>
#include <stdlib.h>
#include <string.h>
#include <sys/mman.h>
#include <sys/wait.h>
#include <unistd.h>

#include "aspdrupe.h"

/* Below a thread's stack, so that a frame cannot reach past it; and the stack that is measured on. */
#define GUARD ((size_t)1 << 20)
#define PLENTY ((size_t)1 << 22)
#define PATTERN 0xA5

/* The limits of documents 01 and 02. */
#define TEXT 65535
#define WORDS 16384
#define RULES 1024
#define PART 64
#define WEIGHTED 12
#define PACKET (13 + 4 * WORDS + TEXT)

/* Behind the chain's steps for the long check: so many deletions that take nothing away. */
#define IDLE 20000
#define IDLE_STEP "d 2 0\n"
#define LONG (TEXT + IDLE * (sizeof IDLE_STEP - 1))

struct text {
    uint8_t bytes[TEXT + 1];
    size_t size;
};

static void stop(const char *what) {
    perror(what);
    exit(2);
}

/* Appends to a text. */
static void put(struct text *text, const char *format, ...) {
    va_list values;
    va_start(values, format);
    size_t room = sizeof text->bytes - text->size;
    int size = vsnprintf((char *)text->bytes + text->size, room, format, values);
    va_end(values);
    if (size < 0 || (size_t)size >= room) stop("a text is too long");
    text->size += (size_t)size;
}

/* Appends numbers, the first to the last, with a space before each. */
static void put_range(struct text *text, int first, int last) {
    for (int n = first; n <= last; n++) put(text, " %d", n);
}

/* ---- The inputs ---- */

static struct text newlines, long_line, one_rule, chain, wide_rules, wide_steps, big_rules, full_rules, full_steps;
static struct text weight_rules, weight_steps, many_weights, long_sum, scattered_sum;
static int32_t weight_table[WORDS];
static uint8_t long_steps[LONG];
static size_t long_size;

/* One rule, and a chain of definitions of which the last name is refuted only at the chain's far end. */
static void make_chain(void) {
    put(&one_rule, "asp 1 0 0\n1 0 1 1 0 1 -1\n0\n");
    put(&chain, "b 2 -1 0\nc 2 1 0\ns 1 2 0\n");
    for (int name = 3; name <= 2002; name++) put(&chain, "e %d %d 0\n", name, name - 1);
    for (int i = 0; i < 100; i++) put(&chain, "a 2002 0\nd 2002 0\n");
    put(&chain, "a 1 0\na 0\n");
    memcpy(long_steps, chain.bytes, chain.size);
    long_size = chain.size;
    for (int i = 0; i < IDLE; i++) {
        memcpy(long_steps + long_size, IDLE_STEP, sizeof IDLE_STEP - 1);
        long_size += sizeof IDLE_STEP - 1;
    }
}

/* Rules with as many heads and literals as there may be, of which 65 atoms are a loop, and steps with as many numbers. */
static void make_wide(void) {
    put(&wide_rules, "asp 1 0 0\n1 1 64");
    put_range(&wide_rules, 1, PART);
    put(&wide_rules, " 0 64");
    put_range(&wide_rules, PART + 1, 2 * PART);
    put(&wide_rules, "\n1 0 1 65 0 64");
    put_range(&wide_rules, 1, PART);
    put(&wide_rules, "\n1 0 1 1 0 0\n0\n");
    put(&wide_steps, "b 130");
    put_range(&wide_steps, PART + 1, 2 * PART);
    put(&wide_steps, " 0\nb 131 0\nc 131 1 0\ns 1 130 131 0\ne 132");
    put_range(&wide_steps, 1, PART);
    put(&wide_steps, " 0\nl");
    put_range(&wide_steps, 1, PART + 1);
    put(&wide_steps, " 0\n");
    for (const char *letter = "ad"; *letter != 0; letter++) {
        put(&wide_steps, "%c 132 -1", *letter);
        put_range(&wide_steps, 2, PART);
        put(&wide_steps, " 0\n");
    }
}

/* Rules with 64 heads, nearly as many as a text holds. */
static void make_big(void) {
    put(&big_rules, "asp 1 0 0\n");
    for (int i = 0; i < 190; i++) {
        put(&big_rules, "1 1 64");
        put_range(&big_rules, 1000, 999 + PART);
        put(&big_rules, " 0 0\n");
    }
    put(&big_rules, "0\n");
}

/* As many rules as there may be, in a table that they fill, and the steps that go through all of them until the text is nearly full. */
static void make_full(void) {
    put(&full_rules, "asp 1 0 0\n");
    for (int i = 0; i < RULES; i++) put(&full_rules, "1 1 7 2 3 4 5 6 7 8 0 5 %s\n", i % 2 == 0 ? "2 3 4 5 6" : "4 5 6 7 8");
    put(&full_rules, "0\n");
    put(&full_steps, "b 9 2 3 4 5 6 0\nb 10 4 5 6 7 8 0\n");
    while (full_steps.size < TEXT - 80) {
        put(&full_steps, "s 2 9 10 0\nd 2 -9 -10 0\nl 8 0\nd 8 -9 0\nl 2 3 0\nd 2 -10 0\nl 3 4 8 0\nd 3 0\n");
    }
}

/* How many rules with twelve weights and one head fill the table. */
#define WEIGHT_RULES (WORDS / (6 + 2 * WEIGHTED))

/* Rules with as many weights as there may be, whose bodies are all of their literals but one, the last of them put
 * aside for one by which their head is a loop, and steps that go through all of them; and a line with more weights, as
 * many as are read before it is refused. Two sums of as many literals: one whose partial sums have many levels, and one
 * with so many that the program split would have too many rules. */
static void make_weights(void) {
    put(&weight_rules, "asp 1 0 0\n");
    for (int i = 1; i < WEIGHT_RULES; i++) {
        put(&weight_rules, "1 0 1 13 1 %d %d", WEIGHTED - 1, WEIGHTED);
        for (int atom = 1; atom <= WEIGHTED; atom++) put(&weight_rules, " %d 1", -atom);
        put(&weight_rules, "\n");
    }
    put(&weight_rules, "1 0 1 13 0 1 13\n0\n");
    for (int left = 1; left <= WEIGHTED; left++) {
        put(&weight_steps, "b %d", 13 + left);
        for (int atom = 1; atom <= WEIGHTED; atom++) {
            if (atom != left) put(&weight_steps, " %d", -atom);
        }
        put(&weight_steps, " 0\n");
    }
    put(&weight_steps, "b %d 13 0\nc 14 13 0\ns 13", 14 + WEIGHTED);
    put_range(&weight_steps, 14, 14 + WEIGHTED);
    put(&weight_steps, " 0\nl 13 0\n");
    put(&many_weights, "asp 1 0 0\n1 1 64");
    put_range(&many_weights, 1, PART);
    put(&many_weights, " 1 4095 64");
    for (int atom = 1; atom <= PART; atom++) put(&many_weights, " %d 4095", -atom);
    put(&many_weights, "\n0\n");
    for (int scattered = 0; scattered <= 1; scattered++) {
        struct text *sum = scattered ? &scattered_sum : &long_sum;
        put(sum, "asp 1 0 0\n1 0 0 1 %d 64", scattered ? 4095 : 100);
        for (int atom = 1; atom <= PART; atom++) put(sum, " %d %d", atom, scattered ? atom * 997 % 1009 : atom % 5);
        put(sum, "\n0\n");
    }
    uint64_t read[2];
    if (aspdrupe_read_program(weight_rules.bytes, weight_rules.size, weight_table, WORDS, read, 2) != 0) stop("a program is refused");
}

/* A table with its rule count, a proof text, and the packet of both in a version. */
struct packet {
    uint64_t version;
    int32_t table[WORDS];
    uint64_t rules;
    const struct text *proof;
    uint8_t bytes[PACKET];
    size_t size;
};

static struct packet wide_packet, full_packet, bad_packet, new_packet, weight_packet;

/* The packet of a program and a proof in a version, made on the stack of the main thread. */
static void make_packet(struct packet *packet, uint64_t version, const struct text *program, const struct text *proof) {
    uint64_t read[2], written[1];
    packet->version = version;
    if (aspdrupe_read_program(program->bytes, program->size, packet->table, WORDS, read, 2) != 0) stop("a program is refused");
    packet->rules = read[1];
    packet->proof = proof;
    uint32_t code = aspdrupe_write_packet(version, packet->table, WORDS, packet->rules, proof->bytes, proof->size, packet->bytes, PACKET,
                                          written, 1);
    if (code != 0) stop("a packet is refused");
    packet->size = (size_t)written[0];
}

/* Packets with as many numbers as a step may have, with as many words and steps as fit, in version 2 too, one with weights, and one that is
 * refused at its last number. */
static void make_packets(void) {
    make_packet(&wide_packet, 1, &wide_rules, &wide_steps);
    make_packet(&full_packet, 1, &full_rules, &full_steps);
    make_packet(&new_packet, 2, &full_rules, &full_steps);
    make_packet(&weight_packet, 2, &weight_rules, &weight_steps);
    bad_packet = full_packet;
    bad_packet.bytes[bad_packet.size - 1] = 0x80;
}

/* A program, the atom that it is split on, and the proofs of its two halves. */
struct split {
    struct text program, first, second;
    uint64_t atom;
};

static struct split weight_split, full_split;

/* The proof of a half of the program with weights, with names from this one on: all bodies, the atoms without a rule, and a loop. */
static void put_weight_half(struct text *half, int names) {
    for (int left = 1; left <= WEIGHTED; left++) {
        put(half, "b %d", names + left);
        for (int atom = 1; atom <= WEIGHTED; atom++) {
            if (atom != left) put(half, " %d", -atom);
        }
        put(half, " 0\n");
    }
    put(half, "b %d 13 0\nc %d 13 0\nc %d 0\ns 13", names + 13, names + 1, names + 13);
    put_range(half, names + 1, names + 13);
    put(half, " 0\nl 13 0\n");
    for (int atom = 1; atom <= WEIGHTED; atom++) put(half, "s %d 0\n", atom);
    put(half, "a 13 0\na 0\n");
}

/* Rules with weights that fill the table, by which atom 13 holds, and a constraint against it. The first half names and completes its own
 * constraint too; the second has other names, one of them the first half's. */
static void make_weight_split(void) {
    struct split *split = &weight_split;
    split->atom = 13;
    put(&split->program, "asp 1 0 0\n");
    for (int i = 2; i < WEIGHT_RULES; i++) {
        put(&split->program, "1 0 1 13 1 %d %d", WEIGHTED - 1, WEIGHTED);
        for (int atom = 1; atom <= WEIGHTED; atom++) put(&split->program, " %d 1", -atom);
        put(&split->program, "\n");
    }
    put(&split->program, "1 0 1 13 0 1 13\n1 0 0 0 1 13\n0\n");
    put(&split->first, "b 14 -13 0\nc 14 0\n");
    put_weight_half(&split->first, 14);
    put(&split->second, "e 14 -13 0\n");
    put_weight_half(&split->second, 20);
}

/* As many rules as there may be, and a first half that nearly fills the merged text with lines of 64 numbers, widened to 65. */
static void make_full_split(void) {
    struct split *split = &full_split;
    split->atom = 1;
    put(&split->program, "asp 1 0 0\n1 0 1 1 0 1 -1\n");
    for (int i = 1; i < RULES; i++) put(&split->program, "1 1 7 2 3 4 5 6 7 8 0 5 4 5 6 7 8\n");
    put(&split->program, "0\n");
    put(&split->first, "b 9 -1 0\nc 9 0\nc 9 1 0\ns 1 9 0\na 0\n");
    for (int name = 8001; name <= 8000 + PART; name++) put(&split->first, "e %d 0\n", name);
    while (split->first.size < TEXT - 1000) {
        put(&split->first, "a");
        put_range(&split->first, 8001, 8000 + PART);
        put(&split->first, " 0\n");
    }
    put(&split->second, "b 9 -1 0\nb 10 1 0\nc 10 0\nc 9 1 0\ns 1 9 0\ne 8001 9 0\na 0\n");
}

static struct text weight_proof, open_proof, full_proof;

/* Proofs for the programs of the splits themselves: with weights, the same with its empty nogood deleted, and one that nearly fills the text
 * with lines of 65 numbers that it does not need. */
static void make_proofs(void) {
    put_weight_half(&weight_proof, 13);
    open_proof = weight_proof;
    put(&open_proof, "d 0\n");
    put(&full_proof, "b 9 -1 0\nc 9 1 0\ns 1 9 0\na 1 0\na 0\n");
    for (int name = 8001; name <= 8001 + PART; name++) put(&full_proof, "e %d 0\n", name);
    while (full_proof.size < TEXT - 400) {
        put(&full_proof, "a");
        put_range(&full_proof, 8001, 8001 + PART);
        put(&full_proof, " 0\n");
    }
}

static struct text weight_certificate, full_certificate;
static const uint16_t weight_set[] = {13};
static const int16_t weight_costs[] = {1, 1, 2, 1, 3, 1, 4, 1, 5, 1, 6, 1, -7, 1, -8, 1, -9, 1, -10, 1, -11, 1, 13, 1};
static const int16_t full_costs[] = {-1, 1, -2, 1, -3, 1, -4, 1, -5, 1, -6, 1, -7, 1, -8, 1};

/* Proofs that no answer set is cheaper: with weights that fill the table and a restriction to less than 6 of 12, which has as many bodies as
 * there may be; and with as many rules as there may be and a text that is nearly full. */
static void make_certificates(void) {
    weight_certificate = weight_steps;
    for (int atom = 1; atom <= WEIGHTED; atom++) put(&weight_certificate, "s %d 0\n", atom);
    put(&weight_certificate, "b 27 -7 -8 -9 -10 -11 13 0\nc 27 0\na 0\n");
    put(&full_certificate, "b 9 2 3 4 5 6 0\nb 10 4 5 6 7 8 0\n");
    for (int first = 2; first <= 8; first++) {
        put(&full_certificate, "l %d", first);
        put_range(&full_certificate, 2, first - 1);
        put_range(&full_certificate, first + 1, 8);
        put(&full_certificate, " 0\n");
    }
    put(&full_certificate, "s 1 0\nb 11 -1 -2 -3 -4 -5 -6 -7 -8 0\nc 11 0\na 0\n");
    while (full_certificate.size < TEXT - 80) put(&full_certificate, "s 2 9 10 0\nd 2 -9 -10 0\nl 8 0\nd 8 -9 0\n");
}

/* A program, six splits that each have an end where the atom is forbidden, the numbers that are this tree, and the texts of the ends. */
#define SPLITS 6
#define ENDS (SPLITS + 1)
#define NUMBERS (SPLITS + ENDS)

struct tree {
    const struct text *program;
    uint16_t numbers[NUMBERS];
    uint8_t texts[2 * TEXT];
    size_t size;
    uint64_t lengths[ENDS];
};

static struct tree weight_tree, full_tree, bad_tree;
static struct text full_end;

/* The tree on six atoms from this one on, with a proof for the end where all are demanded and one for each of the others. */
static void make_tree(struct tree *tree, const struct text *program, uint16_t atom, const struct text *first, const struct text *others) {
    tree->program = program;
    tree->size = 0;
    for (size_t i = 0; i < SPLITS; i++) tree->numbers[i] = (uint16_t)(atom + i);
    for (size_t i = 0; i < ENDS; i++) {
        const struct text *end = i == 0 ? first : others;
        memcpy(tree->texts + tree->size, end->bytes, end->size);
        tree->size += end->size;
        tree->lengths[i] = end->size;
    }
}

/* Trees of the programs of the splits: with weights at each end; with an end that nearly fills the merged text with lines of 59 numbers, widened
 * to 65; and one whose last end is open. */
static void make_trees(void) {
    static struct text small;
    put(&small, "b 9 -1 0\nc 9 1 0\ns 1 9 0\na 1 0\na 0\n");
    full_end = small;
    for (int name = 8001; name <= 8000 + PART - 5; name++) put(&full_end, "e %d 0\n", name);
    while (full_end.size < TEXT - 4000) {
        put(&full_end, "a");
        put_range(&full_end, 8001, 8000 + PART - 5);
        put(&full_end, " 0\n");
    }
    make_tree(&weight_tree, &weight_split.program, 1, &weight_proof, &weight_proof);
    make_tree(&full_tree, &full_split.program, 2, &full_end, &small);
    bad_tree = full_tree;
    memcpy(bad_tree.texts + bad_tree.size, "d 0\n", 4);
    bad_tree.size += 4;
    bad_tree.lengths[ENDS - 1] += 4;
}

static void make_inputs(void) {
    make_chain();
    make_wide();
    make_big();
    make_full();
    make_weights();
    make_packets();
    make_weight_split();
    make_full_split();
    make_proofs();
    make_certificates();
    make_trees();
    for (int i = 0; i < TEXT; i++) put(&newlines, "\n");
    put(&long_line, "a");
    while (long_line.size < TEXT - 10) put(&long_line, " -8191");
    put(&long_line, " 0\n");
}

/* ---- The calls ---- */

/* What a call is lent, apart from the texts. */
static int32_t table[WORDS], store[WORDS], numbers[ASPDRUPE_NUMBERS];
static uint8_t marks[ASPDRUPE_MARKS], bytes[PACKET], proof_text[TEXT + 1];
static uint64_t answer[ASPDRUPE_ANSWER];

static uint32_t read_program(const struct text *text) {
    return aspdrupe_read_program(text->bytes, text->size, table, WORDS, answer, ASPDRUPE_ANSWER);
}

static uint32_t read_line(const struct text *text) {
    return aspdrupe_read_line(text->bytes, text->size, 0, numbers, ASPDRUPE_NUMBERS, answer, ASPDRUPE_ANSWER);
}

static uint32_t check(const struct text *program, const struct text *proof) {
    return aspdrupe_check_texts(program->bytes, program->size, proof->bytes, proof->size, table, WORDS, store, WORDS, answer,
                                ASPDRUPE_ANSWER);
}

static uint32_t memory[ASPDRUPE_MEMORY(WORDS)];

static uint32_t long_check(const struct text *program, const uint8_t *proof, size_t proof_size, size_t memory_size) {
    return aspdrupe_check_long(program->bytes, program->size, proof, proof_size, table, WORDS, store, WORDS, memory, memory_size, answer,
                               ASPDRUPE_ANSWER);
}

static uint32_t write_packet(const struct packet *packet, const struct text *proof, size_t size) {
    return aspdrupe_write_packet(packet->version, packet->table, WORDS, packet->rules, proof->bytes, proof->size, bytes, size, answer,
                                 ASPDRUPE_ANSWER);
}

static uint32_t read_packet(const struct packet *packet, size_t text_size) {
    return aspdrupe_read_packet(packet->version, packet->bytes, packet->size, table, WORDS, proof_text, text_size, answer, ASPDRUPE_ANSWER);
}

static uint32_t up(const struct packet *packet, size_t size) {
    return aspdrupe_packet_up(packet->bytes, packet->size, bytes, size, answer, ASPDRUPE_ANSWER);
}

static uint32_t down(const struct packet *packet, size_t size) {
    return aspdrupe_packet_down(packet->bytes, packet->size, bytes, size, answer, ASPDRUPE_ANSWER);
}

static uint32_t merge(const struct split *split, size_t store_size, size_t size) {
    return aspdrupe_merge_halves(split->program.bytes, split->program.size, split->atom, split->first.bytes, split->first.size,
                                 split->second.bytes, split->second.size, table, WORDS, store, store_size, bytes, size, answer,
                                 ASPDRUPE_ANSWER);
}

static uint32_t trim(const struct text *program, const struct text *proof, size_t size, size_t store_size) {
    memcpy(proof_text, proof->bytes, size);
    return aspdrupe_trim_proof(program->bytes, program->size, proof_text, size, table, WORDS, store, store_size, answer, ASPDRUPE_ANSWER);
}

static uint32_t certify(const struct text *program, const uint16_t *set, size_t count, const int16_t *costs, size_t costs_size,
                        const struct text *proof, size_t store_size) {
    return aspdrupe_check_cheapest(program->bytes, program->size, set, count, costs, costs_size, proof->bytes, proof->size, table, WORDS,
                                   store, store_size, answer, ASPDRUPE_ANSWER);
}

static uint32_t merge_tree(const struct tree *tree, size_t numbers_size, size_t store_size, size_t size) {
    return aspdrupe_merge_tree(tree->program->bytes, tree->program->size, tree->numbers, numbers_size, tree->texts, tree->size,
                               tree->lengths, ENDS, table, WORDS, store, store_size, bytes, size, answer, ASPDRUPE_ANSWER);
}

static uint32_t split_sums(const struct text *program, uint64_t group, size_t size) {
    return aspdrupe_split_sums(program->bytes, program->size, group, table, WORDS, bytes, size, answer, ASPDRUPE_ANSWER);
}

static uint32_t read_full(void) { return read_program(&full_rules); }
static uint32_t read_big(void) { return read_program(&big_rules); }
static uint32_t read_wide(void) { return read_program(&wide_rules); }
static uint32_t read_weights(void) { return read_program(&weight_rules); }
static uint32_t read_many(void) { return read_program(&many_weights); }
static uint32_t read_newlines(void) { return read_program(&newlines); }
static uint32_t line_wide(void) { return read_line(&wide_steps); }
static uint32_t line_long(void) { return read_line(&long_line); }
static uint32_t check_chain(void) { return check(&one_rule, &chain); }
static uint32_t check_wide(void) { return check(&wide_rules, &wide_steps); }
static uint32_t check_full(void) { return check(&full_rules, &full_steps); }
static uint32_t check_weights(void) { return check(&weight_rules, &weight_steps); }
static uint32_t check_long(void) { return check(&one_rule, &long_line); }
static uint32_t check_newlines(void) { return check(&newlines, &newlines); }
static uint32_t long_chain(void) { return long_check(&one_rule, long_steps, long_size, ASPDRUPE_MEMORY(WORDS)); }
static uint32_t long_swept(void) { return long_check(&one_rule, chain.bytes, chain.size, 0); }
static uint32_t long_wide(void) { return long_check(&wide_rules, wide_steps.bytes, wide_steps.size, ASPDRUPE_MEMORY(WORDS)); }
static uint32_t long_full(void) { return long_check(&full_rules, full_steps.bytes, full_steps.size, ASPDRUPE_MEMORY(WORDS)); }
static uint32_t long_weights(void) { return long_check(&weight_rules, weight_steps.bytes, weight_steps.size, ASPDRUPE_MEMORY(WORDS)); }
static uint32_t long_line_long(void) { return long_check(&one_rule, long_line.bytes, long_line.size, ASPDRUPE_MEMORY(WORDS)); }
static uint32_t long_newlines(void) { return long_check(&newlines, newlines.bytes, newlines.size, ASPDRUPE_MEMORY(WORDS)); }
static uint32_t write_full(void) { return write_packet(&full_packet, full_packet.proof, PACKET); }
static uint32_t write_wide(void) { return write_packet(&wide_packet, wide_packet.proof, PACKET); }
static uint32_t write_long(void) { return write_packet(&full_packet, &long_line, PACKET); }
static uint32_t write_short(void) { return write_packet(&full_packet, full_packet.proof, full_packet.size - 1); }
static uint32_t unpack_full(void) { return read_packet(&full_packet, TEXT); }
static uint32_t unpack_wide(void) { return read_packet(&wide_packet, TEXT); }
static uint32_t unpack_bad(void) { return read_packet(&bad_packet, TEXT); }
static uint32_t unpack_short(void) { return read_packet(&full_packet, full_packet.proof->size - 1); }
static uint32_t write_new(void) { return write_packet(&new_packet, new_packet.proof, PACKET); }
static uint32_t write_weights(void) { return write_packet(&weight_packet, weight_packet.proof, PACKET); }
static uint32_t unpack_new(void) { return read_packet(&new_packet, TEXT); }
static uint32_t unpack_weights(void) { return read_packet(&weight_packet, TEXT); }
static uint32_t up_full(void) { return up(&full_packet, PACKET); }
static uint32_t up_wide(void) { return up(&wide_packet, PACKET); }
static uint32_t up_bad(void) { return up(&bad_packet, PACKET); }
static uint32_t up_short(void) { return up(&full_packet, new_packet.size - 1); }
static uint32_t down_new(void) { return down(&new_packet, PACKET); }
static uint32_t down_weights(void) { return down(&weight_packet, PACKET); }
static uint32_t down_old(void) { return down(&full_packet, PACKET); }

/* The bytes of the merged texts, and the words that the one with weights needs of the store. */
#define WEIGHT_MERGED 861
#define WEIGHT_STORE 879
#define FULL_MERGED 65200

static uint32_t merge_weights(void) { return merge(&weight_split, WEIGHT_STORE, WEIGHT_MERGED); }
static uint32_t merge_full(void) { return merge(&full_split, WORDS, TEXT); }
static uint32_t merge_short(void) { return merge(&weight_split, WORDS, WEIGHT_MERGED - 1); }
static uint32_t merge_small(void) { return merge(&weight_split, WEIGHT_STORE - 1, TEXT); }

/* The second half of another split is refused at its first line, after the first half has been checked. */
static uint32_t merge_other(void) {
    return aspdrupe_merge_halves(weight_split.program.bytes, weight_split.program.size, weight_split.atom, weight_split.first.bytes,
                                 weight_split.first.size, full_split.second.bytes, full_split.second.size, table, WORDS, store, WORDS,
                                 bytes, TEXT, answer, ASPDRUPE_ANSWER);
}

/* A program that is refused. */
static uint32_t merge_many(void) {
    return aspdrupe_merge_halves(many_weights.bytes, many_weights.size, 1, chain.bytes, chain.size, chain.bytes, chain.size, table, WORDS,
                                 store, WORDS, bytes, TEXT, answer, ASPDRUPE_ANSWER);
}

/* The bytes that are left of the proofs. */
#define WEIGHT_TRIMMED 143
#define FULL_TRIMMED 35

static uint32_t trim_weights(void) { return trim(&weight_split.program, &weight_proof, weight_proof.size, WORDS); }
static uint32_t trim_full(void) { return trim(&full_split.program, &full_proof, full_proof.size, WORDS); }
static uint32_t trim_open(void) { return trim(&weight_split.program, &open_proof, open_proof.size, WORDS); }
static uint32_t trim_small(void) { return trim(&full_split.program, &full_proof, full_proof.size, FULL_TRIMMED); }
static uint32_t trim_long(void) { return trim(&one_rule, &long_line, TEXT + 1, WORDS); }
static uint32_t trim_many(void) { return trim(&many_weights, &chain, chain.size, WORDS); }

/* The numbers in the cost lists. */
#define WEIGHT_COSTS (2 * WEIGHTED)
#define FULL_COSTS 16

static uint32_t certify_weights(void) {
    return certify(&weight_rules, weight_set, 1, weight_costs, WEIGHT_COSTS, &weight_certificate, WORDS);
}
static uint32_t certify_full(void) { return certify(&full_rules, weight_set, 0, full_costs, FULL_COSTS, &full_certificate, WORDS); }
static uint32_t certify_open(void) { return certify(&weight_rules, weight_set, 1, weight_costs, WEIGHT_COSTS, &weight_steps, WORDS); }
static uint32_t certify_small(void) { return certify(&weight_rules, weight_set, 1, weight_costs, WEIGHT_COSTS, &weight_certificate, 99); }
static uint32_t certify_none(void) { return certify(&weight_rules, weight_set, 0, weight_costs, WEIGHT_COSTS, &weight_certificate, WORDS); }
static uint32_t certify_nothing(void) { return certify(&weight_rules, weight_set, 1, weight_costs, WEIGHTED, &long_line, WORDS); }
static uint32_t certify_odd(void) { return certify(&full_rules, weight_set, 0, full_costs, FULL_COSTS - 1, &full_certificate, WORDS); }
static uint32_t certify_foreign(void) { return certify(&full_rules, weight_set, 1, full_costs, FULL_COSTS, &full_certificate, WORDS); }
static uint32_t certify_many(void) { return certify(&many_weights, weight_set, 1, weight_costs, WEIGHT_COSTS, &chain, WORDS); }

/* The bytes of the texts that trees come to, and the words that the one with weights needs of the store. */
#define WEIGHT_TREE 1789
#define WEIGHT_TREE_STORE 1338
#define FULL_TREE 64340
#define FULL_PROOF 65433

static uint32_t tree_weights(void) { return merge_tree(&weight_tree, NUMBERS, WEIGHT_TREE_STORE, WEIGHT_TREE); }
static uint32_t tree_full(void) { return merge_tree(&full_tree, NUMBERS, WORDS, TEXT); }
static uint32_t tree_open(void) { return merge_tree(&bad_tree, NUMBERS, WORDS, TEXT); }
static uint32_t tree_short(void) { return merge_tree(&weight_tree, NUMBERS, WORDS, WEIGHT_TREE - 1); }
static uint32_t tree_small(void) { return merge_tree(&weight_tree, NUMBERS, WEIGHT_TREE_STORE - 1, TEXT); }
static uint32_t tree_cut(void) { return merge_tree(&full_tree, NUMBERS - 1, WORDS, TEXT); }

/* A tree of one end. */
static uint32_t tree_root(void) {
    static const uint16_t numbers[] = {0};
    const uint64_t lengths[] = {full_proof.size};
    return aspdrupe_merge_tree(full_split.program.bytes, full_split.program.size, numbers, 1, full_proof.bytes, full_proof.size, lengths, 1,
                               table, WORDS, store, WORDS, bytes, TEXT, answer, ASPDRUPE_ANSWER);
}

/* A program that is refused. */
static uint32_t tree_many(void) {
    return aspdrupe_merge_tree(many_weights.bytes, many_weights.size, full_tree.numbers, NUMBERS, full_tree.texts, full_tree.size,
                               full_tree.lengths, ENDS, table, WORDS, store, WORDS, bytes, TEXT, answer, ASPDRUPE_ANSWER);
}

/* The bytes of the text with the sum of 64 negated literals split. */
#define MANY_SPLIT 1294

static uint32_t split_many(void) { return split_sums(&many_weights, 6, MANY_SPLIT); }
static uint32_t split_levels(void) { return split_sums(&long_sum, 6, TEXT); }
static uint32_t split_scattered(void) { return split_sums(&scattered_sum, 2, TEXT); }
static uint32_t split_short(void) { return split_sums(&many_weights, 6, MANY_SPLIT - 1); }
static uint32_t split_weights(void) { return split_sums(&weight_rules, 6, TEXT); }
static uint32_t split_full(void) { return split_sums(&full_rules, 12, TEXT); }
static uint32_t split_large(void) { return split_sums(&full_rules, 13, TEXT); }
static uint32_t split_newlines(void) { return split_sums(&newlines, 6, TEXT); }

/* A chain of rules against their order: the least model takes as many rounds as there are rules. It is the set that is tested. */
static uint32_t test_chain(void) {
    static uint16_t set[RULES];
    size_t at = 0;
    for (size_t i = 0; i < RULES; i++) set[i] = (uint16_t)(i + 1);
    for (int atom = RULES; atom > 1; atom--) {
        const int32_t rule[] = {0, 1, 0, 1, atom, atom - 1};
        for (size_t i = 0; i < 6; i++) table[at++] = rule[i];
    }
    const int32_t fact[] = {0, 1, 0, 0, 1};
    for (size_t i = 0; i < 5; i++) table[at++] = fact[i];
    while (at < WORDS) table[at++] = 0;
    return aspdrupe_test_set(table, WORDS, RULES, set, RULES, marks, ASPDRUPE_MARKS, answer, ASPDRUPE_ANSWER);
}

/* Every rule gives its head from all of its bodies. */
static uint32_t test_weights(void) {
    static const uint16_t set[] = {13};
    return aspdrupe_test_set(weight_table, WORDS, WEIGHT_RULES, set, 1, marks, ASPDRUPE_MARKS, answer, ASPDRUPE_ANSWER);
}

static uint32_t write_weights_old(void) {
    return aspdrupe_write_packet(1, weight_table, WORDS, WEIGHT_RULES, chain.bytes, chain.size, bytes, PACKET, answer, ASPDRUPE_ANSWER);
}

/* A call with the code and the numbers that it must answer, the others left 0. */
struct call {
    const char *name;
    uint32_t (*run)(void);
    uint32_t code;
    uint64_t answer[ASPDRUPE_ANSWER];
};

static const struct call calls[] = {
    {"read_program: 1,024 rules", read_full, 0, {8, RULES, 0, 0}},
    {"read_program: rules of 64 heads", read_big, 0, {1063, 190, 0, 0}},
    {"read_program: 64 heads, 64 literals", read_wide, 0, {128, 3, 0, 0}},
    {"read_program: rules with 12 weights", read_weights, 0, {13, WEIGHT_RULES, 0, 0}},
    {"read_program: 64 heads, 64 weights", read_many, 55, {2, 0, 0, 0}},
    {"read_program: newlines", read_newlines, 2, {1, 0, 0, 0}},
    {"test_set: a chain of 1,024 rules", test_chain, ASPDRUPE_YES, {0, 0, 0, 0}},
    {"test_set: rules with 12 weights", test_weights, ASPDRUPE_YES, {0, 0, 0, 0}},
    {"read_line: 65 numbers", line_wide, 'b', {65, 229, 0, 0}},
    {"read_line: a line of 65,530 bytes", line_long, 23, {0, 0, 0, 0}},
    {"check_texts: a chain of definitions", check_chain, ASPDRUPE_INCONSISTENT, {1, 1, 2205, 4006}},
    {"check_texts: lines of 65 numbers", check_wide, ASPDRUPE_OPEN, {128, 3, 8, 134}},
    {"check_texts: full texts and table", check_full, ASPDRUPE_OPEN, {8, RULES, 7178, 12}},
    {"check_texts: rules with 12 weights", check_weights, ASPDRUPE_OPEN, {13, WEIGHT_RULES, 16, 149}},
    {"check_texts: a line of 65,530 bytes", check_long, ASPDRUPE_REFUSED_PROOF, {23, 1, 0, 0}},
    {"check_texts: newlines", check_newlines, ASPDRUPE_REFUSED_PROGRAM, {2, 1, 0, 0}},
    {"check_long: a chain of definitions, 160,000 bytes", long_chain, ASPDRUPE_INCONSISTENT, {1, 1, 2205 + IDLE, 4006}},
    {"check_long: a chain of definitions, no memory", long_swept, ASPDRUPE_INCONSISTENT, {1, 1, 2205, 4006}},
    {"check_long: lines of 65 numbers", long_wide, ASPDRUPE_OPEN, {128, 3, 8, 134}},
    {"check_long: full texts and table", long_full, ASPDRUPE_OPEN, {8, RULES, 7178, 12}},
    {"check_long: rules with 12 weights", long_weights, ASPDRUPE_OPEN, {13, WEIGHT_RULES, 16, 149}},
    {"check_long: a line of 65,530 bytes", long_line_long, ASPDRUPE_REFUSED_PROOF, {23, 1, 0, 0}},
    {"check_long: newlines", long_newlines, ASPDRUPE_REFUSED_PROGRAM, {2, 1, 0, 0}},
    {"write_packet: full table and text", write_full, 0, {106331, 0, 0, 0}},
    {"write_packet: steps of 65 numbers", write_wide, 0, {1503, 0, 0, 0}},
    {"write_packet: rules with weights", write_weights_old, 53, {0, 0, 0, 0}},
    {"write_packet: version 2, full table and text", write_new, 0, {110427, 0, 0, 0}},
    {"write_packet: version 2, rules with weights", write_weights, 0, {65795, 0, 0, 0}},
    {"write_packet: a line of 65,530 bytes", write_long, 53, {0, 0, 0, 0}},
    {"write_packet: an output too short", write_short, 52, {0, 0, 0, 0}},
    {"read_packet: full table and text", unpack_full, 0, {RULES, 65514, 0, 0}},
    {"read_packet: steps of 65 numbers", unpack_wide, 0, {3, 1026, 0, 0}},
    {"read_packet: refused at the last number", unpack_bad, 53, {0, 0, 0, 0}},
    {"read_packet: a text too short", unpack_short, 52, {0, 0, 0, 0}},
    {"read_packet: version 2, full table and text", unpack_new, 0, {RULES, 65514, 0, 0}},
    {"read_packet: version 2, rules with weights", unpack_weights, 0, {WEIGHT_RULES, 586, 0, 0}},
    {"packet_up: full table and text", up_full, 0, {110427, 0, 0, 0}},
    {"packet_up: steps of 65 numbers", up_wide, 0, {1515, 0, 0, 0}},
    {"packet_up: refused at the last number", up_bad, 53, {0, 0, 0, 0}},
    {"packet_up: an output too short", up_short, 52, {0, 0, 0, 0}},
    {"packet_down: full table and text", down_new, 0, {106331, 0, 0, 0}},
    {"packet_down: rules with weights", down_weights, 61, {0, 0, 0, 0}},
    {"packet_down: a packet of version 1", down_old, 51, {0, 0, 0, 0}},
    {"split_sums: 64 heads, 64 weights", split_many, 0, {MANY_SPLIT, 85, 32, 64}},
    {"split_sums: 64 weights, many levels", split_levels, 0, {22886, 279, 998, 64}},
    {"split_sums: 64 weights, too many rules", split_scattered, 66, {0, 0, 0, 0}},
    {"split_sums: an output too short", split_short, 66, {0, 0, 0, 0}},
    {"split_sums: rules with 12 weights", split_weights, 0, {43628, 13, WEIGHT_RULES, 13}},
    {"split_sums: 1,024 rules", split_full, 0, {34828, 8, RULES, 8}},
    {"split_sums: groups of 13", split_large, 65, {0, 0, 0, 0}},
    {"split_sums: newlines", split_newlines, 2, {1, 0, 0, 0}},
};

static const struct call merges[] = {
    {"merge_halves: rules with 12 weights", merge_weights, 0, {WEIGHT_MERGED, 0, 0, 0}},
    {"merge_halves: full text, 1,024 rules", merge_full, 0, {FULL_MERGED, 0, 0, 0}},
    {"merge_halves: a half of another program", merge_other, 57, {0, 0, 0, 0}},
    {"merge_halves: an output too short", merge_short, 58, {0, 0, 0, 0}},
    {"merge_halves: a store too short", merge_small, 59, {0, 0, 0, 0}},
    {"merge_halves: 64 heads, 64 weights", merge_many, 55, {2, 0, 0, 0}},
};

static const struct call trims[] = {
    {"trim_proof: rules with 12 weights", trim_weights, 0, {WEIGHT_TRIMMED, 0, 0, 0}},
    {"trim_proof: full text, 1,024 rules", trim_full, 0, {FULL_TRIMMED, 0, 0, 0}},
    {"trim_proof: an open proof", trim_open, 60, {0, 0, 0, 0}},
    {"trim_proof: a store too short", trim_small, 60, {0, 0, 0, 0}},
    {"trim_proof: a text of 65,536 bytes", trim_long, 60, {0, 0, 0, 0}},
    {"trim_proof: 64 heads, 64 weights", trim_many, 55, {2, 0, 0, 0}},
};

static const struct call certificates[] = {
    {"check_cheapest: rules with 12 weights", certify_weights, 0, {6, 0, 0, 0}},
    {"check_cheapest: full text, 1,024 rules", certify_full, 0, {8, 0, 0, 0}},
    {"check_cheapest: a set that costs nothing", certify_nothing, 0, {0, 0, 0, 0}},
    {"check_cheapest: an atom of no program", certify_foreign, 42, {0, 0, 0, 0}},
    {"check_cheapest: an odd cost list", certify_odd, 62, {0, 0, 0, 0}},
    {"check_cheapest: no answer set", certify_none, 63, {0, 0, 0, 0}},
    {"check_cheapest: an open proof", certify_open, 63, {0, 0, 0, 0}},
    {"check_cheapest: a store too short", certify_small, 63, {0, 0, 0, 0}},
    {"check_cheapest: 64 heads, 64 weights", certify_many, 55, {2, 0, 0, 0}},
};

static const struct call trees[] = {
    {"merge_tree: rules with 12 weights", tree_weights, 0, {WEIGHT_TREE, 0, 0, 0}},
    {"merge_tree: full text, 1,024 rules", tree_full, 0, {FULL_TREE, 0, 0, 0}},
    {"merge_tree: one end, 1,024 rules", tree_root, 0, {FULL_PROOF, 0, 0, 0}},
    {"merge_tree: a last end that is open", tree_open, 57, {0, 0, 0, 0}},
    {"merge_tree: an output too short", tree_short, 58, {0, 0, 0, 0}},
    {"merge_tree: a store too short", tree_small, 59, {0, 0, 0, 0}},
    {"merge_tree: a number too few", tree_cut, 64, {0, 0, 0, 0}},
    {"merge_tree: 64 heads, 64 weights", tree_many, 55, {2, 0, 0, 0}},
};

#define COUNT(list) (sizeof list / sizeof *list)

/* Calls, and the stack that the header names for them. */
static const struct {
    const struct call *calls;
    size_t count, stack;
} groups[] = {
    {calls, COUNT(calls), ASPDRUPE_STACK},
    {merges, COUNT(merges), ASPDRUPE_MERGE_STACK},
    {trims, COUNT(trims), ASPDRUPE_TRIM_STACK},
    {certificates, COUNT(certificates), ASPDRUPE_CHEAPEST_STACK},
    {trees, COUNT(trees), ASPDRUPE_TREE_STACK},
};

/* ---- The threads ---- */

struct job {
    const struct call *call;
    int good;
};

/* In the thread: the call, and whether it answers as it must. */
static void *do_job(void *argument) {
    struct job *job = argument;
    job->good = job->call->run() == job->call->code;
    for (size_t i = 0; i < ASPDRUPE_ANSWER; i++) job->good &= answer[i] == job->call->answer[i];
    return NULL;
}

/* A stack of so many bytes with a guard below it. */
static uint8_t *new_stack(size_t size) {
    uint8_t *area = mmap(NULL, GUARD + size, PROT_READ | PROT_WRITE, MAP_PRIVATE | MAP_ANONYMOUS, -1, 0);
    if (area == MAP_FAILED) stop("mmap");
    if (mprotect(area, GUARD, PROT_NONE) != 0) stop("mprotect");
    return area + GUARD;
}

/* Runs a call in a thread on that stack; whether it answers as it must. */
static int run_on(const struct call *call, uint8_t *stack, size_t size) {
    struct job job = {call, 0};
    pthread_attr_t attributes;
    pthread_t thread;
    for (size_t i = 0; i < ASPDRUPE_ANSWER; i++) answer[i] = 0;
    if (pthread_attr_init(&attributes) != 0 || pthread_attr_setstack(&attributes, stack, size) != 0) stop("no stack of this size");
    if (pthread_create(&thread, &attributes, do_job, &job) != 0 || pthread_join(thread, NULL) != 0) stop("no thread with this stack");
    if (!job.good) {
        printf("FAILED: %s: answered", call->name);
        for (size_t i = 0; i < ASPDRUPE_ANSWER; i++) printf(" %" PRIu64, answer[i]);
        printf("\n");
    }
    return job.good;
}

/* How many bytes of the stack were used since all of it was filled with the pattern. */
static size_t used(const uint8_t *stack, size_t size) {
    size_t left = 0;
    while (left < size && stack[left] == PATTERN) left++;
    return size - left;
}

/* In a process of its own: the call in a thread with a stack of so many bytes, and where it is asked for, how many it has used. */
static int try_call(const struct call *call, size_t size, int measuring) {
    uint8_t *stack = new_stack(size);
    for (size_t i = 0; measuring && i < size; i++) stack[i] = PATTERN;
    int good = run_on(call, stack, size);
    if (measuring) printf("%8zu  %s\n", used(stack, size), call->name);
    fflush(stdout);
    return good;
}

/* Whether a call answers as it must in a thread with a stack of so many bytes. */
static int passes(const struct call *call, size_t size, int measuring) {
    int status;
    fflush(stdout);
    pid_t child = fork();
    if (child < 0) stop("fork");
    if (child == 0) _exit(!try_call(call, size, measuring));
    if (waitpid(child, &status, 0) != child) stop("waitpid");
    if (WIFSIGNALED(status)) printf("FAILED: %s: a stack of %zu bytes, signal %d\n", call->name, size, WTERMSIG(status));
    return WIFEXITED(status) && WEXITSTATUS(status) == 0;
}

int main(int argc, char **argv) {
    int measuring = argc == 2 && strcmp(argv[1], "measure") == 0;
    size_t asked = measuring ? PLENTY : argc == 2 ? strtoul(argv[1], NULL, 10) : 0;
    size_t all_failed = 0;
    if (argc > 2 || (argc == 2 && asked < (size_t)PTHREAD_STACK_MIN)) {
        fprintf(stderr, "usage: %s [SIZE | measure]; a thread has at least %zu bytes\n", argv[0], (size_t)PTHREAD_STACK_MIN);
        return 2;
    }
    make_inputs();
    for (size_t group = 0; group < COUNT(groups); group++) {
        size_t size = argc == 2 ? asked : groups[group].stack, count = groups[group].count, failed = 0;
        for (size_t i = 0; i < count; i++) failed += !passes(&groups[group].calls[i], size, measuring);
        printf("stacks of %zu bytes: %zu calls passed, %zu failed\n", size, count - failed, failed);
        all_failed += failed;
    }
    return all_failed != 0;
}

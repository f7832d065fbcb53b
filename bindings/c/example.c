/* Checks a proof file against a program file, and prints the verdict with its numbers. Where neither is refused, it then sees that the check for
 * proofs of any length says the same and leaves the same, writes the program's table and the proof as a packet of version 2, reads that back,
 * and prints how many bytes it has, and of how many rules and bytes of proof; and moves it down to version 1, and prints how many bytes that
 * has, or that it is refused: a program with weights does not go down, 61.
 *
 * Build and run, from the repository's root:
 *   bindings/library
 *   cc -Wall -o target/example bindings/c/example.c target/staticlib/libexports.a
 *   target/example examples/starred-1/case.aspif examples/starred-1/case.drupe
 * prints: inconsistent 1 1 5 6
 *         packet 61 1 35
 *         down 57 */
#include <inttypes.h>
#include <stdio.h>
#include <string.h>

#include "aspdrupe.h"

/* One byte more than a text may have, so that a longer file is refused. */
#define TEXT 65536

/* The words of the table and of the store. */
#define WORDS 16384

/* Enough for the packet of any table and text of these lengths. */
#define PACKET (13 + 4 * WORDS + TEXT)

static uint8_t program[TEXT], proof[TEXT], packet[PACKET], moved[PACKET], packet_back[PACKET], proof_back[TEXT];
static int32_t table[WORDS], store[WORDS], table_back[WORDS], store_back[WORDS];
static uint32_t memory[ASPDRUPE_MEMORY(WORDS)];

/* The front of a file, and how many bytes; 1 where it is read. */
static int read_file(const char *path, uint8_t *text, size_t *size) {
    FILE *file = fopen(path, "rb");
    if (file == NULL) {
        perror(path);
        return 0;
    }
    *size = fread(text, 1, TEXT, file);
    int good = !ferror(file);
    fclose(file);
    if (!good) fprintf(stderr, "%s: not read\n", path);
    return good;
}

/* Moves a packet of version 2 down, and up again; 1 where it does not go down, or has its bytes again. */
static int go_down(size_t size) {
    uint64_t down[1], up[1];
    uint32_t code = aspdrupe_packet_down(packet, size, moved, PACKET, down, 1);
    if (code != 0) {
        printf("refused down %" PRIu32 "\n", code);
        return code == 61;
    }
    printf("down %" PRIu64 "\n", down[0]);
    return aspdrupe_packet_up(moved, (size_t)down[0], packet_back, PACKET, up, 1) == 0 && up[0] == size &&
           memcmp(packet, packet_back, PACKET) == 0;
}

/* Writes the packet of the table, with so many rules, and of the proof, reads it back and moves it; 1 where the same comes back. */
static int pack(uint64_t rules, size_t proof_size) {
    uint64_t written[1], back[2];
    uint32_t code = aspdrupe_write_packet(2, table, WORDS, rules, proof, proof_size, packet, PACKET, written, 1);
    if (code != 0) {
        printf("refused packet %" PRIu32 "\n", code);
        return 0;
    }
    code = aspdrupe_read_packet(2, packet, (size_t)written[0], table_back, WORDS, proof_back, TEXT, back, 2);
    if (code != 0) {
        printf("refused packet %" PRIu32 "\n", code);
        return 0;
    }
    printf("packet %" PRIu64 " %" PRIu64 " %" PRIu64 "\n", written[0], back[0], back[1]);
    return back[0] == rules && back[1] == proof_size && memcmp(table, table_back, sizeof table) == 0 &&
           memcmp(proof, proof_back, proof_size) == 0 && go_down((size_t)written[0]);
}

/* The same check for proofs of any length: 1 where it returns the code, the numbers and the words that the other did. */
static int check_again(size_t program_size, size_t proof_size, uint32_t code, const uint64_t *said) {
    uint64_t again[ASPDRUPE_ANSWER];
    return aspdrupe_check_long(program, program_size, proof, proof_size, table_back, WORDS, store_back, WORDS, memory,
                               ASPDRUPE_MEMORY(WORDS), again, ASPDRUPE_ANSWER) == code &&
           memcmp(again, said, sizeof again) == 0 && memcmp(table_back, table, sizeof table) == 0 &&
           memcmp(store_back, store, sizeof store) == 0;
}

int main(int argc, char **argv) {
    size_t program_size, proof_size;
    uint64_t answer[ASPDRUPE_ANSWER] = {0};
    if (argc != 3) {
        fprintf(stderr, "usage: %s PROGRAM PROOF\n", argv[0]);
        return 2;
    }
    if (!read_file(argv[1], program, &program_size) || !read_file(argv[2], proof, &proof_size)) return 2;
    switch (aspdrupe_check_texts(program, program_size, proof, proof_size, table, WORDS, store, WORDS, answer, ASPDRUPE_ANSWER)) {
    case ASPDRUPE_INCONSISTENT:
        printf("inconsistent %" PRIu64 " %" PRIu64 " %" PRIu64 " %" PRIu64 "\n", answer[0], answer[1], answer[2], answer[3]);
        return !check_again(program_size, proof_size, ASPDRUPE_INCONSISTENT, answer) || !pack(answer[1], proof_size);
    case ASPDRUPE_OPEN:
        printf("open %" PRIu64 " %" PRIu64 " %" PRIu64 " %" PRIu64 "\n", answer[0], answer[1], answer[2], answer[3]);
        return !check_again(program_size, proof_size, ASPDRUPE_OPEN, answer) || !pack(answer[1], proof_size);
    case ASPDRUPE_REFUSED_PROGRAM:
        printf("refused program %" PRIu64 " %" PRIu64 "\n", answer[0], answer[1]);
        break;
    case ASPDRUPE_REFUSED_PROOF:
        printf("refused proof %" PRIu64 " %" PRIu64 "\n", answer[0], answer[1]);
        break;
    }
    return 0;
}

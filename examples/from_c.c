/* Reads blocks, opens a registry with the first and admits the others, asks who reaches whom, lists the findings, saves the
 * registry to a file and opens it again.
 *   bash .ci/staticlib
 *   cc -Iinclude examples/from_c.c target/staticlib/libregistry_c.a -o from_c
 *   ./from_c saved.blocks < examples/printed-sheet.blocks
 */
#include <bihokura.h>
#include <errno.h>
#include <stdio.h>
#include <stdlib.h>
#include <string.h>

static void fail(const char *what, const char *why) {
    fprintf(stderr, "from_c: %s: %s\n", what, why);
    exit(1);
}

/* Why, and where in the block: no refusal that is of a place in it is told at byte 0. */
static void print_refusal(FILE *file, unsigned refusal, unsigned position) {
    fprintf(file, position == 0 ? "refused with %u\n" : "refused with %u at byte %u\n", refusal, position);
}

/* A memory with the registry of a file, which is opened by its first block; the others are admitted in batches. */
static uint64_t *registry(FILE *file, const char *name) {
    static uint8_t blocks[65536];
    uint16_t answers[256];
    struct bihokura_tally tally = {0, 0};
    size_t words = (size_t)bihokura_words(), n = 1;
    uint64_t *memory = calloc(words, sizeof *memory);
    if (memory == NULL) {
        fail("memory", strerror(errno));
    }
    size_t got = fread(blocks, 1, 512, file);
    uint64_t answer = bihokura_open(memory, words, blocks, got);
    while (BIHOKURA_REFUSAL(answer) == 0 && (got = fread(blocks, 1, sizeof blocks, file)) > 0) {
        answer = bihokura_admit_batch(memory, words, blocks, got, answers, 256, &tally);
        for (size_t i = 0; BIHOKURA_REFUSAL(answer) == 0 && i < got / 512; i++) {
            n++;
            if (answers[2 * i] != 0) {
                printf("block %zu ", n);
                print_refusal(stdout, answers[2 * i], answers[2 * i + 1]);
            }
        }
    }
    if (ferror(file)) {
        fail(name, strerror(errno));
    }
    if (BIHOKURA_REFUSAL(answer) != 0) {
        fprintf(stderr, "from_c: %s: ", name);
        print_refusal(stderr, BIHOKURA_REFUSAL(answer), BIHOKURA_POSITION(answer));
        exit(1);
    }
    printf("blocks taken %llu, refused %llu\n", (unsigned long long)tally.taken, (unsigned long long)tally.refused);
    return memory;
}

static void print_counts(uint64_t counts) {
    printf("containers %u, policies %u, pairs %u\n", (unsigned)(counts & 0xffff), (unsigned)(counts >> 16 & 0xffff),
           (unsigned)(BIHOKURA_VALUE(counts) >> 32));
}

/* Writes the registry to a file of this name. Answers how many bytes. */
static size_t save(const uint64_t *memory, size_t words, const char *name) {
    uint64_t counts = bihokura_counts(memory, words);
    size_t length = 512 * (1 + (size_t)(counts & 0xffff) + (size_t)(counts >> 16 & 0xffff));
    uint8_t *bytes = malloc(length);
    if (bytes == NULL) {
        fail("memory", strerror(errno));
    }
    uint64_t written = bihokura_write(memory, words, bytes, length);
    if (BIHOKURA_REFUSAL(written) != 0) {
        fail(name, "the registry was not written");
    }
    FILE *file = fopen(name, "wb");
    if (file == NULL || fwrite(bytes, 1, (size_t)written, file) != written || fclose(file) != 0) {
        fail(name, strerror(errno));
    }
    free(bytes);
    return (size_t)written;
}

int main(int argc, char **argv) {
    if (argc != 2) {
        fprintf(stderr, "usage: from_c FILE < BLOCKS\n");
        return 2;
    }
    size_t words = (size_t)bihokura_words();
    uint64_t *memory = registry(stdin, "standard input");
    uint64_t counts = bihokura_counts(memory, words);
    print_counts(counts);
    printf("0 reaches 1: %u\n", (unsigned)bihokura_reaches(memory, words, 0, 1));
    printf("1 reaches 0: %u\n", (unsigned)bihokura_reaches(memory, words, 1, 0));
    /* Four findings at a time, each list from the last finding of the one before. */
    uint64_t list[4], last = 0;
    size_t got, room = sizeof list / sizeof *list;
    do {
        got = (size_t)bihokura_findings(memory, words, (uint16_t)(last >> 32), (uint16_t)(last >> 16), (uint16_t)last, list, room);
        for (size_t i = 0; i < got; i++) {
            last = list[i];
            printf("%u %u %u\n", (unsigned)(last >> 32), (unsigned)(last >> 16 & 0xffff), (unsigned)(last & 0xffff));
        }
    } while (got == room);
    size_t written = save(memory, words, argv[1]);
    FILE *file = fopen(argv[1], "rb");
    if (file == NULL) {
        fail(argv[1], strerror(errno));
    }
    uint64_t *again = registry(file, argv[1]);
    fclose(file);
    printf("written %zu bytes; read back: ", written);
    print_counts(bihokura_counts(again, words));
    printf("the same counts: %d, the same audit: %d\n", bihokura_counts(again, words) == counts,
           bihokura_audit(again, words) == bihokura_audit(memory, words));
    free(memory);
    free(again);
    if (fflush(stdout) != 0) {
        fail("standard output", strerror(errno));
    }
    return 0;
}

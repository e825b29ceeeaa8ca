/* Replays the records of a file, or of standard input, from mainnet's first table at 1,024, and prints for each
   accepted epoch its height and parameter 1 after its boundary. A refusal is told on standard error, and the exit
   status is then 1.

       cc -Ibindings/c -o target/example bindings/c/example.c target/staticlib/libexports.a
       target/example crates/replay/stdin */
#include <inttypes.h>
#include <stdio.h>
#include <stdlib.h>

#include "ergo_voting.h"

#define FIRST_HEIGHT 1024u
#define VOTES_SIZE (3u * 1024u)
#define STORAGE_FEE_FACTOR 1u

/* A record as far as it was read. */
static uint8_t record[ERGO_LONGEST_RECORD_SIZE];

static void refused(unsigned number, unsigned id) {
    if (number == ERGO_ENTRY_DIFFERS) {
        fprintf(stderr, "refused by %u, id %u\n", number, id);
    } else {
        fprintf(stderr, "refused by %u\n", number);
    }
    exit(EXIT_FAILURE);
}

/* Reads one record, no byte more: how many bytes it has, or 0 at the end of the input. */
static size_t next_record(FILE *input) {
    uint8_t place[ERGO_RECORD_SIZE];
    size_t filled = 0;
    int64_t missing;

    while ((missing = ergo_read_record(record, filled, VOTES_SIZE, place, sizeof place)) > 0) {
        size_t got = fread(record + filled, 1, (size_t)missing, input);
        if (ferror(input)) {
            perror("read");
            exit(EXIT_FAILURE);
        }
        if (got == 0 && filled == 0) {
            return 0;
        }
        if (got < (size_t)missing) {
            refused(ERGO_RECORD_MALFORMED, 0); /* the input is cut */
        }
        filled += got;
    }
    if (missing < 0) {
        refused((unsigned)-missing, 0);
    }
    return filled;
}

static void print_epoch(uint32_t height, const uint8_t *table) {
    int32_t fee;

    if (ergo_table_get(table, STORAGE_FEE_FACTOR, &fee)) {
        printf("%" PRIu32 " %" PRId32 "\n", height, fee);
    } else {
        printf("%" PRIu32 " -\n", height);
    }
}

static void open_mainnet(uint8_t *state) {
    uint8_t table[ERGO_TABLE_SIZE];
    uint8_t refusal = ergo_default_parameters(ERGO_MAINNET, table, sizeof table);

    if (refusal == 0) {
        refusal = ergo_open(FIRST_HEIGHT, table, sizeof table, state, ERGO_STATE_SIZE);
    }
    if (refusal != 0) {
        refused(refusal, 0);
    }
}

static void replay(FILE *input) {
    uint8_t state[ERGO_STATE_SIZE];
    size_t size;

    open_mainnet(state);
    while ((size = next_record(input)) > 0) {
        uint32_t height = ergo_state_next_height(state);
        uint16_t answer = ergo_replay(state, sizeof state, record, size);
        if (answer != 0) {
            refused(ergo_refusal_of(answer), ergo_id_of(answer));
        }
        print_epoch(height, ergo_state_table(state));
    }
}

int main(int count, char **words) {
    FILE *input = stdin;

    if (count > 2) {
        fprintf(stderr, "%s [FILE]\n", words[0]);
        return 2;
    }
    if (count == 2 && (input = fopen(words[1], "rb")) == NULL) {
        perror(words[1]);
        return EXIT_FAILURE;
    }
    replay(input);
    if (fflush(stdout) != 0 || ferror(stdout)) {
        perror("write");
        return EXIT_FAILURE;
    }
    return EXIT_SUCCESS;
}

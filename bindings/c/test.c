/* The helpers of the header, NULL for a length of 0, outputs that are too short, a window, a boundary. What the
   functions answer is tested from Rust and Python, by recorded answers. */
#undef NDEBUG
#include <assert.h>
#include <stdio.h>

#include "ergo_voting.h"

#define UNTOUCHED 0xeeu
#define CELLS ERGO_WINDOW_CELLS(2u) /* of a window of two headers */

static uint8_t table[ERGO_TABLE_SIZE];
static uint8_t settings[ERGO_SETTINGS_SIZE];

/* Whether cells of so many bytes are as they were filled. */
static bool untouched(const void *cells, size_t size) {
    const uint8_t *bytes = cells;
    for (size_t i = 0; i < size; i++) {
        if (bytes[i] != UNTOUCHED) {
            return false;
        }
    }
    return true;
}

static void numbers_and_tables(void) {
    uint8_t bytes[4], other[ERGO_TABLE_SIZE];
    int32_t value = 5;
    ergo_put_number(bytes, 0x80000001u);
    assert(ergo_number(bytes) == 0x80000001u && ergo_signed_number(bytes) == INT32_MIN + 1);
    ergo_put_number(bytes, 0x7fffffffu);
    assert(ergo_signed_number(bytes) == INT32_MAX);
    memcpy(other, table, sizeof other);
    assert(ergo_table_get(table, 1, &value) && value == 1250000 && ergo_table_get(table, 123, &value) && value == 1);
    assert(!ergo_table_get(table, 9, &value) && !ergo_table_get(table, 121, &value) && value == 1);
    assert(!ergo_table_get(table, 0, &value) && !ergo_table_get(table, 10, &value));
    assert(ergo_table_set(other, 122, -1) && ergo_table_get(other, 122, &value) && value == -1);
    assert(ergo_table_remove(other, 122) && !ergo_table_set(other, 120, 1) && !ergo_table_remove(other, 120));
    assert(memcmp(other, table, sizeof other) == 0);
}

static void tallies(void) {
    const uint8_t votes[] = {0xff, 0, 120, 0xff, 0xff, 2};
    uint8_t tally[ERGO_TALLY_SIZE];
    ergo_entry entries[ERGO_TALLY_ENTRIES];
    assert(ergo_tally_votes_seeded(1024, votes, sizeof votes, 2048, 1024, tally, sizeof tally) == 0);
    assert(ergo_tally_entries(tally, entries) == 2);
    assert(entries[0].id == -1 && entries[0].count == 3 && entries[1].id == 120 && entries[1].count == 1);
}

/* Puts three votes into a window, which stays as it was where they are refused: the answer. */
static int64_t put(uint64_t *window, uint16_t *cells, size_t cells_len, uint8_t a, uint8_t b, uint8_t c) {
    const uint8_t votes[] = {a, b, c};
    int64_t answer = ergo_window_put(*window, cells, cells_len, votes, sizeof votes);
    if (answer >= 0) {
        *window = (uint64_t)answer;
    }
    return answer;
}

/* Whether the supports of 120, 1 and -1 are so many, and no other byte has any. */
static bool supported(const uint16_t *cells, uint16_t fork, uint16_t more, uint16_t less) {
    uint32_t all = 0;
    for (size_t byte = 0; byte < ERGO_WINDOW_SUPPORTS; byte++) {
        all += cells[byte];
    }
    return ergo_window_support(cells, 120) == fork && ergo_window_support(cells, 1) == more &&
           ergo_window_support(cells, -1) == less && all == (uint32_t)fork + more + less;
}

/* A window of two headers, and a cell behind it. */
static void windows(void) {
    uint16_t cells[CELLS + 1], before[CELLS + 1];
    uint64_t window = 0;
    memset(cells, UNTOUCHED, sizeof cells);
    assert(ergo_window_new(ERGO_WINDOW_LENGTH_MOST + 1, cells, CELLS) == -ERGO_WINDOW_LENGTH_OUTSIDE);
    assert(ergo_window_new(2, cells, CELLS - 1) == -ERGO_OUTPUT_SHORT);
    assert(put(&window, cells, CELLS, 120, 0, 0) == -ERGO_OUTPUT_SHORT); /* 0 is no window */
    assert(untouched(cells, sizeof cells));
    window = (uint64_t)ergo_window_new(2, cells, CELLS + 1);
    assert(ergo_window_length(window) == 2 && ergo_window_held(window) == 0 && supported(cells, 0, 0, 0));
    assert(put(&window, cells, CELLS, 120, 0, 1) > 0 && ergo_window_held(window) == 1 && supported(cells, 1, 1, 0));
    assert(put(&window, cells, CELLS, 255, 120, 0) > 0 && ergo_window_held(window) == 2 && supported(cells, 2, 1, 1));
    memcpy(before, cells, sizeof cells);
    assert(put(&window, cells, CELLS, 1, 2, 3) == -ERGO_TOO_MANY_VOTES);
    assert(put(&window, cells, CELLS - 1, 0, 0, 0) == -ERGO_OUTPUT_SHORT);
    assert(ergo_window_held(window) == 2 && memcmp(before, cells, sizeof cells) == 0);
    assert(put(&window, cells, CELLS, 0, 0, 0) > 0 && ergo_window_held(window) == 2 && supported(cells, 1, 0, 1));
    assert(put(&window, cells, CELLS + 1, 1, 0, 0) > 0 && supported(cells, 0, 1, 0));
    assert(ergo_window_length(window) == 2 && untouched(cells + CELLS, sizeof cells[0]));
}

static void boundary(void) {
    const ergo_entry tally[] = {{1, 513}, {-2, 513}, {3, 512}};
    uint8_t question[ERGO_QUESTION_SIZE], out[ERGO_COMPUTED_SIZE];
    int32_t value;
    ergo_question(question, settings, 2048, table, true);
    assert(ergo_compute_boundary_parameters(tally, 3, NULL, 0, question, sizeof question, out, sizeof out) == 0);
    assert(ergo_table_get(out + ERGO_COMPUTED_TABLE_AT, 1, &value) && value == 1275000);
    assert(ergo_table_get(out + ERGO_COMPUTED_TABLE_AT, 2, &value) && value == 350);
    assert(ergo_table_get(out + ERGO_COMPUTED_TABLE_AT, 122, &value) && value == 2048);
    assert(ergo_number(out + ERGO_COMPUTED_UPDATE_AT + ERGO_UPDATE_RULES_AT + ERGO_SECTION_COUNT_AT) == 0);
}

static void states_and_answers(void) {
    uint8_t state[ERGO_STATE_SIZE];
    uint16_t answer = ergo_check_parameters_v6(table, sizeof table, NULL, 0);
    assert(ergo_refusal_of(answer) == ERGO_ENTRY_DIFFERS && ergo_id_of(answer) == 1);
    assert(ergo_open(1024, table, sizeof table, state, sizeof state) == 0 && ergo_state_next_height(state) == 1024);
    assert(memcmp(ergo_state_table(state), table, sizeof table) == 0);
}

/* A body of the fields of a table's parameters and of one more: its parameters pass the match. */
static void fields_and_parameters(void) {
    static const uint8_t id[32] = {0xa5}, key[] = {2, 3}, value[] = {7};
    static const uint32_t size[] = {1}, long_size[] = {65};
    uint8_t map[ERGO_TABLE_SIZE], fields[ERGO_PARAMETER_FIELDS_SIZE_MOST], body[sizeof fields + 35], back[sizeof map];
    int64_t entries = ergo_table_parameters(table, sizeof table, map, sizeof map);
    assert(entries == 45 && ergo_check_parameters_v6(table, sizeof table, map, (size_t)entries) == 0);
    assert(ergo_table_parameters(table, sizeof table, map, 44) == -ERGO_OUTPUT_SHORT);
    int64_t first = ergo_pack_parameters_to_kv(map, (size_t)entries, fields, sizeof fields);
    assert(first == 63);
    assert(ergo_pack_fields(key, 2, size, 1, value, 1, fields + first, sizeof fields - (size_t)first) == 4);
    assert(memcmp(fields + first, "\2\3\1\7", 4) == 0);
    assert(ergo_pack_fields(key, 2, long_size, 1, value, 1, fields, sizeof fields) == -ERGO_WRITTEN_VALUE_LONG);
    assert(ergo_pack_fields(key, 1, size, 1, value, 1, fields, sizeof fields) == -ERGO_FIELD_HEADER_CUT);
    assert(ergo_pack_fields(key, 2, size, 1, value, 0, fields, sizeof fields) == -ERGO_VALUE_CUT);
    assert(ergo_pack_fields(key, 2, size, 1, value, 1, fields, 3) == -ERGO_OUTPUT_SHORT);
    int64_t written = ergo_pack_extension_bytes(id, sizeof id, fields, (size_t)first + 4, body, sizeof body);
    assert(written == 100 && ergo_check_body(body, (size_t)written) == 0);
    assert(ergo_parse_parameters_from_kv(body, (size_t)written, back, sizeof back) == entries);
    assert(memcmp(back, map, (size_t)entries) == 0);
}

/* Nothing to read, and nothing to write to. */
static void nothing_lent(void) {
    assert(ergo_default_parameters(ERGO_MAINNET, NULL, 0) == ERGO_OUTPUT_SHORT);
    assert(ergo_soft_fork_approved(NULL, 0, 1) == 1 && ergo_change_approved(NULL, 0, 0) == 0);
    assert(ergo_check_header_votes(NULL, 0) == 0 && ergo_check_headers(NULL, 0) == 0);
    assert(ergo_next_legal_votes(NULL, 0, NULL, 0) == -ERGO_OUTPUT_SHORT);
    assert(ergo_tally_votes_seeded(0, NULL, 0, 0, 0, NULL, 0) == ERGO_OUTPUT_SHORT);
    assert(ergo_window_new(1, NULL, 0) == -ERGO_OUTPUT_SHORT);
    assert(ergo_window_put(0, NULL, 0, NULL, 0) == -ERGO_OUTPUT_SHORT);
    assert(ergo_check_fork_vote(NULL, 0, 0, NULL, 0, NULL, 0) == 0 && ergo_check_parameters_v6(NULL, 0, NULL, 0) == 0);
    assert(ergo_compute_boundary_parameters(NULL, 0, NULL, 0, NULL, 0, NULL, 0) == ERGO_VOTING_LENGTH_ZERO);
    assert(ergo_check_block_version(NULL, 0, 1) == ERGO_BLOCK_VERSION_ABSENT);
    assert(ergo_check_body(NULL, 0) == ERGO_BODY_SHORT);
    assert(ergo_parse_extension_bytes(NULL, 0, NULL, 0) == ERGO_BODY_SHORT);
    assert(ergo_field_at(NULL, 0, 0, NULL, 0) == ERGO_FIELD_HEADER_CUT);
    assert(ergo_parse_parameters_from_kv(NULL, 0, NULL, 0) == -ERGO_BODY_SHORT);
    assert(ergo_extract_disabling_rules_from_kv(NULL, 0, NULL, 0) == 0);
    assert(ergo_parse_validation_settings_update(NULL, 0, NULL, 0) == ERGO_OUTPUT_SHORT);
    assert(ergo_rule_at(NULL, 0, 0, NULL, 0) == ERGO_UPDATE_UNREADABLE);
    assert(ergo_status_at(NULL, 0, 0, NULL, 0) == ERGO_UPDATE_UNREADABLE);
    assert(ergo_pack_extension_bytes(NULL, 0, NULL, 0, NULL, 0) == -ERGO_OUTPUT_SHORT);
    assert(ergo_pack_fields(NULL, 0, NULL, 0, NULL, 0, NULL, 0) == 0);
    assert(ergo_table_parameters(NULL, 0, NULL, 0) == 0);
    assert(ergo_pack_parameters_to_kv(NULL, 0, NULL, 0) == 0);
    assert(ergo_encode_validation_settings_update(NULL, 0, NULL, 0, NULL, 0, NULL, 0, NULL, 0, NULL, 0) ==
           -ERGO_OUTPUT_SHORT);
    assert(ergo_encode_disabled_rules(NULL, 0, NULL, 0) == -ERGO_OUTPUT_SHORT);
    assert(ergo_open(1024, NULL, 0, NULL, 0) == ERGO_OUTPUT_SHORT);
    assert(ergo_replay(NULL, 0, NULL, 0) == ERGO_RECORD_MALFORMED);
    assert(ergo_read_record(NULL, 0, 0, NULL, 0) == 3);
    assert(ergo_write_head(NULL, 0) == -ERGO_OUTPUT_SHORT && ergo_write_end(0, 0, NULL, 0) == -ERGO_OUTPUT_SHORT);
    assert(ergo_write_epoch(0, NULL, 0, NULL, 0) == -ERGO_OUTPUT_SHORT);
}

static void outputs_that_are_too_short(void) {
    uint8_t cells[ERGO_STATE_SIZE];
    memset(cells, UNTOUCHED, sizeof cells);
    assert(ergo_default_parameters(ERGO_TESTNET, cells, ERGO_TABLE_SIZE - 1) == ERGO_OUTPUT_SHORT);
    assert(ergo_open(1024, table, sizeof table, cells, ERGO_STATE_SIZE - 1) == ERGO_OUTPUT_SHORT);
    assert(ergo_next_legal_votes(NULL, 0, cells, 2) == -ERGO_OUTPUT_SHORT);
    assert(ergo_write_end(1, 0, cells, 7) == -ERGO_OUTPUT_SHORT);
    assert(untouched(cells, sizeof cells));
    assert(ergo_write_end(1, 0, cells, sizeof cells) == 8);
    assert(memcmp(cells, "end 1 0\n", 8) == 0 && untouched(cells + 8, sizeof cells - 8));
}

int main(void) {
    assert(ergo_default_parameters(ERGO_MAINNET, table, sizeof table) == 0);
    assert(ergo_voting_config(ERGO_MAINNET, settings, sizeof settings) == 0);
    assert(ergo_number(settings + ERGO_SETTINGS_VERSION2_HEIGHT_AT) == 417792);
    numbers_and_tables();
    tallies();
    windows();
    boundary();
    states_and_answers();
    fields_and_parameters();
    nothing_lent();
    outputs_that_are_too_short();
    puts("C: the tests passed");
    return 0;
}

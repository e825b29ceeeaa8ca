/* The proved voting code, called from C. `bindings/library.sh` makes target/staticlib/libexports.a, which this header
   describes; of C's library it needs memcpy and memset alone. docs/RULES.md has the rules and the refusals,
   docs/VECTORS.md, "Bytes", the bytes of tables, states and places.

   No function keeps memory between calls, and none asks more of its caller than this:
   - a pointer points to as many items as the length after it says; with a length of 0 it may be NULL;
   - no part that is lent for writing overlaps another part that is lent to the same call.

   A part of a fixed size that is read (a table, a state, settings, a question, the votes of a header, an id) may be
   shorter or longer: a byte past its end counts as 0, and bytes after its size are not looked at.

   A call that is refused changes no cell that was lent to it. One that is not refused writes from the start of `out`
   and changes no cell after what it writes. Where `out` is shorter than that, the answer is 21. The cells of a
   window are read and written: no cell after them is changed, and where they are too few, the answer is 21. */
#ifndef ERGO_VOTING_H
#define ERGO_VOTING_H

#include <stdbool.h>
#include <stddef.h>
#include <stdint.h>
#include <string.h>

#ifdef __cplusplus
extern "C" {
#define ERGO_STATIC_ASSERT static_assert
#else
#define ERGO_STATIC_ASSERT _Static_assert
#endif

/* Refusals. */

enum ergo_refusal {
    /* The miner or extension author can meet these. */
    ERGO_BODY_SHORT = 1,              /* a body has fewer than 32 bytes */
    ERGO_COUNT_UNREADABLE = 2,        /* the number of fields can't be read */
    ERGO_FIELD_HEADER_CUT = 3,        /* a field's key or length is cut */
    ERGO_VALUE_LONG = 4,              /* a field's value is declared longer than 64 bytes */
    ERGO_VALUE_CUT = 5,               /* a field's value is cut */
    ERGO_PARAMETER_SIZE = 6,          /* a parameter's value is not 4 bytes */
    ERGO_UPDATE_UNREADABLE = 7,       /* a settings update can't be read */
    ERGO_MANDATORY_DISABLED = 8,      /* a settings update disables a mandatory rule */
    ERGO_TOO_MANY_VOTES = 9,          /* a header has more than two ordinary votes (Ergo's rule 212) */
    ERGO_REPEATED_VOTE = 10,          /* a header repeats a vote (rule 213) */
    ERGO_CONTRADICTORY_VOTE = 11,     /* a header has a vote beside its negation (rule 214) */
    ERGO_FORK_VOTE_BARRED = 12,       /* a fork vote where none is allowed */
    ERGO_UNKNOWN_PARAMETER = 13,      /* an approved vote for an unknown id */
    ERGO_ABSENT_PARAMETER = 14,       /* an approved vote for a parameter that is absent */
    ERGO_ENTRY_DIFFERS = 15,          /* a computed entry is missing or different in the extension; the answer carries
                                         its id */
    ERGO_BLOCK_VERSION_DIFFERS = 16,  /* a block's version is not the table's */
    /* The supplier of tables and settings. */
    ERGO_VOTING_LENGTH_ZERO = 17,     /* the voting length is 0 */
    ERGO_SETTING_LARGE = 18,          /* a length or a number of epochs is above 65,535 */
    ERGO_VOTES_COLLECTED_ABSENT = 19, /* entry 121 is absent where it is needed */
    ERGO_BLOCK_VERSION_ABSENT = 20,   /* entry 123 is absent where it is needed */
    /* The caller. */
    ERGO_OUTPUT_SHORT = 21,           /* the output can't hold all that is to be written */
    ERGO_INPUT_LONG = 22,             /* a body or update over 65,536 bytes, a window over 65,536 headers, more than
                                         65,536 rules, statuses or fields to write, or over 65,535 bytes in one
                                         status */
    ERGO_STATUS_RULE_LOW = 23,        /* a status with a rule id under 1,000 is to be written */
    ERGO_WRITTEN_VALUE_LONG = 24,     /* a value over 64 bytes is to be written */
    ERGO_WINDOW_LENGTH_OUTSIDE = 33,  /* a window for support is to span no header, or more than 4,096 */
    /* The archive. */
    ERGO_RECORD_MALFORMED = 25,       /* a record is malformed */
    ERGO_HEIGHT_UNEXPECTED = 26       /* a height is not the expected one, or past the last one allowed */
};

/* Bytes. A number has four, the most significant first; a signed one is the four bytes of its bits. An _AT is where a
   part begins. */

/* A value: 1 and a number, or five bytes 0 where it is absent. Read, any first byte but 0 is a number. */
#define ERGO_VALUE_SIZE 5u

/* A table: the values of entries 1 to 9, one after another from 0 on, and of 121, 122 and 123. */
#define ERGO_TABLE_SIZE 60u
#define ERGO_TABLE_VOTES_AT 45u   /* entry 121, the votes collected */
#define ERGO_TABLE_START_AT 50u   /* entry 122, the starting height of a round */
#define ERGO_TABLE_VERSION_AT 55u /* entry 123, the block version */

/* Settings: four numbers. */
#define ERGO_SETTINGS_SIZE 16u
#define ERGO_SETTINGS_VOTING_LENGTH_AT 0u
#define ERGO_SETTINGS_SOFT_FORK_EPOCHS_AT 4u
#define ERGO_SETTINGS_ACTIVATION_EPOCHS_AT 8u
#define ERGO_SETTINGS_VERSION2_HEIGHT_AT 12u

/* A tally: a place for each vote of the header that seeded it, an id (1 byte) and a count. Id 0 is no entry. */
#define ERGO_TALLY_SIZE 15u
#define ERGO_TALLY_ENTRIES 3u
#define ERGO_TALLY_ENTRY_SIZE 5u

/* The state of a replay. */
#define ERGO_STATE_SIZE 95u
#define ERGO_STATE_SETTINGS_AT 0u
#define ERGO_STATE_TABLE_AT 16u
#define ERGO_STATE_NEXT_HEIGHT_AT 76u
#define ERGO_STATE_TALLY_AT 80u

/* A question to ergo_compute_boundary_parameters; ergo_question writes one. The flag is not 0 if the boundary header
   votes for the fork. */
#define ERGO_QUESTION_SIZE 81u
#define ERGO_QUESTION_SETTINGS_AT 0u
#define ERGO_QUESTION_HEIGHT_AT 16u
#define ERGO_QUESTION_TABLE_AT 20u
#define ERGO_QUESTION_VOTES_FORK_AT 80u

/* A section, the items of one kind in a body or an update: how many, and where they begin and end. */
#define ERGO_SECTION_SIZE 12u
#define ERGO_SECTION_COUNT_AT 0u
#define ERGO_SECTION_BEGIN_AT 4u
#define ERGO_SECTION_END_AT 8u

/* An update: the sections of its rules and of its statuses. */
#define ERGO_UPDATE_SIZE 24u
#define ERGO_UPDATE_RULES_AT 0u
#define ERGO_UPDATE_STATUSES_AT 12u

/* What a boundary computed: the table, and the update that it activates. */
#define ERGO_COMPUTED_SIZE 84u
#define ERGO_COMPUTED_TABLE_AT 0u
#define ERGO_COMPUTED_UPDATE_AT 60u

/* A field of a body: the two bytes of its key, each as a number, and where its value begins and ends. */
#define ERGO_FIELD_SIZE 16u
#define ERGO_FIELD_KEY0_AT 0u
#define ERGO_FIELD_KEY1_AT 4u
#define ERGO_FIELD_BEGIN_AT 8u
#define ERGO_FIELD_END_AT 12u

/* A rule of an update: its id, and the position after it. */
#define ERGO_RULE_SIZE 8u
#define ERGO_RULE_ID_AT 0u
#define ERGO_RULE_NEXT_AT 4u

/* A status of an update: the 16 bits of its rule's id, its code, and where its raw bytes begin and end. */
#define ERGO_STATUS_SIZE 16u
#define ERGO_STATUS_RULE_AT 0u
#define ERGO_STATUS_CODE_AT 4u
#define ERGO_STATUS_BEGIN_AT 8u
#define ERGO_STATUS_END_AT 12u

/* A record: its height, where its body begins and ends, where its votes begin, and where they and the record end. */
#define ERGO_RECORD_SIZE 20u
#define ERGO_RECORD_HEIGHT_AT 0u
#define ERGO_RECORD_BODY_AT 4u
#define ERGO_RECORD_BODY_END_AT 8u
#define ERGO_RECORD_VOTES_AT 12u
#define ERGO_RECORD_END_AT 16u

/* A window spans so many headers at most. Its cells, of 16 bits each: the support of each byte, and three for each
   header that it spans. */
#define ERGO_WINDOW_LENGTH_MOST 4096u
#define ERGO_WINDOW_SUPPORTS 256u
#define ERGO_WINDOW_CELLS(length) (ERGO_WINDOW_SUPPORTS + 3u * (length))

/* The most bytes of what has no fixed size. */
#define ERGO_PARAMETERS_SIZE_MOST 1280u       /* parameters: an id and a number, 5 bytes, for each of 256 ids */
#define ERGO_PARAMETER_FIELDS_SIZE_MOST 1785u /* parameters as fields: 7 bytes for each id but 124 */
#define ERGO_FIELD_VALUE_SIZE_MOST 64u        /* the value of a field, and so a proposed update */
#define ERGO_LINE_SIZE 47u                    /* no line is longer */
#define ERGO_LONGEST_RECORD_SIZE 35853u       /* a record of mainnet */

/* An entry of a tally, as ergo_compute_boundary_parameters takes it. */
typedef struct ergo_entry {
    int8_t id;
    uint32_t count;
} ergo_entry;

ERGO_STATIC_ASSERT(sizeof(ergo_entry) == 8, "an entry has 8 bytes");
ERGO_STATIC_ASSERT(offsetof(ergo_entry, count) == 4, "the count of an entry stands at 4");

/* Networks. */
#define ERGO_MAINNET 0u
#define ERGO_TESTNET 1u /* as any number but 0 */

/* Answers. A uint8_t is 0, or the number of the refusal, where nothing else is said. An int64_t is at least 0 where the
   call is not refused, and else minus the number of the refusal. Beside each function stands what it can be refused by,
   in the order in which that is tested. */

/* Tables, settings, limits. */

/* The table that a network begins with, ERGO_TABLE_SIZE bytes: 21. */
uint8_t ergo_default_parameters(uint8_t network, uint8_t *out, size_t out_len);

/* The parameters that a table asks a body to carry, as ergo_check_parameters_v6 takes them, and how many bytes: minus 21.
   A buffer of ERGO_TABLE_SIZE holds any. */
int64_t ergo_table_parameters(const uint8_t *table, size_t table_len, uint8_t *out, size_t out_len);

/* The settings of a network, ERGO_SETTINGS_SIZE bytes: 21. */
uint8_t ergo_voting_config(uint8_t network, uint8_t *out, size_t out_len);

/* 1 if a total of votes for the fork is approved, else 0. */
uint8_t ergo_soft_fork_approved(const uint8_t *settings, size_t settings_len, int32_t votes);

/* 1 if a count of votes for an ordinary parameter is approved, else 0. */
uint8_t ergo_change_approved(const uint8_t *settings, size_t settings_len, uint32_t votes);

/* The least value from which a parameter is lowered, the greatest from which it is raised, and its fixed step,
   ERGO_VALUE_SIZE bytes: 21. Absent where no parameter has the id, or its step is computed. The id may be that of a
   vote: its sign is not looked at. */
uint8_t ergo_parameter_min(int8_t id, uint8_t *out, size_t out_len);
uint8_t ergo_parameter_max(int8_t id, uint8_t *out, size_t out_len);
uint8_t ergo_parameter_step(int8_t id, uint8_t *out, size_t out_len);

/* Votes of headers, three bytes each. */

/* Whether the three votes of a header are legal: 9, 10, 11. */
uint8_t ergo_check_header_votes(const uint8_t *votes, size_t votes_len);

/* The same of headers one after another: the first refusal. One or two bytes left over are no header. */
uint8_t ergo_check_headers(const uint8_t *votes, size_t votes_len);

/* The first legal header above three vote bytes, legal or not, as numbers of 24 bits with the first byte highest: 3,
   and its three bytes; or 0 where there is none; or minus 21. Asked again with each answer, from 0, 0, 0 on, it gives
   every legal header. */
int64_t ergo_next_legal_votes(const uint8_t *votes, size_t votes_len, uint8_t *out, size_t out_len);

/* The tally of an epoch's headers, ERGO_TALLY_SIZE bytes: 22, 21. ergo_tally_entries reads it. */
uint8_t ergo_tally_votes_seeded(uint32_t first_height, const uint8_t *votes, size_t votes_len, uint32_t boundary_height,
                                uint32_t voting_length, uint8_t *out, size_t out_len);

/* Whether a header may vote for the fork at a height: 18, 19, 12. */
uint8_t ergo_check_fork_vote(const uint8_t *settings, size_t settings_len, uint32_t height, const uint8_t *votes,
                             size_t votes_len, const uint8_t *table, size_t table_len);

/* Support at every height: how many of the last headers vote for each id. A window is a number and the cells that go
   with it. The caller keeps both, and hands them to each call as the call before left them. */

/* A window that spans so many headers and holds none: the window, all its ERGO_WINDOW_CELLS(length) cells being 0; or
   minus 33, 21. */
int64_t ergo_window_new(uint32_t length, uint16_t *cells, size_t cells_len);

/* Puts the three votes of a header into a window: the window after it; or minus 9, 10, 11, 21. The oldest header leaves
   where the window held as many as it spans. cells[b] is then the support of the byte b, from 0 to 255: how many of the
   headers that are held have b among their votes. cells[0] is 0, and the cells from ERGO_WINDOW_SUPPORTS on are the
   window's own. Where the answer is negative, nothing entered: a caller keeps the old number. A number that is no
   window, as 0 is, is 21. */
int64_t ergo_window_put(uint64_t window, uint16_t *cells, size_t cells_len, const uint8_t *votes, size_t votes_len);

/* The boundary, and what is checked against the table that it computes. */

/* The table after a boundary and the activated update, ERGO_COMPUTED_SIZE bytes: 22, 7, 8, 17, 18, and then 19, 20, 13,
   14 as they are met; 21. The sections are those of the proposed update, empty unless it is activated. If no two entries
   have ids that are equal or negations of each other, their order decides nothing but which of 13 and 14 is met. */
uint8_t ergo_compute_boundary_parameters(const ergo_entry *tally, size_t tally_len, const uint8_t *proposed_update,
                                         size_t proposed_update_len, const uint8_t *question, size_t question_len,
                                         uint8_t *out, size_t out_len);

/* Whether a computed table stands, equal, among a body's parameters: 0, or 15 and 256 times the least id that differs.
   ergo_refusal_of and ergo_id_of read the answer. The parameters are those of ergo_parse_parameters_from_kv; of two
   with one id the later one counts, and up to four bytes left over are none. */
uint16_t ergo_check_parameters_v6(const uint8_t *table, size_t table_len, const uint8_t *parameters,
                                  size_t parameters_len);

/* Whether a block has the table's version: 20, 16. */
uint8_t ergo_check_block_version(const uint8_t *table, size_t table_len, uint8_t version);

/* Extension bodies. */

/* Whether a body is in form: 22, 1 to 6. */
uint8_t ergo_check_body(const uint8_t *bytes, size_t bytes_len);

/* The section of a body's fields, ERGO_SECTION_SIZE bytes: 22, 1 to 5, 21. The id is the body's first 32 bytes. */
uint8_t ergo_parse_extension_bytes(const uint8_t *bytes, size_t bytes_len, uint8_t *out, size_t out_len);

/* The field at a position of a body, ERGO_FIELD_SIZE bytes: 22, 3, 4, 5, 21. The next one stands where its value
   ends. */
uint8_t ergo_field_at(const uint8_t *bytes, size_t bytes_len, size_t at, uint8_t *out, size_t out_len);

/* A body's parameters, in rising order of their id bytes, and how many bytes they have: minus 22, 1 to 6, 21. A buffer
   of ERGO_PARAMETERS_SIZE_MOST holds any. */
int64_t ergo_parse_parameters_from_kv(const uint8_t *bytes, size_t bytes_len, uint8_t *out, size_t out_len);

/* The bytes of the update that a body proposes, and how many: minus 21. None where there is no update, or the body is
   refused. A buffer of ERGO_FIELD_VALUE_SIZE_MOST holds any. */
int64_t ergo_extract_disabling_rules_from_kv(const uint8_t *bytes, size_t bytes_len, uint8_t *out, size_t out_len);

/* Settings updates. */

/* The sections of an update's rules and statuses, ERGO_UPDATE_SIZE bytes: 22, 7, 8, 21. */
uint8_t ergo_parse_validation_settings_update(const uint8_t *bytes, size_t bytes_len, uint8_t *out, size_t out_len);

/* The rule at a position of an update, ERGO_RULE_SIZE bytes: 22, 7, 21. */
uint8_t ergo_rule_at(const uint8_t *bytes, size_t bytes_len, size_t at, uint8_t *out, size_t out_len);

/* The status at a position of an update, ERGO_STATUS_SIZE bytes: 22, 7, 21. The next one stands where its raw bytes
   end. */
uint8_t ergo_status_at(const uint8_t *bytes, size_t bytes_len, size_t at, uint8_t *out, size_t out_len);

/* 1 if a rule is mandatory, else 0. */
uint8_t ergo_rule_may_not_be_disabled(int32_t id);

/* Writers. Each answers how many bytes it wrote. */

/* A body of an id of 32 bytes and of fields as they stand in a body (a key of two bytes, a length byte, the value):
   minus 22, 24, 3 or 5, 21. It has at most 35 bytes more than the fields. */
int64_t ergo_pack_extension_bytes(const uint8_t *header_id, size_t header_id_len, const uint8_t *fields,
                                  size_t fields_len, uint8_t *out, size_t out_len);

/* Fields as they stand in a body, of their keys (two bytes each), the sizes of their values, and the bytes of all values
   one after another: minus 22, 24, 3 where there are not two key bytes for each size, 5 where there are not as many
   bytes of values as the sizes say, 21. They have 3 bytes for each, and the values. */
int64_t ergo_pack_fields(const uint8_t *keys, size_t keys_len, const uint32_t *sizes, size_t sizes_len,
                         const uint8_t *values, size_t values_len, uint8_t *out, size_t out_len);

/* Parameters as fields, in the order of their signed ids and without 124: minus 21. They are handed over as
   ergo_check_parameters_v6 takes them. A buffer of ERGO_PARAMETER_FIELDS_SIZE_MOST holds any. */
int64_t ergo_pack_parameters_to_kv(const uint8_t *parameters, size_t parameters_len, uint8_t *out, size_t out_len);

/* An update of rules, and of statuses by their rule ids, codes, sizes, and raw bytes one after another: minus 22, 23,
   7, 21. It has at most 6 bytes, 3 for each rule, 7 for each status, and the raw bytes. */
int64_t ergo_encode_validation_settings_update(const uint16_t *rules, size_t rules_len, const int16_t *ids,
                                               size_t ids_len, const uint8_t *codes, size_t codes_len,
                                               const uint32_t *sizes, size_t sizes_len, const uint8_t *raw,
                                               size_t raw_len, uint8_t *out, size_t out_len);

/* An update of rules alone: minus 22, 21. It has at most 4 bytes, and 3 for each rule. */
int64_t ergo_encode_disabled_rules(const uint16_t *rules, size_t rules_len, uint8_t *out, size_t out_len);

/* The replay. */

/* Opens a replay on mainnet's settings, at a height and with a table, into a state: 26, 21. */
uint8_t ergo_open(uint32_t height, const uint8_t *table, size_t table_len, uint8_t *state, size_t state_len);

/* Replays a record on a state, which becomes the state after it. 0, or the refusal's number, and for 15 also 256 times
   the least id that differs: ergo_refusal_of and ergo_id_of read the answer. docs/RULES.md, "Replay", has the tests and
   their order; a state of fewer than ERGO_STATE_SIZE bytes is 21, after them. */
uint16_t ergo_replay(uint8_t *state, size_t state_len, const uint8_t *rec, size_t rec_len);

/* The record that bytes begin with, its votes having votes_size bytes (3 for each header of an epoch): 0, and its
   place, ERGO_RECORD_SIZE bytes; or how many bytes are missing at least; or minus 25, 21. */
int64_t ergo_read_record(const uint8_t *bytes, size_t bytes_len, size_t votes_size, uint8_t *out, size_t out_len);

/* Lines that program `replay` prints, each with its newline. The answer is how many bytes were written: minus 21. A
   buffer of ERGO_LINE_SIZE holds any. */

/* The first line. */
int64_t ergo_write_head(uint8_t *out, size_t out_len);

/* The line of an accepted epoch, with its height and the table after its boundary. */
int64_t ergo_write_epoch(uint32_t height, const uint8_t *table, size_t table_len, uint8_t *out, size_t out_len);

/* The last line, with the number of epochs that were accepted, and the refusal's number or 0. */
int64_t ergo_write_end(uint32_t accepted, uint8_t refusal, uint8_t *out, size_t out_len);

/* Helpers. They need no library. */

/* A number of four bytes. */
static inline uint32_t ergo_number(const uint8_t *bytes) {
    return (uint32_t)bytes[0] << 24 | (uint32_t)bytes[1] << 16 | (uint32_t)bytes[2] << 8 | (uint32_t)bytes[3];
}

static inline void ergo_put_number(uint8_t *bytes, uint32_t number) {
    bytes[0] = (uint8_t)(number >> 24);
    bytes[1] = (uint8_t)(number >> 16);
    bytes[2] = (uint8_t)(number >> 8);
    bytes[3] = (uint8_t)number;
}

/* A signed number of four bytes. */
static inline int32_t ergo_signed_number(const uint8_t *bytes) {
    uint32_t bits = ergo_number(bytes);
    return bits <= INT32_MAX ? (int32_t)bits : -(int32_t)(UINT32_MAX - bits) - 1;
}

/* A value of ERGO_VALUE_SIZE bytes: false where it is absent, and *value is then left alone. */
static inline bool ergo_value_get(const uint8_t *bytes, int32_t *value) {
    if (bytes[0] == 0) {
        return false;
    }
    *value = ergo_signed_number(bytes + 1);
    return true;
}

/* Where the entry of an id stands in a table; ERGO_TABLE_SIZE where the table has no such id. */
static inline size_t ergo_table_entry_at(uint8_t id) {
    if (id >= 1 && id <= 9) {
        return (size_t)(id - 1) * ERGO_VALUE_SIZE;
    }
    if (id >= 121 && id <= 123) {
        return ERGO_TABLE_VOTES_AT + (size_t)(id - 121) * ERGO_VALUE_SIZE;
    }
    return ERGO_TABLE_SIZE;
}

/* The entry of an id: false where it is absent or the table has no such id, and *value is then left alone. */
static inline bool ergo_table_get(const uint8_t table[ERGO_TABLE_SIZE], uint8_t id, int32_t *value) {
    size_t at = ergo_table_entry_at(id);
    return at < ERGO_TABLE_SIZE && ergo_value_get(table + at, value);
}

/* Sets the entry of an id: false where the table has no such id. */
static inline bool ergo_table_set(uint8_t table[ERGO_TABLE_SIZE], uint8_t id, int32_t value) {
    size_t at = ergo_table_entry_at(id);
    if (at == ERGO_TABLE_SIZE) {
        return false;
    }
    table[at] = 1;
    ergo_put_number(table + at + 1, (uint32_t)value);
    return true;
}

/* Removes the entry of an id: false where the table has no such id. */
static inline bool ergo_table_remove(uint8_t table[ERGO_TABLE_SIZE], uint8_t id) {
    size_t at = ergo_table_entry_at(id);
    if (at == ERGO_TABLE_SIZE) {
        return false;
    }
    memset(table + at, 0, ERGO_VALUE_SIZE);
    return true;
}

/* The table in a state. */
static inline const uint8_t *ergo_state_table(const uint8_t state[ERGO_STATE_SIZE]) {
    return state + ERGO_STATE_TABLE_AT;
}

/* The height that a state expects next. */
static inline uint32_t ergo_state_next_height(const uint8_t state[ERGO_STATE_SIZE]) {
    return ergo_number(state + ERGO_STATE_NEXT_HEIGHT_AT);
}

/* The refusal in an answer of ergo_replay or ergo_check_parameters_v6: its number, or 0. */
static inline uint8_t ergo_refusal_of(uint16_t answer) {
    return (uint8_t)(answer % 256);
}

/* The id in such an answer: that of 15, else 0. */
static inline uint8_t ergo_id_of(uint16_t answer) {
    return (uint8_t)(answer / 256);
}

/* Writes a question for ergo_compute_boundary_parameters. */
static inline void ergo_question(uint8_t question[ERGO_QUESTION_SIZE], const uint8_t settings[ERGO_SETTINGS_SIZE],
                                 uint32_t height, const uint8_t table[ERGO_TABLE_SIZE], bool votes_fork) {
    memcpy(question + ERGO_QUESTION_SETTINGS_AT, settings, ERGO_SETTINGS_SIZE);
    ergo_put_number(question + ERGO_QUESTION_HEIGHT_AT, height);
    memcpy(question + ERGO_QUESTION_TABLE_AT, table, ERGO_TABLE_SIZE);
    question[ERGO_QUESTION_VOTES_FORK_AT] = votes_fork;
}

/* The entries of a tally, in order, and how many there are: ergo_compute_boundary_parameters takes them so. */
static inline size_t ergo_tally_entries(const uint8_t tally[ERGO_TALLY_SIZE], ergo_entry entries[ERGO_TALLY_ENTRIES]) {
    size_t count = 0;
    for (size_t at = 0; at < ERGO_TALLY_SIZE; at += ERGO_TALLY_ENTRY_SIZE) {
        const uint8_t *place = tally + at;
        if (place[0] != 0) {
            entries[count].id = (int8_t)(place[0] < 128 ? place[0] : place[0] - 256);
            entries[count].count = ergo_number(place + 1);
            count += 1;
        }
    }
    return count;
}

/* How many headers a window spans. */
static inline uint16_t ergo_window_length(uint64_t window) {
    return (uint16_t)(window >> 32);
}

/* How many headers a window holds: those that support is counted over. */
static inline uint16_t ergo_window_held(uint64_t window) {
    return (uint16_t)(window >> 16);
}

/* The support of an id in the cells of a window. */
static inline uint16_t ergo_window_support(const uint16_t *cells, int8_t id) {
    return cells[(uint8_t)id];
}

#ifdef __cplusplus
}
#endif

#endif

/* Calls every entry through the header alone, with good and with refused input, and checks every field of the answers and what lent
 * memory holds afterwards. What is expected comes from the scope paper ("01") and the change requests ("02"), never from what the library
 * answers.
 * Each number that an entry takes is also given one that 32 bits don't hold, which a narrower declaration would change. */
#include "jeguarivo.h"

#include <inttypes.h>
#include <math.h>
#include <stdio.h>
#include <string.h>

/* The layout of the answers: the refusal first, each field of eight bytes, in the order of the header. */
#ifdef __cplusplus
#define ASSERT(test) static_assert(test, #test)
#else
#define ASSERT(test) _Static_assert(test, #test)
#endif
#define KIND(type, field) __typeof__(((type *)0)->field)
#define FIELD(type, field, offset) ASSERT(offsetof(type, field) == (offset) && sizeof(((type *)0)->field) == 8)
#define UNSIGNED(type, field, offset) FIELD(type, field, offset); ASSERT((KIND(type, field))-1 > 0)
#define SIGNED(type, field, offset) FIELD(type, field, offset); ASSERT(!((KIND(type, field))-1 > 0))
#define DOUBLE(type, field, offset) FIELD(type, field, offset); ASSERT(__builtin_classify_type(((type *)0)->field) == __builtin_classify_type(0.0))
#define ANSWER(type, size) ASSERT(sizeof(type) == (size)); UNSIGNED(type, refusal, 0)

ANSWER(jgv_code, 16); UNSIGNED(jgv_code, code, 8);
ANSWER(jgv_cell, 56); UNSIGNED(jgv_cell, n, 8); UNSIGNED(jgv_cell, s, 16); UNSIGNED(jgv_cell, face, 24);
UNSIGNED(jgv_cell, resolution, 32); UNSIGNED(jgv_cell, row, 40); UNSIGNED(jgv_cell, column, 48);
ANSWER(jgv_name, 32); UNSIGNED(jgv_name, n, 8); UNSIGNED(jgv_name, s, 16); UNSIGNED(jgv_name, length, 24);
ANSWER(jgv_length, 16); UNSIGNED(jgv_length, length, 8);
ANSWER(jgv_size_answer, 16); UNSIGNED(jgv_size_answer, size, 8);
ANSWER(jgv_shape_answer, 16); UNSIGNED(jgv_shape_answer, shape, 8);
ANSWER(jgv_count, 16); UNSIGNED(jgv_count, count, 8);
ANSWER(jgv_square_answer, 32); SIGNED(jgv_square_answer, left, 8); SIGNED(jgv_square_answer, top, 16); SIGNED(jgv_square_answer, side, 24);
ANSWER(jgv_point, 24); SIGNED(jgv_point, x, 8); SIGNED(jgv_point, y, 16);
ANSWER(jgv_vertices_answer, 72); SIGNED(jgv_vertices_answer, x[0], 8); SIGNED(jgv_vertices_answer, x[3], 32);
SIGNED(jgv_vertices_answer, y[0], 40); SIGNED(jgv_vertices_answer, y[3], 64);
ANSWER(jgv_fix, 24); SIGNED(jgv_fix, longitude, 8); SIGNED(jgv_fix, z, 16);
ANSWER(jgv_z, 16); SIGNED(jgv_z, z, 8);
ANSWER(jgv_check, 64); UNSIGNED(jgv_check, place, 8); UNSIGNED(jgv_check, version, 16); UNSIGNED(jgv_check, depth, 24);
UNSIGNED(jgv_check, n, 32); UNSIGNED(jgv_check, s, 40); UNSIGNED(jgv_check, cells, 48); UNSIGNED(jgv_check, size, 56);
ANSWER(jgv_list, 24); UNSIGNED(jgv_list, place, 8); UNSIGNED(jgv_list, count, 16);
ANSWER(jgv_ask, 32); UNSIGNED(jgv_ask, place, 8); UNSIGNED(jgv_ask, covered, 16); UNSIGNED(jgv_ask, settled, 24);
ANSWER(jgv_add, 24); UNSIGNED(jgv_add, place, 8); UNSIGNED(jgv_add, length, 16);
ANSWER(jgv_mark_answer, 48); UNSIGNED(jgv_mark_answer, kind, 8); DOUBLE(jgv_mark_answer, numbers[0], 16); DOUBLE(jgv_mark_answer, numbers[3], 40);
ASSERT(sizeof(jgv_frame) == 32); DOUBLE(jgv_frame, left, 0); DOUBLE(jgv_frame, bottom, 8); DOUBLE(jgv_frame, right, 16); DOUBLE(jgv_frame, top, 24);
ANSWER(jgv_frame_answer, 40); DOUBLE(jgv_frame_answer, left, 8); DOUBLE(jgv_frame_answer, bottom, 16); DOUBLE(jgv_frame_answer, right, 24);
DOUBLE(jgv_frame_answer, top, 32);
ANSWER(jgv_compare, 64); UNSIGNED(jgv_compare, place, 8); UNSIGNED(jgv_compare, first_cells, 16); UNSIGNED(jgv_compare, second_cells, 24);
UNSIGNED(jgv_compare, both_cells, 32); UNSIGNED(jgv_compare, first_size, 40); UNSIGNED(jgv_compare, second_size, 48);
UNSIGNED(jgv_compare, both_size, 56);
ANSWER(jgv_sheet, 32); UNSIGNED(jgv_sheet, place, 8); UNSIGNED(jgv_sheet, right, 16); UNSIGNED(jgv_sheet, record, 24);
ANSWER(jgv_sheet_length, 24); UNSIGNED(jgv_sheet_length, place, 8); UNSIGNED(jgv_sheet_length, length, 16);
ANSWER(jgv_summary_answer, 32 + 486 * 8); UNSIGNED(jgv_summary_answer, place, 8); UNSIGNED(jgv_summary_answer, n, 16); UNSIGNED(jgv_summary_answer, s, 24);
UNSIGNED(jgv_summary_answer, counters[0], 32); UNSIGNED(jgv_summary_answer, counters[485], 32 + 485 * 8);
ANSWER(jgv_summary_ask_answer, 16); UNSIGNED(jgv_summary_ask_answer, covered, 8);

/* Counting checks. */
static unsigned long passed, failed;

static void check(uint64_t got, uint64_t want, const char *what, int line) {
    if (got == want) {
        passed++;
    } else {
        failed++;
        printf("every_entry.c:%d: %s is %" PRId64 ", not %" PRId64 "\n", line, what, (int64_t)got, (int64_t)want);
    }
}

/* The same double, bit by bit: -0.0 is not 0.0. */
static void check_metres(double got, double want, const char *what, int line) {
    uint64_t got_bits, want_bits;
    memcpy(&got_bits, &got, 8);
    memcpy(&want_bits, &want, 8);
    if (got_bits == want_bits) {
        passed++;
    } else {
        failed++;
        printf("every_entry.c:%d: %s is %.17g, not %.17g\n", line, what, got, want);
    }
}

#define CHECK(got, want, what) check((uint64_t)(got), (uint64_t)(want), what, __LINE__)
#define CHECK_METRES(got, want, what) check_metres(got, want, what, __LINE__)
#define CHECK_ONE(type, field, call, want_refusal, want)                      \
    do {                                                                      \
        type got = (call);                                                    \
        CHECK(got.refusal, want_refusal, #call ": refusal");                  \
        CHECK(got.field, want, #call ": " #field);                            \
    } while (0)
#define CODE(call, want) CHECK_ONE(jgv_code, code, call, 0, want)
#define NO_CODE(call, number) CHECK_ONE(jgv_code, code, call, number, 0)

/* What 01 and 02 say of numbers. */
#define NINE_15 UINT64_C(205891132094649)
#define NINE_14 UINT64_C(22876792454961)
#define NINE_13 UINT64_C(2541865828329)
#define GREATEST UINT64_C(316248778897380863) /* of S888888888888888 at n = s = 3 */
#define LAST UINT64_C(316248778897380848) /* of the same at n = s = 0 */
#define SIDE INT64_C(28697814) /* M, of a face */
#define ONE INT64_C(1000000000000000000) /* z at the north pole */
#define WIDE (UINT64_C(1) << 32)
static const uint64_t no_code = GREATEST + 1;

/* 01: "(face x 9^15 + path x 9^(15-k)) x 16 + k, where path is the digits read in base nine"; 02: "16 times the old code, plus 4n + s". */
static uint64_t code_at(uint64_t n, uint64_t s, const char *name) {
    uint64_t k = strlen(name) - 1, path = 0;
    for (uint64_t i = 1; i <= 15; i++)
        path = 9 * path + (i <= k ? (uint64_t)(name[i] - '0') : 0);
    return (((uint64_t)(name[0] - 'N') * NINE_15 + path) * 16 + k) * 16 + 4 * n + s;
}

static uint64_t code(const char *name) { return code_at(0, 0, name); }

/* Lent memory: guards before and after, all filled with a byte that no name and no text has. */
enum { GUARD = 16, ROOM = 64, FILL = 0xA5 };
static uint8_t lent[GUARD + ROOM + GUARD];
static uint64_t lent_codes[GUARD + ROOM + GUARD];

static uint8_t *lend(void) {
    memset(lent, FILL, sizeof lent);
    return lent + GUARD;
}

static uint64_t *lend_codes(void) {
    memset(lent_codes, FILL, sizeof lent_codes);
    return lent_codes + GUARD;
}

/* How many filled bytes from the first to the last but one have changed. */
static size_t changes(const void *first, const void *last) {
    size_t count = 0;
    for (const uint8_t *at = (const uint8_t *)first; at < (const uint8_t *)last; at++)
        count += *at != FILL;
    return count;
}

/* How many lent bytes have changed that are not of the answer's own length. */
static size_t strays(size_t length) {
    return changes(lent, lent + GUARD) + changes(lent + GUARD + length, lent + sizeof lent);
}

static size_t code_strays(size_t count) {
    return changes(lent_codes, lent_codes + GUARD) + changes(lent_codes + GUARD + count, lent_codes + GUARD + ROOM + GUARD);
}

static void cell_code(void) {
    CODE(jgv_cell_code(0, 0, 0, 0, 0, 0), 0);
    CODE(jgv_cell_code(0, 0, 0, 1, 0, 0), 16); /* 02: "N0 at n = s = 0 is 16" */
    CODE(jgv_cell_code(0, 0, 0, 1, 0, 1), 16 * UINT64_C(366028679279377));
    CODE(jgv_cell_code(0, 0, 1, 0, 0, 0), 16 * UINT64_C(3294258113514384));
    CODE(jgv_cell_code(0, 0, 5, 15, 14348906, 14348906), LAST);
    CODE(jgv_cell_code(3, 3, 5, 15, 14348906, 14348906), GREATEST);
    CODE(jgv_cell_code(0, 0, 2, 2, 3, 4), code("P41")); /* rows 1 0 and columns 1 1 in base three: digits 4 and 1 */
    for (uint64_t both = 0; both < 16; both++)
        CODE(jgv_cell_code(both / 4, both % 4, 0, 1, 0, 0), 16 + both);
    NO_CODE(jgv_cell_code(0, 0, 6, 0, 0, 0), 1);
    NO_CODE(jgv_cell_code(0, 0, 256, 0, 0, 0), 1);
    NO_CODE(jgv_cell_code(0, 0, WIDE, 0, 0, 0), 1);
    NO_CODE(jgv_cell_code(0, 0, 0, 16, 0, 0), 2);
    NO_CODE(jgv_cell_code(0, 0, 0, WIDE, 0, 0), 2);
    NO_CODE(jgv_cell_code(0, 0, 0, 1, 3, 0), 3);
    NO_CODE(jgv_cell_code(0, 0, 0, 1, 0, 3), 3);
    NO_CODE(jgv_cell_code(0, 0, 0, 15, 14348907, 0), 3);
    NO_CODE(jgv_cell_code(0, 0, 0, 1, WIDE, 0), 3);
    NO_CODE(jgv_cell_code(0, 0, 0, 1, 0, WIDE), 3);
    NO_CODE(jgv_cell_code(4, 0, 0, 0, 0, 0), 5);
    NO_CODE(jgv_cell_code(0, 4, 0, 0, 0, 0), 5);
    NO_CODE(jgv_cell_code(WIDE, 0, 0, 0, 0, 0), 5);
    NO_CODE(jgv_cell_code(0, WIDE, 0, 0, 0, 0), 5);
    NO_CODE(jgv_cell_code(4, 0, 6, 16, 3, 3), 5); /* the order is 5, 2, 1, 3 */
    NO_CODE(jgv_cell_code(0, 0, 6, 16, 3, 3), 2);
    NO_CODE(jgv_cell_code(0, 0, 6, 1, 3, 3), 1);
    NO_CODE(jgv_cell_code(UINT64_MAX, UINT64_MAX, UINT64_MAX, UINT64_MAX, UINT64_MAX, UINT64_MAX), 5);
}

#define CELL(call, want_refusal, want_n, want_s, want_face, want_resolution, want_row, want_column) \
    do {                                                                            \
        jgv_cell got = (call);                                                      \
        CHECK(got.refusal, want_refusal, #call ": refusal");                        \
        CHECK(got.n, want_n, #call ": n");                                          \
        CHECK(got.s, want_s, #call ": s");                                          \
        CHECK(got.face, want_face, #call ": face");                                 \
        CHECK(got.resolution, want_resolution, #call ": resolution");               \
        CHECK(got.row, want_row, #call ": row");                                    \
        CHECK(got.column, want_column, #call ": column");                           \
    } while (0)

static void code_cell(void) {
    CELL(jgv_code_cell(0), 0, 0, 0, 0, 0, 0, 0);
    CELL(jgv_code_cell(1), 0, 0, 1, 0, 0, 0, 0); /* N at s = 1 */
    CELL(jgv_code_cell(16), 0, 0, 0, 0, 1, 0, 0);
    CELL(jgv_code_cell(27), 0, 2, 3, 0, 1, 0, 0); /* N0 at n = 2 and s = 3 */
    CELL(jgv_code_cell(16 * UINT64_C(366028679279377)), 0, 0, 0, 0, 1, 0, 1);
    CELL(jgv_code_cell(16 * UINT64_C(3294258113514384) + 4), 0, 1, 0, 1, 0, 0, 0);
    CELL(jgv_code_cell(code_at(3, 2, "P41")), 0, 3, 2, 2, 2, 3, 4);
    CELL(jgv_code_cell(GREATEST), 0, 3, 3, 5, 15, 14348906, 14348906);
    CELL(jgv_code_cell(no_code), 4, 0, 0, 0, 0, 0, 0);
    CELL(jgv_code_cell(256), 4, 0, 0, 0, 0, 0, 0);
    CELL(jgv_code_cell(257), 4, 0, 0, 0, 0, 0, 0);
    CELL(jgv_code_cell(code("O") + WIDE), 4, 0, 0, 0, 0, 0, 0);
    CELL(jgv_code_cell(UINT64_MAX), 4, 0, 0, 0, 0, 0, 0);
}

/* 02, W-202: what each gets is what it gets alone; 7 numbers to a cell and 2 to a code, and 8 only where the room is short. */
static void code_cells(void) {
    const uint64_t codes[5] = {27, no_code, code_at(3, 2, "P41"), UINT64_MAX, GREATEST};
    static const uint64_t want[35] = {0, 2, 3, 0, 1, 0, 0, /* N0 at n = 2 and s = 3 */
                                      4, 0, 0, 0, 0, 0, 0, 0, 3, 2, 2, 2, 3, 4, 4, 0, 0, 0, 0, 0, 0,
                                      0, 3, 3, 5, 15, 14348906, 14348906};
    for (size_t count = 0; count <= 5; count++)
        for (size_t room = 0; room <= 36; room++) {
            size_t written = room < 7 * count ? 0 : 7 * count;
            jgv_count got = jgv_code_cells(codes, count, lend_codes(), room);
            CHECK(got.refusal, room < 7 * count ? 8 : 0, "jgv_code_cells: refusal");
            CHECK(got.count, written / 7, "jgv_code_cells: count");
            CHECK(memcmp(lent_codes + GUARD, want, written * 8), 0, "jgv_code_cells: numbers");
            CHECK(code_strays(written), 0, "jgv_code_cells: bytes about the numbers");
        }
    jgv_count none = jgv_code_cells(NULL, 0, NULL, 0);
    CHECK(none.refusal, 0, "jgv_code_cells of nothing: refusal");
    CHECK(none.count, 0, "jgv_code_cells of nothing: count");
}

static void cell_codes(void) {
    static const uint64_t numbers[29] = {2, 3, 0, 1, 0, 0, 0, 4, 6, 16, 3, 3, 0, 0, 0, 1, 0, WIDE, 3, 3, 5, 15, 14348906, 14348906,
                                         0, 0, 0, 0, 0}; /* five numbers at the end are no cell */
    static const uint64_t want[8] = {0, 27, 5, 0, 3, 0, 0, GREATEST};
    for (size_t count = 0; count <= 29; count++)
        for (size_t room = 0; room <= 9; room++) {
            size_t written = room < 2 * (count / 6) ? 0 : 2 * (count / 6);
            jgv_count got = jgv_cell_codes(numbers, count, lend_codes(), room);
            CHECK(got.refusal, room < 2 * (count / 6) ? 8 : 0, "jgv_cell_codes: refusal");
            CHECK(got.count, written / 2, "jgv_cell_codes: count");
            CHECK(memcmp(lent_codes + GUARD, want, written * 8), 0, "jgv_cell_codes: codes");
            CHECK(code_strays(written), 0, "jgv_cell_codes: bytes about the codes");
        }
    jgv_count none = jgv_cell_codes(NULL, 0, NULL, 0);
    CHECK(none.refusal, 0, "jgv_cell_codes of nothing: refusal");
    CHECK(none.count, 0, "jgv_cell_codes of nothing: count");
}

static jgv_code named_at(uint64_t n, uint64_t s, const char *name) {
    memcpy(lend(), name, strlen(name));
    jgv_code answer = jgv_name_code(n, s, lent + GUARD, strlen(name));
    CHECK(memcmp(lent + GUARD, name, strlen(name)), 0, "jgv_name_code: the name afterwards");
    CHECK(strays(strlen(name)), 0, "jgv_name_code: bytes about the name");
    return answer;
}

static jgv_code named(const char *name) { return named_at(0, 0, name); }

static void name_code(void) {
    CODE(named("N"), 0);
    CODE(named("N0"), 16);
    CODE(named("N1"), 16 * UINT64_C(366028679279377));
    CODE(named("O"), 16 * UINT64_C(3294258113514384));
    CODE(named("P41"), code("P41"));
    CODE(named("S888888888888888"), LAST);
    CODE(named_at(3, 3, "S888888888888888"), GREATEST);
    CODE(named_at(2, 1, "N0"), 25);
    CODE(named_at(1, 2, "N0"), 22);
    NO_CODE(named_at(4, 0, "N0"), 5);
    NO_CODE(named_at(0, 4, "N0"), 5);
    NO_CODE(named_at(WIDE, 0, "N0"), 5);
    NO_CODE(named_at(0, WIDE, "N0"), 5);
    NO_CODE(named_at(4, 4, "X0000000000000009"), 5); /* the order is 5, 2, 1, 3 */
    NO_CODE(named_at(0, 4, ""), 5);
    NO_CODE(named(""), 1);
    NO_CODE(named("M"), 1);
    NO_CODE(named("T"), 1);
    NO_CODE(named("n1"), 1);
    NO_CODE(named("X9"), 1);
    NO_CODE(named("N9"), 3);
    NO_CODE(named("N/"), 3);
    NO_CODE(named("S88888888888888O"), 3);
    NO_CODE(named("S0000000000000000"), 2);
    NO_CODE(named("X0000000000000009"), 2);
    NO_CODE(jgv_name_code(0, 0, (const uint8_t *)"N\0", 2), 3);
    NO_CODE(jgv_name_code(0, 0, (const uint8_t *)"N", 0), 1);
    NO_CODE(jgv_name_code(0, 0, NULL, 0), 1);
}

static void written_name(uint64_t n, uint64_t s, const char *name, size_t room) {
    jgv_name got = jgv_code_name(code_at(n, s, name), lend(), room);
    CHECK(got.refusal, 0, "jgv_code_name: refusal");
    CHECK(got.n, n, "jgv_code_name: n");
    CHECK(got.s, s, "jgv_code_name: s");
    CHECK(got.length, strlen(name), "jgv_code_name: length");
    CHECK(memcmp(lent + GUARD, name, strlen(name)), 0, "jgv_code_name: the name");
    CHECK(strays(strlen(name)), 0, "jgv_code_name: bytes about the name");
}

static void no_name(uint64_t of, size_t room, uint64_t refusal) {
    jgv_name got = jgv_code_name(of, lend(), room);
    CHECK(got.refusal, refusal, "jgv_code_name: refusal");
    CHECK(got.n, 0, "jgv_code_name: n");
    CHECK(got.s, 0, "jgv_code_name: s");
    CHECK(got.length, 0, "jgv_code_name: length");
    CHECK(strays(0), 0, "jgv_code_name: lent bytes");
}

static void code_name(void) {
    static const char *const names[] = {"N", "N0", "N1", "O", "P41", "Q333333333333333", "S888888888888888"};
    for (size_t i = 0; i < sizeof names / sizeof *names; i++) {
        for (uint64_t both = 0; both < 16; both++) {
            written_name(both / 4, both % 4, names[i], strlen(names[i]));
            written_name(both / 4, both % 4, names[i], ROOM);
            no_name(code_at(both / 4, both % 4, names[i]), strlen(names[i]) - 1, 8);
        }
    }
    no_name(no_code, 16, 4);
    no_name(no_code, 0, 4); /* the order is 4, 8 */
    no_name(UINT64_MAX, ROOM, 4);
    no_name(code("O") + WIDE, ROOM, 4);
    CHECK_ONE(jgv_name, length, jgv_code_name(0, NULL, 0), 8, 0);
}

static void families(void) {
    CODE(jgv_parent(code("N1")), 0);
    CODE(jgv_parent(code("P41")), code("P4"));
    CODE(jgv_parent(GREATEST), code_at(3, 3, "S88888888888888"));
    CODE(jgv_parent(code_at(2, 1, "P41")), code_at(2, 1, "P4"));
    NO_CODE(jgv_parent(code_at(2, 1, "O")), 12);
    NO_CODE(jgv_parent(code("O")), 12);
    NO_CODE(jgv_parent(no_code), 4);
    NO_CODE(jgv_parent(code("O1") + WIDE), 4);
    CODE(jgv_child(0, 0), 16);
    CODE(jgv_child(0, 1), 16 * UINT64_C(366028679279377));
    CODE(jgv_child(code("P4"), 1), code("P41"));
    CODE(jgv_child(code_at(1, 3, "P4"), 1), code_at(1, 3, "P41"));
    CODE(jgv_child(code_at(3, 3, "S88888888888888"), 8), GREATEST);
    NO_CODE(jgv_child(0, 9), 3);
    NO_CODE(jgv_child(0, WIDE), 3);
    NO_CODE(jgv_child(no_code, 0), 4);
    NO_CODE(jgv_child(code("O") + WIDE, 0), 4);
    NO_CODE(jgv_child(GREATEST, 0), 12);
    NO_CODE(jgv_child(no_code, 9), 3); /* the order is 3, 4, 12 */
    NO_CODE(jgv_child(GREATEST, 9), 3);
}

#define SIZE(call, want_refusal, want) CHECK_ONE(jgv_size_answer, size, call, want_refusal, want)
#define SHAPE(call, want_refusal, want) CHECK_ONE(jgv_shape_answer, shape, call, want_refusal, want)
#define COUNT(call, want_refusal, want) CHECK_ONE(jgv_count, count, call, want_refusal, want)

static void shapes(void) {
    SIZE(jgv_size(0), 0, NINE_15);
    SIZE(jgv_size(code("N1")), 0, NINE_14);
    SIZE(jgv_size(code("P41")), 0, NINE_13);
    SIZE(jgv_size(GREATEST), 0, 1);
    SIZE(jgv_size(code_at(1, 2, "P41")), 0, NINE_13);
    SIZE(jgv_size(no_code), 4, 0);
    SIZE(jgv_size(code("O") + WIDE), 4, 0);
    SHAPE(jgv_shape(code("P0")), 0, 0);
    SHAPE(jgv_shape(code("N")), 0, 1);
    SHAPE(jgv_shape(code("S444")), 0, 1);
    SHAPE(jgv_shape(code("N0")), 0, 2);
    SHAPE(jgv_shape(code("S42")), 0, 2);
    SHAPE(jgv_shape(code("N1")), 0, 3);
    SHAPE(jgv_shape(code("S45")), 0, 3);
    SHAPE(jgv_shape(code_at(3, 1, "S45")), 0, 3);
    SHAPE(jgv_shape(no_code), 4, 0);
    SHAPE(jgv_shape(code("N1") + WIDE), 4, 0);
    /* 02: "At resolution 0 the number is 0. Above that it is 3 for a cell in a corner of its face" */
    COUNT(jgv_corner_count(code("P")), 0, 0);
    COUNT(jgv_corner_count(code("N")), 0, 0);
    COUNT(jgv_corner_count(code("P0")), 0, 3);
    COUNT(jgv_corner_count(code("N0")), 0, 3);
    COUNT(jgv_corner_count(code_at(1, 2, "R8")), 0, 3);
    COUNT(jgv_corner_count(code("S22")), 0, 3);
    COUNT(jgv_corner_count(code("P1")), 0, 4);
    COUNT(jgv_corner_count(code("N4")), 0, 4);
    COUNT(jgv_corner_count(code("S1")), 0, 4);
    COUNT(jgv_corner_count(code("N04")), 0, 4); /* a dart that is in no corner of its face */
    COUNT(jgv_corner_count(GREATEST), 0, 3);
    COUNT(jgv_corner_count(no_code), 4, 0);
    COUNT(jgv_corner_count(code("N0") + WIDE), 4, 0);
}

/* Lists the cells at the corners of a cell and checks the answer, the codes, of the cell's arrangement, and their guards. */
static void meets(uint64_t n, uint64_t s, const char *name, size_t room, const char *const *names, size_t count) {
    jgv_count got = jgv_corner_cells(code_at(n, s, name), lend_codes(), room);
    CHECK(got.refusal, 0, "jgv_corner_cells: refusal");
    CHECK(got.count, count, "jgv_corner_cells: count");
    for (size_t i = 0; i < count; i++)
        CHECK(lent_codes[GUARD + i], code_at(n, s, names[i]), "jgv_corner_cells: a code");
    CHECK(code_strays(count), 0, "jgv_corner_cells: bytes about the codes");
}

static void meets_nothing(uint64_t of, size_t room, uint64_t refusal) {
    jgv_count got = jgv_corner_cells(of, lend_codes(), room);
    CHECK(got.refusal, refusal, "jgv_corner_cells: refusal");
    CHECK(got.count, 0, "jgv_corner_cells: count");
    CHECK(code_strays(0), 0, "jgv_corner_cells: lent codes");
}

/* From the neighbours: P0 has N8, P1, P3, O2, of which two each have N5, P4, O5. */
static void corner_cells(void) {
    static const char *const p0[] = {"N5", "O5", "P4"}, *const p0_turned[] = {"N7", "O5", "P4"};
    static const char *const r5[] = {"O0", "O6", "R1", "R7"}, *const q4[] = {"Q0", "Q2", "Q6", "Q8"};
    meets(0, 0, "P0", 3, p0, 3);
    meets(0, 0, "P0", ROOM, p0, 3);
    meets(1, 3, "P0", 4, p0_turned, 3);
    meets(0, 0, "R5", 4, r5, 4);
    meets(3, 2, "Q4", 4, q4, 4);
    meets(2, 1, "S", 0, q4, 0);
    meets_nothing(code("P0"), 2, 8);
    meets_nothing(code("R5"), 3, 8);
    meets_nothing(code("R5"), 0, 8);
    meets_nothing(no_code, ROOM, 4);
    meets_nothing(no_code, 0, 4); /* the order is 4, 8 */
    meets_nothing(code("P0") + WIDE, ROOM, 4);
    jgv_count got = jgv_corner_cells(code("P"), NULL, 0);
    CHECK(got.refusal, 0, "jgv_corner_cells to no memory: refusal");
    CHECK(got.count, 0, "jgv_corner_cells to no memory: count");
}

#define SQUARE(call, want_refusal, want_left, want_top, want_side) \
    do {                                                           \
        jgv_square_answer got = (call);                            \
        CHECK(got.refusal, want_refusal, #call ": refusal");       \
        CHECK(got.left, want_left, #call ": left");                \
        CHECK(got.top, want_top, #call ": top");                   \
        CHECK(got.side, want_side, #call ": side");                \
    } while (0)
#define POINT(call, want_refusal, want_x, want_y)            \
    do {                                                     \
        jgv_point got = (call);                              \
        CHECK(got.refusal, want_refusal, #call ": refusal"); \
        CHECK(got.x, want_x, #call ": x");                   \
        CHECK(got.y, want_y, #call ": y");                   \
    } while (0)

/* Half a side is 14,348,907 units, a third 9,565,938, a sixth 4,782,969. */
static void squares(void) {
    SQUARE(jgv_square(code("O")), 0, 0, 14348907, SIDE);
    SQUARE(jgv_square(code("P0")), 0, 28697814, 14348907, 9565938);
    SQUARE(jgv_square(code_at(3, 2, "P0")), 0, 28697814, 14348907, 9565938);
    SQUARE(jgv_square(code("N")), 0, 0, 43046721, SIDE);
    SQUARE(jgv_square(code_at(3, 0, "N")), 0, 86093442, 43046721, SIDE);
    SQUARE(jgv_square(code_at(0, 2, "S")), 0, 57395628, -14348907, SIDE);
    SQUARE(jgv_square(LAST), 0, SIDE - 2, -43046719, 2);
    SQUARE(jgv_square(GREATEST), 0, 4 * SIDE - 2, -43046719, 2);
    SQUARE(jgv_square(no_code), 4, 0, 0, 0);
    SQUARE(jgv_square(code("O") + WIDE), 4, 0, 0, 0);
    POINT(jgv_nucleus(code("O")), 0, 14348907, 0);
    POINT(jgv_nucleus(code("P0")), 0, 33480783, 9565938);
    POINT(jgv_nucleus(code_at(1, 0, "N4")), 0, 43046721, SIDE);
    POINT(jgv_nucleus(code_at(0, 3, "S")), 0, 100442349, -SIDE);
    POINT(jgv_nucleus(no_code), 4, 0, 0);
    POINT(jgv_nucleus(code("O") + WIDE), 4, 0, 0);
}

static void corners(uint64_t of, int64_t left, int64_t top, int64_t side) {
    jgv_vertices_answer got = jgv_vertices(of);
    CHECK(got.refusal, 0, "jgv_vertices: refusal");
    CHECK(got.x[0], left, "jgv_vertices: top left x");
    CHECK(got.y[0], top, "jgv_vertices: top left y");
    CHECK(got.x[1], left + side, "jgv_vertices: top right x");
    CHECK(got.y[1], top, "jgv_vertices: top right y");
    CHECK(got.x[2], left + side, "jgv_vertices: bottom right x");
    CHECK(got.y[2], top - side, "jgv_vertices: bottom right y");
    CHECK(got.x[3], left, "jgv_vertices: bottom left x");
    CHECK(got.y[3], top - side, "jgv_vertices: bottom left y");
}

static void no_corners(jgv_vertices_answer got, uint64_t refusal) {
    CHECK(got.refusal, refusal, "jgv_vertices: refusal");
    for (size_t i = 0; i < 4; i++) {
        CHECK(got.x[i], 0, "jgv_vertices: x of a refusal");
        CHECK(got.y[i], 0, "jgv_vertices: y of a refusal");
    }
}

static void vertices(void) {
    corners(code("P0"), 28697814, 14348907, 9565938);
    corners(code_at(3, 0, "N"), 86093442, 43046721, SIDE);
    corners(code_at(0, 2, "S"), 57395628, -14348907, SIDE);
    no_corners(jgv_vertices(no_code), 4);
    no_corners(jgv_vertices(code("O") + WIDE), 4);
}

static void point_code(void) {
    const int64_t half = 14348907;
    CODE(jgv_point_code(0, 0, 1, 33480783, 9565938), code("P0"));
    CODE(jgv_point_code(0, 0, 1, SIDE, half), code("P0")); /* the top left corner is owned */
    CODE(jgv_point_code(0, 0, 1, 38263752, 4782969), code("P4")); /* the bottom right one of P0 is not */
    CODE(jgv_point_code(0, 0, 1, 0, -half), code("O6")); /* the bottom edge of a face is */
    CODE(jgv_point_code(0, 0, 1, half, SIDE), code("N4"));
    CODE(jgv_point_code(2, 0, 1, 2 * SIDE + 1, half + 1), code_at(2, 0, "N6"));
    CODE(jgv_point_code(0, 3, 1, 4 * SIDE - 1, -half - 1), code_at(0, 3, "S2"));
    CODE(jgv_point_code(2, 3, 1, 0, -half), code_at(2, 3, "O6")); /* a cell of the belt says them too */
    CODE(jgv_point_code(0, 0, 15, 0, 0), code("O333333333333333"));
    NO_CODE(jgv_point_code(0, 0, 0, 4 * SIDE, 0), 7); /* line 12 of the proved table */
    NO_CODE(jgv_point_code(0, 0, 0, -1, 0), 7);
    NO_CODE(jgv_point_code(0, 0, 0, 0, half + 1), 7);
    NO_CODE(jgv_point_code(0, 0, 0, SIDE, half + 1), 7);
    NO_CODE(jgv_point_code(0, 0, 0, 1, 3 * half), 7);
    NO_CODE(jgv_point_code(0, 0, 0, 1, -3 * half), 7);
    NO_CODE(jgv_point_code(0, 0, 0, INT64_C(1) << 32, 0), 7);
    NO_CODE(jgv_point_code(0, 0, 0, 0, -(INT64_C(1) << 32)), 7);
    NO_CODE(jgv_point_code(0, 0, 0, INT64_MIN, INT64_MAX), 7);
    NO_CODE(jgv_point_code(4, 0, 0, 0, 0), 5);
    NO_CODE(jgv_point_code(WIDE, 0, 0, 0, 0), 5);
    NO_CODE(jgv_point_code(0, WIDE, 0, 0, 0), 5);
    NO_CODE(jgv_point_code(0, 0, 16, 0, 0), 2);
    NO_CODE(jgv_point_code(0, 0, WIDE, 0, 0), 2);
    NO_CODE(jgv_point_code(0, 4, 16, -1, 0), 5); /* the order is 5, 2, 7 */
    NO_CODE(jgv_point_code(0, 0, 16, -1, 0), 2);
}

/* Lines 1 to 8 of the proved table; then other arrangements, and positions a hair from an edge. */
static void fix_code(void) {
    CODE(jgv_fix_code(0, 0, 2, 0, 0), code("Q33"));
    CODE(jgv_fix_code(0, 0, 1, 0, ONE), code("N4"));
    CODE(jgv_fix_code(0, 0, 1, -1350000000, 666666666666666666), code("O1"));
    CODE(jgv_fix_code(0, 0, 1, -1350000000, 666666666666666667), code("N7"));
    CODE(jgv_fix_code(0, 0, 1, -900000000, 880000000000000000), code("N8"));
    CODE(jgv_fix_code(1, 0, 1, -900000000, 880000000000000000), code_at(1, 0, "N6"));
    CODE(jgv_fix_code(0, 0, 1, -900000000, -880000000000000000), code("S2"));
    CODE(jgv_fix_code(0, 0, 2, -1350000000, 970000000000000000), code("N47"));
    CODE(jgv_fix_code(2, 0, 1, -900000000, 880000000000000000), code_at(2, 0, "N0"));
    CODE(jgv_fix_code(0, 1, 1, -900000000, -880000000000000000), code_at(0, 1, "S0"));
    CODE(jgv_fix_code(0, 3, 1, -900000000, -880000000000000000), code_at(0, 3, "S8"));
    CODE(jgv_fix_code(1, 3, 2, 0, 0), code_at(1, 3, "Q33"));
    CODE(jgv_fix_code(0, 0, 1, -1350000000, 962962962962962962), code("N7"));
    CODE(jgv_fix_code(0, 0, 1, -1350000000, 962962962962962963), code("N4"));
    CODE(jgv_fix_code(0, 0, 1, -1350000000, -962962962962962962), code("S1"));
    CODE(jgv_fix_code(0, 0, 1, -1350000000, -962962962962962963), code("S4"));
    CODE(jgv_fix_code(0, 0, 1, -1800000000, 0), code("O3"));
    CODE(jgv_fix_code(0, 0, 1, 1800000000, 0), code("O3")); /* the same meridian */
    CODE(jgv_fix_code(0, 0, 1, 1799999999, 0), code("R5"));
    CODE(jgv_fix_code(0, 0, 1, 1800000000, 880000000000000000), code("N6"));
    CODE(jgv_fix_code(0, 0, 1, 1800000000, -880000000000000000), code("S0"));
}

static void no_fix_code(void) {
    NO_CODE(jgv_fix_code(0, 0, 0, 1800000001, 0), 6);
    NO_CODE(jgv_fix_code(0, 0, 0, -1800000001, 0), 6);
    NO_CODE(jgv_fix_code(0, 0, 0, 0, ONE + 1), 6);
    NO_CODE(jgv_fix_code(0, 0, 0, 0, -ONE - 1), 6);
    NO_CODE(jgv_fix_code(0, 0, 0, INT64_C(1) << 32, 0), 6);
    NO_CODE(jgv_fix_code(0, 0, 0, INT64_MIN, INT64_MIN), 6);
    NO_CODE(jgv_fix_code(4, 0, 0, 0, 0), 5);
    NO_CODE(jgv_fix_code(WIDE, 0, 0, 0, 0), 5);
    NO_CODE(jgv_fix_code(0, WIDE, 0, 0, 0), 5);
    NO_CODE(jgv_fix_code(0, 0, 16, 0, 0), 2);
    NO_CODE(jgv_fix_code(0, 0, WIDE, 0, 0), 2);
    NO_CODE(jgv_fix_code(0, 4, 16, INT64_MAX, 0), 5); /* the order is 5, 2, 6 */
    NO_CODE(jgv_fix_code(0, 0, 16, INT64_MAX, 0), 2);
}

#define SINE(call, want_refusal, want) CHECK_ONE(jgv_z, z, call, want_refusal, want)
#define WGS84 UINT64_C(6694379990)
#define MOST UINT64_C(10000000000)

/* Each sine's exact quotient, by fractions of whole numbers, is less than 1/6 from the whole number given, so no other is within 5/6. */
static void geodetic_z(void) {
    SINE(jgv_geodetic_z(0, WGS84), 0, 0);
    SINE(jgv_geodetic_z(ONE, WGS84), 0, ONE);
    SINE(jgv_geodetic_z(-ONE, WGS84), 0, -ONE);
    SINE(jgv_geodetic_z(ONE, MOST), 0, ONE);
    SINE(jgv_geodetic_z(1, WGS84), 0, 1);
    SINE(jgv_geodetic_z(-999999, WGS84), 0, -995529);
    SINE(jgv_geodetic_z(100000000000000000, WGS84), 0, 99557452082510289);
    SINE(jgv_geodetic_z(-300000000000000000, WGS84), 0, -298779051836825872);
    SINE(jgv_geodetic_z(700000000000000000, WGS84), 0, 698399514111175776);
    SINE(jgv_geodetic_z(900000000000000000, WGS84), 0, 899231894228880077);
    SINE(jgv_geodetic_z(999999999999999999, WGS84), 0, 999999999999999999);
    SINE(jgv_geodetic_z(-707106781186547525, MOST), 0, -704733546829349858);
    SINE(jgv_geodetic_z(500300000000000000, MOST), 0, 497787978315287470);
    SINE(jgv_geodetic_z(500000000000000000, 1), 0, 499999999999750000);
    SINE(jgv_geodetic_z(707106781186547525, 0), 0, 707106781186547525); /* a sphere */
    SINE(jgv_geodetic_z(ONE + 1, WGS84), 6, 0);
    SINE(jgv_geodetic_z(-ONE - 1, WGS84), 6, 0);
    SINE(jgv_geodetic_z(INT64_MIN, 0), 6, 0);
    SINE(jgv_geodetic_z(ONE, MOST + 1), 6, 0);
    SINE(jgv_geodetic_z(ONE, WGS84 + WIDE), 6, 0);
    SINE(jgv_geodetic_z(0, UINT64_MAX), 6, 0);
}

/* 0.668 lies past the belt's border; its authalic sine on WGS84 is 0.66634.., before it. */
static void geodetic_code(void) {
    CODE(jgv_geodetic_code(0, 0, 1, -1350000000, 668000000000000000, WGS84), code("O1"));
    CODE(jgv_geodetic_code(0, 0, 1, -1350000000, 668000000000000000, 0), code("N7"));
    CODE(jgv_geodetic_code(0, 0, 1, -1350000000, -668000000000000000, WGS84), code("O7"));
    CODE(jgv_geodetic_code(0, 0, 1, -1350000000, -668000000000000000, 0), code("S1"));
    CODE(jgv_geodetic_code(2, 3, 15, 1800000000, ONE, WGS84), code_at(2, 3, "N444444444444444"));
    CODE(jgv_geodetic_code(1, 3, 2, 0, 0, MOST), code_at(1, 3, "Q33"));
    NO_CODE(jgv_geodetic_code(0, 0, 0, 1800000001, 0, WGS84), 6);
    NO_CODE(jgv_geodetic_code(0, 0, 0, 0, ONE + 1, WGS84), 6);
    NO_CODE(jgv_geodetic_code(0, 0, 0, 0, -ONE - 1, WGS84), 6);
    NO_CODE(jgv_geodetic_code(0, 0, 0, 0, 0, MOST + 1), 6);
    NO_CODE(jgv_geodetic_code(0, 0, 0, INT64_MIN, INT64_MIN, UINT64_MAX), 6);
    NO_CODE(jgv_geodetic_code(4, 0, 16, 0, 0, MOST + 1), 5); /* the order is 5, 2, 6 */
    NO_CODE(jgv_geodetic_code(0, WIDE, 0, 0, 0, 0), 5);
    NO_CODE(jgv_geodetic_code(0, 0, 16, 0, ONE + 1, 0), 2);
    NO_CODE(jgv_geodetic_code(0, 0, WIDE, 0, 0, MOST + 1), 2);
}

#define GROUND(call, want_refusal, want_longitude, want_z)   \
    do {                                                     \
        jgv_fix got = (call);                                \
        CHECK(got.refusal, want_refusal, #call ": refusal"); \
        CHECK(got.longitude, want_longitude, #call ": longitude"); \
        CHECK(got.z, want_z, #call ": z");                   \
    } while (0)

/* In the belt z is (2m - 4i - 2)/(3m); the middles of the outer cells of a cap at resolution 1 have h = 2/3, z = 23/27. All floored. */
static void ground_nucleus(void) {
    GROUND(jgv_ground_nucleus(code("Q")), 0, 450000000, 0);
    GROUND(jgv_ground_nucleus(code("P0")), 0, -750000000, 444444444444444444);
    GROUND(jgv_ground_nucleus(code("P6")), 0, -750000000, -444444444444444445);
    GROUND(jgv_ground_nucleus(code("O000")), 0, -1783333334, 641975308641975308);
    GROUND(jgv_ground_nucleus(code("N")), 0, -1800000000, ONE);
    GROUND(jgv_ground_nucleus(code_at(2, 1, "N4")), 0, -1800000000, ONE);
    GROUND(jgv_ground_nucleus(code_at(1, 2, "S44")), 0, -1800000000, -ONE);
    GROUND(jgv_ground_nucleus(code("N7")), 0, -1350000000, 851851851851851851);
    GROUND(jgv_ground_nucleus(code("S1")), 0, -1350000000, -851851851851851852);
    GROUND(jgv_ground_nucleus(code("N8")), 0, -900000000, 851851851851851851); /* on the seam of O and P: the edge of P */
    GROUND(jgv_ground_nucleus(code_at(1, 0, "N8")), 0, 0, 851851851851851851);
    GROUND(jgv_ground_nucleus(code("S2")), 0, -900000000, -851851851851851852);
    GROUND(jgv_ground_nucleus(no_code), 4, 0, 0);
    GROUND(jgv_ground_nucleus(code("O") + WIDE), 4, 0, 0);
}

static void about(uint64_t n, uint64_t s, const char *name, const char *const *names) {
    for (uint64_t direction = 0; direction < 4; direction++)
        CODE(jgv_neighbour(code_at(n, s, name), direction), code_at(n, s, names[direction]));
}

static void neighbour(void) {
    static const char *const p0[] = {"N8", "P1", "P3", "O2"}; /* line 9 of the proved table */
    static const char *const p0_turned[] = {"N6", "P1", "P3", "O2"};
    static const char *const p6[] = {"P3", "P7", "S2", "O8"};
    static const char *const n0[] = {"Q2", "N1", "N3", "R0"};
    static const char *const s8[] = {"S5", "P8", "Q6", "S7"};
    static const char *const r5[] = {"R2", "O3", "R8", "R4"};
    about(0, 0, "P0", p0);
    about(1, 0, "P0", p0_turned);
    about(0, 0, "P6", p6);
    about(0, 0, "N0", n0);
    about(0, 0, "S8", s8);
    about(3, 2, "R5", r5);
    NO_CODE(jgv_neighbour(code("P0"), 4), 3);
    NO_CODE(jgv_neighbour(code("P0"), WIDE), 3);
    NO_CODE(jgv_neighbour(no_code, 0), 4);
    NO_CODE(jgv_neighbour(code("P0") + WIDE, 0), 4);
    NO_CODE(jgv_neighbour(no_code, 4), 3); /* the order is 3, 4 */
}

/* Coverage texts. HEAD is the heading of version 1 and (0, 0). */
#define HEAD "CVR\0\1" "00"
#define HEAD_2 "CVR\0\2" "00" /* version 2, up to its letter */
#define TEXT(literal) (const uint8_t *)(literal), sizeof(literal) - 1
#define DEEP_14 "(0(0(0(0(0(0(0(0(0(0(0(0(0(0" /* fourteen lists, each within the one before */
enum { LONGEST = 65536, MANY = 40000, TOO_MANY = 50000 };
static uint8_t long_text[GUARD + LONGEST + 1 + GUARD];
static uint64_t many[TOO_MANY], listed[TOO_MANY];

/* Checks a copy of the text between guards; the copy has to stay as it is. */
static jgv_check checked(const uint8_t *text, size_t length) {
    memcpy(lend(), text, length);
    jgv_check got = jgv_coverage_check(lent + GUARD, length);
    CHECK(memcmp(lent + GUARD, text, length), 0, "jgv_coverage_check: the text afterwards");
    CHECK(strays(length), 0, "jgv_coverage_check: bytes about the text");
    return got;
}

#define VERSION_ANSWER(call, want_refusal, want_place, want_version, want_depth, want_n, want_s, want_cells, want_size) \
    do {                                                                                                               \
        jgv_check got = (call);                                                                                        \
        CHECK(got.refusal, want_refusal, #call ": refusal");                                                           \
        CHECK(got.place, want_place, #call ": place");                                                                 \
        CHECK(got.version, want_version, #call ": version");                                                           \
        CHECK(got.depth, want_depth, #call ": depth");                                                                 \
        CHECK(got.n, want_n, #call ": n");                                                                             \
        CHECK(got.s, want_s, #call ": s");                                                                             \
        CHECK(got.cells, want_cells, #call ": cells");                                                                 \
        CHECK(got.size, want_size, #call ": size");                                                                    \
    } while (0)
/* Of version 1, whose depth is 15; or refused. */
#define TEXT_ANSWER(call, want_refusal, want_place, want_n, want_s, want_cells, want_size) \
    VERSION_ANSWER(call, want_refusal, want_place, (want_refusal) ? 0 : 1, (want_refusal) ? 0 : 15, want_n, want_s, want_cells, want_size)

static void coverage_check(void) {
    TEXT_ANSWER(checked(TEXT(HEAD)), 0, 0, 0, 0, 0, 0);
    TEXT_ANSWER(checked(TEXT(HEAD "OP")), 0, 0, 0, 0, 2, 2 * NINE_15);
    TEXT_ANSWER(checked(TEXT(HEAD "P(34(1))")), 0, 0, 0, 0, 2, UINT64_C(25418658283290));
    TEXT_ANSWER(checked(TEXT("CVR\0\1" "32" "NOPQRS")), 0, 0, 3, 2, 6, 6 * NINE_15);
    TEXT_ANSWER(checked(TEXT("CVR\0\1" "13")), 0, 0, 1, 3, 0, 0);
    TEXT_ANSWER(checked(TEXT("CVR\0\1" "13" "NN")), 9, 8, 0, 0, 0, 0);
    TEXT_ANSWER(checked(TEXT(HEAD "O(012345678(0))")), 0, 0, 0, 0, 9, 8 * NINE_14 + NINE_13);
    TEXT_ANSWER(checked(TEXT(HEAD "N" DEEP_14 "(0" ")))))))))))))))")), 0, 0, 0, 0, 1, 1);
    TEXT_ANSWER(checked(TEXT(HEAD "O()")), 9, 9, 0, 0, 0, 0); /* line 10 of the proved table */
    TEXT_ANSWER(checked(TEXT(HEAD "O(012345678)")), 9, 18, 0, 0, 0, 0); /* line 11 */
    TEXT_ANSWER(checked(TEXT(HEAD "O(012345678")), 9, 18, 0, 0, 0, 0); /* cut: its whole length */
    TEXT_ANSWER(checked(TEXT(HEAD "N" DEEP_14 "(012345678")), 9, 45, 0, 0, 0, 0); /* at depth 15 the last 8 can't stand */
    TEXT_ANSWER(checked(TEXT(HEAD "N" DEEP_14 "(0(")), 9, 38, 0, 0, 0, 0);
    TEXT_ANSWER(checked(TEXT(HEAD "PO")), 9, 8, 0, 0, 0, 0);
    TEXT_ANSWER(checked(TEXT(HEAD "P(33)")), 9, 10, 0, 0, 0, 0);
    TEXT_ANSWER(checked(TEXT("")), 9, 0, 0, 0, 0, 0);
    TEXT_ANSWER(checked(TEXT("CVR\1")), 9, 3, 0, 0, 0, 0);
    TEXT_ANSWER(checked(TEXT("CVR\0")), 9, 4, 0, 0, 0, 0);
    TEXT_ANSWER(checked(TEXT("CVX\0\2")), 9, 2, 0, 0, 0, 0);
    TEXT_ANSWER(checked(TEXT("CVR\0\1" "40")), 9, 5, 0, 0, 0, 0);
    TEXT_ANSWER(checked(TEXT("CVR\0\1" "04")), 9, 6, 0, 0, 0, 0);
    TEXT_ANSWER(checked(TEXT("CVR\1\1")), 10, 0, 0, 0, 0, 0);
    TEXT_ANSWER(checked(TEXT("CVR\1\2" "00b")), 10, 0, 0, 0, 0, 0);
    TEXT_ANSWER(checked(TEXT("CVR\2\0")), 10, 0, 0, 0, 0, 0);
    TEXT_ANSWER(checked(TEXT("CVR\0\0")), 10, 0, 0, 0, 0, 0);
    TEXT_ANSWER(checked(TEXT("CVR\0\3" "00O()")), 10, 0, 0, 0, 0, 0);
    TEXT_ANSWER(jgv_coverage_check(NULL, 0), 9, 0, 0, 0, 0, 0);
    TEXT_ANSWER(jgv_coverage_check(long_text, LONGEST), 9, 0, 0, 0, 0, 0); /* zeros */
    TEXT_ANSWER(jgv_coverage_check(long_text, LONGEST + 1), 13, 0, 0, 0, 0, 0);
}

/* W-208: version 2 has one more heading byte, a letter a to p for the depth; N and S stand whole, and nothing lies deeper. */
static void handheld_check(void) {
    static const char letters[] = "abcdefghijklmnop";
    uint8_t text[] = {'C', 'V', 'R', 0, 2, '1', '3', 0, 'N'};
    for (unsigned letter = 0; letter < 256; letter++) {
        const char *at = letter ? strchr(letters, (int)letter) : NULL;
        text[7] = (uint8_t)letter;
        if (at)
            VERSION_ANSWER(checked(text, 9), 0, 0, 2, at - letters, 1, 3, 1, NINE_15);
        else
            VERSION_ANSWER(checked(text, 9), 9, 7, 0, 0, 0, 0, 0, 0);
    }
    VERSION_ANSWER(checked(TEXT(HEAD_2 "c")), 0, 0, 2, 2, 0, 0, 0, 0);
    VERSION_ANSWER(checked(TEXT(HEAD_2 "c" "P(34(1))")), 0, 0, 2, 2, 0, 0, 2, UINT64_C(25418658283290));
    VERSION_ANSWER(checked(TEXT(HEAD_2 "b" "P(34(1))")), 9, 12, 0, 0, 0, 0, 0, 0); /* one digit too deep */
    VERSION_ANSWER(checked(TEXT(HEAD_2 "a" "NOPQRS")), 0, 0, 2, 0, 0, 0, 6, 6 * NINE_15);
    VERSION_ANSWER(checked(TEXT(HEAD_2 "a" "O(1)")), 9, 9, 0, 0, 0, 0, 0, 0); /* depth 0 has whole faces only */
    VERSION_ANSWER(checked(TEXT(HEAD_2 "p" "N(1)")), 9, 9, 0, 0, 0, 0, 0, 0); /* a divided cap */
    VERSION_ANSWER(checked(TEXT(HEAD_2 "p" "NS(1)")), 9, 10, 0, 0, 0, 0, 0, 0);
    VERSION_ANSWER(checked(TEXT(HEAD_2 "p" "R" DEEP_14 "(0" ")))))))))))))))")), 0, 0, 2, 15, 0, 0, 1, 1);
    VERSION_ANSWER(checked(TEXT(HEAD_2 "o" "R" DEEP_14 "(0" ")))))))))))))))")), 9, 37, 0, 0, 0, 0, 0, 0);
    VERSION_ANSWER(checked(TEXT(HEAD_2 "b" "O(012345678")), 9, 18, 0, 0, 0, 0, 0, 0); /* at the depth the last 8 can't stand */
    VERSION_ANSWER(checked(TEXT(HEAD_2 "c" "O(012345678")), 9, 19, 0, 0, 0, 0, 0, 0); /* above it a list may follow */
    VERSION_ANSWER(checked(TEXT("CVR\0\2")), 9, 5, 0, 0, 0, 0, 0, 0);
    VERSION_ANSWER(checked(TEXT("CVR\0\2" "0")), 9, 6, 0, 0, 0, 0, 0, 0);
    VERSION_ANSWER(checked(TEXT("CVR\0\2" "04")), 9, 6, 0, 0, 0, 0, 0, 0);
    VERSION_ANSWER(checked(TEXT("CVR\0\2" "40c")), 9, 5, 0, 0, 0, 0, 0, 0);
    VERSION_ANSWER(checked(TEXT(HEAD_2)), 9, 7, 0, 0, 0, 0, 0, 0);
    VERSION_ANSWER(checked(TEXT(HEAD "a" "O")), 9, 7, 0, 0, 0, 0, 0, 0); /* version 1 has no letter */
}

/* Lists the text into lent codes and checks the answer, the codes, of the heading's arrangement, and their guards. */
static void lists(const uint8_t *text, size_t length, size_t room, const char *const *names, size_t count) {
    memcpy(lend(), text, length);
    jgv_list got = jgv_coverage_list(lent + GUARD, length, lend_codes(), room);
    CHECK(got.refusal, 0, "jgv_coverage_list: refusal");
    CHECK(got.place, 0, "jgv_coverage_list: place");
    CHECK(got.count, count, "jgv_coverage_list: count");
    const uint64_t n = (uint64_t)(text[5] - '0'), s = (uint64_t)(text[6] - '0');
    for (size_t i = 0; i < count; i++)
        CHECK(lent_codes[GUARD + i], code_at(n, s, names[i]), "jgv_coverage_list: a code");
    CHECK(code_strays(count), 0, "jgv_coverage_list: bytes about the codes");
    CHECK(memcmp(lent + GUARD, text, length), 0, "jgv_coverage_list: the text afterwards");
    CHECK(strays(length), 0, "jgv_coverage_list: bytes about the text");
}

static void lists_nothing(const uint8_t *text, size_t length, size_t room, uint64_t refusal, uint64_t place) {
    jgv_list got = jgv_coverage_list(text, length, lend_codes(), room);
    CHECK(got.refusal, refusal, "jgv_coverage_list: refusal");
    CHECK(got.place, place, "jgv_coverage_list: place");
    CHECK(got.count, 0, "jgv_coverage_list: count");
    CHECK(code_strays(0), 0, "jgv_coverage_list: lent codes");
}

static void coverage_list(void) {
    static const char *const two[] = {"P3", "P41"}, *const faces[] = {"O", "P"}, *const finest[] = {"N000000000000000"};
    lists(TEXT(HEAD "P(34(1))"), 2, two, 2);
    lists(TEXT(HEAD "P(34(1))"), ROOM, two, 2);
    lists(TEXT("CVR\0\1" "32" "OP"), ROOM, faces, 2);
    lists(TEXT(HEAD "N" DEEP_14 "(0" ")))))))))))))))"), 1, finest, 1);
    lists(TEXT(HEAD), 0, two, 0);
    lists(TEXT("CVR\0\2" "21c" "P(34(1))"), 2, two, 2);
    lists(TEXT("CVR\0\2" "33a" "OP"), ROOM, faces, 2);
    lists(TEXT(HEAD_2 "p"), 0, two, 0);
    lists_nothing(TEXT(HEAD_2 "c" "P(34(1))"), 1, 8, 0);
    lists_nothing(TEXT(HEAD_2 "b" "P(34(1))"), ROOM, 9, 12);
    lists_nothing(TEXT(HEAD_2 "p" "N(8)"), ROOM, 9, 9);
    lists_nothing(TEXT(HEAD_2 "P(34(1))"), ROOM, 9, 7);
    lists_nothing(TEXT(HEAD "P(34(1))"), 1, 8, 0);
    lists_nothing(TEXT(HEAD "P(34(1))"), 0, 8, 0);
    lists_nothing(TEXT(HEAD "O()"), ROOM, 9, 9);
    lists_nothing(TEXT(HEAD "O(012345678)"), 0, 9, 18); /* the order is 13, 10, 9, 8 */
    lists_nothing(TEXT("CVR\0\3" "00P(34(1))"), 0, 10, 0);
    lists_nothing(TEXT("CVR\0\3" "00P(34(1))"), ROOM, 10, 0);
    lists_nothing(long_text, LONGEST + 1, 0, 13, 0);
    lists_nothing(long_text, LONGEST + 1, ROOM, 13, 0);
    jgv_list got = jgv_coverage_list(TEXT(HEAD), NULL, 0);
    CHECK(got.refusal, 0, "jgv_coverage_list to no memory: refusal");
    CHECK(got.count, 0, "jgv_coverage_list to no memory: count");
    got = jgv_coverage_list(NULL, 0, lend_codes(), ROOM);
    CHECK(got.refusal, 9, "jgv_coverage_list of no memory: refusal");
    CHECK(got.place, 0, "jgv_coverage_list of no memory: place");
}

/* Fills the lent codes with those of the names and writes their text to the lent bytes; the codes have to stay as they are. A name is in
 * the arrangement that is asked, unless two digits stand before it. */
static jgv_length writing(uint64_t version, uint64_t depth, uint64_t n, uint64_t s, const char *const *names, size_t count, size_t room) {
    lend_codes();
    for (size_t i = 0; i < count; i++) {
        const char *name = names[i];
        uint64_t of = no_code;
        if (name[0] < 'N')
            of = code_at((uint64_t)(name[0] - '0'), (uint64_t)(name[1] - '0'), name + 2);
        else if (strcmp(name, "none"))
            of = code_at(n & 3, s & 3, name);
        lent_codes[GUARD + i] = of;
    }
    static uint64_t before[GUARD + ROOM + GUARD];
    memcpy(before, lent_codes, sizeof before);
    jgv_length got = jgv_coverage_write(version, depth, n, s, lent_codes + GUARD, count, lend(), room);
    CHECK(memcmp(before, lent_codes, sizeof before), 0, "jgv_coverage_write: the codes afterwards");
    return got;
}

static void writes_as(uint64_t version, uint64_t depth, uint64_t n, uint64_t s, const char *const *names, size_t count, const uint8_t *text,
                      size_t length) {
    for (size_t spare = 0; spare <= 1; spare++) {
        jgv_length got = writing(version, depth, n, s, names, count, spare ? (size_t)ROOM : length);
        CHECK(got.refusal, 0, "jgv_coverage_write: refusal");
        CHECK(got.length, length, "jgv_coverage_write: length");
        CHECK(memcmp(lent + GUARD, text, length), 0, "jgv_coverage_write: the text");
        CHECK(strays(length), 0, "jgv_coverage_write: bytes about the text");
    }
}

/* Of version 1: every depth to 15 writes the same. */
static void writes(uint64_t n, uint64_t s, const char *const *names, size_t count, const uint8_t *text, size_t length) {
    for (uint64_t depth = 0; depth <= 15; depth++)
        writes_as(1, depth, n, s, names, count, text, length);
}

static void refuses(uint64_t version, uint64_t depth, uint64_t n, uint64_t s, const char *const *names, size_t count, size_t room,
                    uint64_t refusal) {
    jgv_length got = writing(version, depth, n, s, names, count, room);
    CHECK(got.refusal, refusal, "jgv_coverage_write: refusal");
    CHECK(got.length, 0, "jgv_coverage_write: length");
    CHECK(strays(0), 0, "jgv_coverage_write: lent bytes");
}

static void writes_nothing(uint64_t n, uint64_t s, const char *const *names, size_t count, size_t room, uint64_t refusal) {
    refuses(1, 15, n, s, names, count, room, refusal);
}

/* W-208: texts of version 2, lists outside their profile, and what the writer is asked. */
static void handheld_write(void) {
    static const char *const two[] = {"P3", "P41"}, *const deeper[] = {"N4", "P41"}, *const falling[] = {"P41", "N4"}, *const bad[] = {"N4", "none"};
    static const char *const north[] = {"N0", "N1", "N2", "N3", "N4", "N5", "N6", "N7", "N8", "P3"};
    static const char *const mixed[] = {"N4", "01N3"};
    writes_as(2, 2, 0, 0, two, 2, TEXT(HEAD_2 "c" "P(34(1))"));
    writes_as(2, 15, 3, 2, two, 2, TEXT("CVR\0\2" "32p" "P(34(1))"));
    writes_as(2, 0, 1, 0, two, 0, TEXT("CVR\0\2" "10a"));
    refuses(2, 1, 0, 0, two, 2, ROOM, 15); /* one digit too deep */
    refuses(2, 0, 0, 0, two, 1, ROOM, 15);
    writes_as(2, 1, 0, 0, north, 10, TEXT(HEAD_2 "b" "NP(3)")); /* N0 to N8 pass as N */
    for (uint64_t depth = 0; depth <= 15; depth++) {
        uint8_t whole[] = {'C', 'V', 'R', 0, 2, '0', '0', (uint8_t)("abcdefghijklmnop"[depth]), 'N'};
        writes_as(2, depth, 0, 0, north, 9, whole, sizeof whole);
        refuses(2, depth, 0, 0, north + 1, 8, ROOM, 15); /* a divided cap */
        refuses(2, depth, 0, 0, north, 8, ROOM, 15);
        refuses(2, depth, 0, 0, deeper, 2, ROOM, 15);
    }
    /* the order is 5, 2, 4, 10, 14, 11, 15, 13, 8 */
    refuses(0, 16, 4, 0, bad, 2, 0, 5);
    refuses(0, 16, 0, 0, bad, 2, 0, 2);
    refuses(1, 16, 0, 0, deeper, 2, ROOM, 2);
    refuses(2, 16, 0, 0, deeper, 2, ROOM, 2);
    refuses(2, WIDE, 0, 0, deeper, 2, ROOM, 2);
    refuses(1, WIDE + 15, 0, 0, deeper, 2, ROOM, 2);
    refuses(0, 15, 0, 0, bad, 2, 0, 4);
    refuses(0, 15, 0, 0, mixed, 2, 0, 10);
    refuses(3, 0, 0, 0, deeper, 2, ROOM, 10);
    refuses(WIDE + 1, 15, 0, 0, two, 2, ROOM, 10);
    refuses(WIDE + 2, 15, 0, 0, two, 2, ROOM, 10);
    refuses(3, 15, 0, 0, two, 0, ROOM, 10);
    refuses(2, 0, 0, 0, mixed, 2, 0, 14);
    refuses(2, 0, 0, 0, falling, 2, 0, 11);
    refuses(2, 0, 0, 0, deeper, 2, 0, 15);
    refuses(2, 2, 0, 0, two, 2, 15, 8);
    refuses(2, 2, 0, 0, two, 0, 7, 8);
}

static void coverage_write(void) {
    static const char *const whole[] = {"O", "P0", "P1", "P2", "P3", "P4", "P5", "P6", "P7", "P8"};
    static const char *const two[] = {"P3", "P41"}, *const falling[] = {"P41", "P3"}, *const twice[] = {"P3", "P3"};
    static const char *const inside[] = {"P4", "P41"}, *const bad[] = {"P3", "none"}, *const bad_falling[] = {"P4", "P3", "none"};
    writes(0, 0, whole, 10, TEXT("\x43\x56\x52\x00\x01\x30\x30\x4F\x50"));
    writes(0, 0, two, 2, TEXT(HEAD "P(34(1))"));
    writes(3, 2, two, 2, TEXT("CVR\0\1" "32" "P(34(1))"));
    writes(0, 0, two, 0, TEXT(HEAD));
    writes_nothing(0, 0, two, 2, 14, 8);
    writes_nothing(0, 0, two, 2, 0, 8);
    writes_nothing(0, 0, two, 0, 6, 8);
    writes_nothing(0, 0, falling, 2, ROOM, 11);
    writes_nothing(0, 0, twice, 2, ROOM, 11);
    writes_nothing(0, 0, inside, 2, 0, 11); /* the order is 5, 2, 4, 10, 14, 11, 15, 13, 8; handheld_write tries 2, 10 and 15 */
    writes_nothing(0, 0, bad, 2, 0, 4);
    writes_nothing(0, 0, bad_falling, 3, ROOM, 4);
    writes_nothing(4, 0, bad, 2, ROOM, 5);
    writes_nothing(0, 4, two, 2, ROOM, 5);
    /* codes of two arrangements in one list, and a list of another arrangement than the asked one */
    static const char *const mixed[] = {"P3", "01P41"}, *const others[] = {"21P3", "21P41"};
    static const char *const mixed_falling[] = {"10P41", "P3", "P3"}, *const mixed_bad[] = {"10P41", "P3", "none"};
    writes_nothing(0, 0, mixed, 2, ROOM, 14);
    writes_nothing(0, 0, mixed, 2, 0, 14);
    writes_nothing(0, 0, others, 2, ROOM, 14);
    writes_nothing(1, 2, others, 2, ROOM, 14);
    writes(2, 1, others, 2, TEXT("CVR\0\1" "21" "P(34(1))"));
    writes_nothing(0, 0, mixed_falling, 3, ROOM, 14);
    writes_nothing(0, 0, mixed_bad, 3, ROOM, 4);
    writes_nothing(0, 4, mixed, 2, ROOM, 5);
    const uint64_t wide = code("O") + WIDE;
    CHECK_ONE(jgv_length, length, jgv_coverage_write(1, 15, WIDE, 0, &wide, 1, lend(), ROOM), 5, 0);
    CHECK_ONE(jgv_length, length, jgv_coverage_write(1, 15, 0, WIDE, &wide, 1, lend(), ROOM), 5, 0);
    CHECK_ONE(jgv_length, length, jgv_coverage_write(1, 15, 0, 0, &wide, 1, lend(), ROOM), 4, 0);
    CHECK_ONE(jgv_length, length, jgv_coverage_write(1, 15, 0, 0, NULL, 0, lend(), ROOM), 0, 7);
    CHECK_ONE(jgv_length, length, jgv_coverage_write(2, 3, 0, 0, NULL, 0, lend(), ROOM), 0, 8);
    CHECK_ONE(jgv_length, length, jgv_coverage_write(1, 15, 0, 0, &many[0], 1, NULL, 0), 8, 0);
}

#define ASK(call, want_refusal, want_place, want_covered, want_settled) \
    do {                                                                \
        jgv_ask got = (call);                                           \
        CHECK(got.refusal, want_refusal, #call ": refusal");            \
        CHECK(got.place, want_place, #call ": place");                  \
        CHECK(got.covered, want_covered, #call ": covered");            \
        CHECK(got.settled, want_settled, #call ": settled");            \
    } while (0)

static jgv_ask asked(const uint8_t *text, size_t length, uint64_t of) {
    memcpy(lend(), text, length);
    jgv_ask got = jgv_coverage_ask(lent + GUARD, length, of);
    CHECK(memcmp(lent + GUARD, text, length), 0, "jgv_coverage_ask: the text afterwards");
    CHECK(strays(length), 0, "jgv_coverage_ask: bytes about the text");
    return got;
}

static void coverage_ask(void) {
    ASK(asked(TEXT(HEAD "P(34(1))"), code("P3")), 0, 0, 1, 3);
    ASK(asked(TEXT(HEAD "P(34(1))"), code("P41")), 0, 0, 1, 4);
    ASK(asked(TEXT(HEAD "P(34(1))"), code("P418")), 0, 0, 1, 4);
    ASK(asked(TEXT(HEAD "P(34(1))"), code("P4")), 0, 0, 0, 4); /* covered in part */
    ASK(asked(TEXT(HEAD "P(34(1))"), code("P")), 0, 0, 0, 2);
    ASK(asked(TEXT(HEAD "P(34(1))"), code("P40")), 0, 0, 0, 4);
    ASK(asked(TEXT(HEAD), 0), 0, 0, 0, 0);
    ASK(asked(TEXT("CVR\0\1" "33" "NS"), GREATEST), 0, 0, 1, 2);
    ASK(asked(TEXT("CVR\0\1" "32" "P(34(1))"), code_at(3, 2, "P418")), 0, 0, 1, 4);
    ASK(asked(TEXT("CVR\0\1" "32" "P(34(1))"), code_at(3, 2, "P4")), 0, 0, 0, 4); /* the order is 4, 13, 10, 9, 14 */
    ASK(asked(TEXT(HEAD "O()"), no_code), 4, 0, 0, 0);
    ASK(asked(TEXT(HEAD "P"), code("P") + WIDE), 4, 0, 0, 0);
    ASK(jgv_coverage_ask(long_text, LONGEST + 1, no_code), 4, 0, 0, 0);
    ASK(jgv_coverage_ask(long_text, LONGEST + 1, code_at(1, 0, "P")), 13, 0, 0, 0);
    ASK(asked(TEXT("CVR\0\3" "00P"), code_at(1, 0, "P")), 10, 0, 0, 0);
    ASK(asked(TEXT("CVR\0\2" "00P"), code_at(1, 0, "P")), 9, 7, 0, 0); /* version 2 without its letter */
    ASK(asked(TEXT(HEAD_2 "c" "NP(34(1))"), code("P418")), 0, 0, 1, 5);
    ASK(asked(TEXT(HEAD_2 "c" "NP(34(1))"), code("N8")), 0, 0, 1, 2);
    ASK(asked(TEXT(HEAD_2 "c" "NP(34(1))"), code("P4")), 0, 0, 0, 5);
    ASK(asked(TEXT(HEAD_2 "b" "NP(34(1))"), code("P4")), 9, 13, 0, 0);
    ASK(asked(TEXT("CVR\0\2" "12p" "P"), code_at(2, 1, "P")), 14, 0, 0, 0); /* 14 compares n and s */
    ASK(asked(TEXT(HEAD "O()"), code_at(1, 0, "P")), 9, 9, 0, 0);
    ASK(asked(TEXT(HEAD "O(012345678)"), code("P")), 9, 18, 0, 0);
    ASK(asked(TEXT(HEAD "P"), code_at(1, 0, "P")), 14, 0, 0, 0);
    ASK(asked(TEXT(HEAD "P"), code_at(0, 1, "P")), 14, 0, 0, 0);
    ASK(asked(TEXT("CVR\0\1" "12" "P"), code_at(2, 1, "P")), 14, 0, 0, 0);
    for (uint64_t both = 0; both < 16; both++)
        ASK(asked(TEXT("CVR\0\1" "12" "P"), code_at(both / 4, both % 4, "P3")), both == 6 ? 0 : 14, 0, both == 6, both == 6);
    ASK(jgv_coverage_ask(NULL, 0, code("P")), 9, 0, 0, 0);
}

/* Lends the text in a room and adds a code; behind the text, or with a refusal everywhere, the bytes have to stay as they are. */
static void adds(const uint8_t *text, size_t length, uint64_t of, const uint8_t *then, size_t longer) {
    for (size_t spare = 0; spare <= 1; spare++) {
        memcpy(lend(), text, length);
        jgv_add got = jgv_coverage_add(lent + GUARD, spare ? (size_t)ROOM : (longer > length ? longer : length), length, of);
        CHECK(got.refusal, 0, "jgv_coverage_add: refusal");
        CHECK(got.place, 0, "jgv_coverage_add: place");
        CHECK(got.length, longer, "jgv_coverage_add: length");
        CHECK(memcmp(lent + GUARD, then, longer), 0, "jgv_coverage_add: the text");
        if (longer < length) /* what stood behind the new end stays */
            CHECK(memcmp(lent + GUARD + longer, text + longer, length - longer), 0, "jgv_coverage_add: bytes behind the text");
        CHECK(strays(longer > length ? longer : length), 0, "jgv_coverage_add: bytes about the text");
    }
}

static void adds_nothing(const uint8_t *text, size_t lends, size_t room, uint64_t length, uint64_t of, uint64_t refusal, uint64_t place) {
    memcpy(lend(), text, lends);
    jgv_add got = jgv_coverage_add(lent + GUARD, room, length, of);
    CHECK(got.refusal, refusal, "jgv_coverage_add: refusal");
    CHECK(got.place, place, "jgv_coverage_add: place");
    CHECK(got.length, 0, "jgv_coverage_add: length");
    CHECK(memcmp(lent + GUARD, text, lends), 0, "jgv_coverage_add: the text afterwards");
    CHECK(strays(lends), 0, "jgv_coverage_add: bytes about the text");
}

/* The same of a text with all its bytes lent, and no room behind it. */
static void adds_none(const uint8_t *text, size_t length, uint64_t of, uint64_t refusal, uint64_t place) {
    adds_nothing(text, length, length, length, of, refusal, place);
}

static void coverage_add(void) {
    adds(TEXT(HEAD), code("P3"), TEXT(HEAD "P(3)"));
    adds(TEXT(HEAD "P(3)"), code("P41"), TEXT(HEAD "P(34(1))"));
    adds(TEXT(HEAD "P(34(1))"), code("P40"), TEXT(HEAD "P(34(01))"));
    adds(TEXT(HEAD "P(34(1))"), code("P4"), TEXT(HEAD "P(34)")); /* a list gives way */
    adds(TEXT(HEAD "P(34(1))"), code("P3"), TEXT(HEAD "P(34(1))")); /* covered */
    adds(TEXT(HEAD "P(34(1))"), code("P"), TEXT(HEAD "P"));
    adds(TEXT(HEAD "P(01234567)"), code("P8"), TEXT(HEAD "P")); /* nine whole siblings are their parent */
    adds(TEXT(HEAD "P(01234(01235678)5678)R"), code("P44"), TEXT(HEAD "PR")); /* and so on upwards */
    adds(TEXT(HEAD "OPQRS"), code("N"), TEXT(HEAD "NOPQRS")); /* six faces do not merge */
    adds(TEXT("CVR\0\1" "33"), GREATEST, TEXT("CVR\0\1" "33S(8(8(8(8(8(8(8(8(8(8(8(8(8(8(8)))))))))))))))")); /* 46 bytes */
    adds(TEXT(HEAD_2 "b" "P(3)"), code("P4"), TEXT(HEAD_2 "b" "P(34)"));
    adds(TEXT(HEAD_2 "b" "P(3)"), code("P31"), TEXT(HEAD_2 "b" "P(3)")); /* too deep, but covered */
    adds(TEXT(HEAD_2 "b" "NP(3)"), code("N8"), TEXT(HEAD_2 "b" "NP(3)"));
    adds(TEXT(HEAD_2 "a" "P"), code("N"), TEXT(HEAD_2 "a" "NP"));
    /* the order is 4, 13, 8, 10, 9, 14, 15, 13, 8 */
    adds_none(TEXT(HEAD "O()"), no_code, 4, 0);
    adds_none(TEXT(HEAD "P"), code("P") + WIDE, 4, 0);
    adds_nothing(TEXT(HEAD "O()"), 10, LONGEST + 1, code_at(1, 0, "P"), 13, 0);
    adds_nothing(TEXT(HEAD "O()"), 10, UINT64_MAX, code_at(1, 0, "P"), 13, 0);
    adds_nothing(TEXT(HEAD "O()"), 10, WIDE + 10, code_at(1, 0, "P"), 13, 0);
    adds_nothing(TEXT(HEAD "O()"), 9, 10, code_at(1, 0, "P"), 8, 0); /* not all lent */
    adds_nothing(TEXT(HEAD "O()"), 0, LONGEST, code_at(1, 0, "P"), 8, 0);
    adds_none(TEXT("CVR\0\3" "00O()"), code_at(1, 0, "P"), 10, 0);
    adds_none(TEXT(HEAD "O()"), code_at(1, 0, "P"), 9, 9);
    adds_none(TEXT(HEAD_2 "a" "N(0)"), code_at(1, 0, "N1"), 9, 9);
    adds_nothing(TEXT(HEAD "P(34(1))"), ROOM, 14, code("P"), 9, 14); /* the last bracket is not of it */
    adds_none(TEXT(HEAD_2 "a" "P"), code_at(1, 0, "N1"), 14, 0);
    adds_none(TEXT(HEAD_2 "a" "P"), code("N1"), 15, 0);
    adds_none(TEXT(HEAD_2 "p" "P"), code("S8"), 15, 0);
    adds_none(TEXT(HEAD_2 "b" "P(3)"), code("P41"), 15, 0);
    adds_none(TEXT(HEAD "P(3)"), code("P41"), 8, 0); /* four bytes short */
    adds_nothing(TEXT(HEAD "P(3)"), 14, 11, code("P41"), 8, 0); /* one byte short */
    adds_nothing(TEXT(HEAD "P(3)"), 0, 0, code("P41"), 9, 0);
    jgv_add none = jgv_coverage_add(NULL, 0, 0, code("P"));
    CHECK(none.refusal, 9, "jgv_coverage_add of no memory: refusal");
}

/* Three rooms in the lent codes, the second behind the first and the third behind that. */
enum { ROOM_OF_THREE = ROOM / 4 };

static jgv_compare compared(const uint8_t *first, size_t first_length, const uint8_t *second, size_t second_length, size_t a, size_t b, size_t c) {
    uint64_t *rooms = lend_codes();
    return jgv_coverage_compare(first, first_length, second, second_length, rooms, a, rooms + ROOM_OF_THREE, b, rooms + 2 * ROOM_OF_THREE, c);
}

/* How many lent bytes have changed that are none of these many codes at the front of each room. */
static size_t room_strays(size_t a, size_t b, size_t c) {
    const uint64_t *rooms = lent_codes + GUARD, *second = rooms + ROOM_OF_THREE, *third = second + ROOM_OF_THREE;
    return changes(lent_codes, rooms) + changes(rooms + a, second) + changes(second + b, third) + changes(third + c, rooms + ROOM + GUARD);
}

static void compares_nothing(const uint8_t *first, size_t first_length, const uint8_t *second, size_t second_length, size_t a, size_t b, size_t c,
                             uint64_t refusal, uint64_t place) {
    jgv_compare got = compared(first, first_length, second, second_length, a, b, c);
    CHECK(got.refusal, refusal, "jgv_coverage_compare refused: refusal");
    CHECK(got.place, place, "jgv_coverage_compare refused: place");
    CHECK(got.first_cells | got.second_cells | got.both_cells, 0, "jgv_coverage_compare refused: numbers of cells");
    CHECK(got.first_size | got.second_size | got.both_size, 0, "jgv_coverage_compare refused: sizes");
    CHECK(room_strays(0, 0, 0), 0, "jgv_coverage_compare refused: lent codes");
}

/* These cells of an arrangement stand in a room, and no more were counted. */
static void has_listed(uint64_t n, uint64_t s, const uint64_t *codes, uint64_t count, const char *const *names, size_t wanted) {
    CHECK(count, wanted, "jgv_coverage_compare: number of cells");
    for (size_t i = 0; i < wanted; i++)
        CHECK(codes[i], code_at(n, s, names[i]), names[i]);
}

static void coverage_compare(void) {
    static const char *const first[] = {"O0", "O3", "O4", "O5", "O6", "O7", "O8", "P3"};
    static const char *const second[] = {"P40", "P42", "P43", "P44", "P45", "P46", "P47", "P48"};
    static const char *const both[] = {"O1", "O2", "P41"};
    const uint64_t *rooms = lent_codes + GUARD;
    /* a text of version 1 and one of version 2, in rooms that are just enough */
    jgv_compare got = compared(TEXT("CVR\0\1" "21" "OP(34(1))"), TEXT("CVR\0\2" "21b" "O(12)P(4)"), 8, 8, 3);
    CHECK(got.refusal, 0, "jgv_coverage_compare: refusal");
    CHECK(got.place, 0, "jgv_coverage_compare: place");
    has_listed(2, 1, rooms, got.first_cells, first, 8);
    has_listed(2, 1, rooms + ROOM_OF_THREE, got.second_cells, second, 8);
    has_listed(2, 1, rooms + 2 * ROOM_OF_THREE, got.both_cells, both, 3);
    CHECK(room_strays(8, 8, 3), 0, "jgv_coverage_compare: codes about the listings");
    CHECK(got.first_size, NINE_15 - NINE_14, "jgv_coverage_compare: first size");
    CHECK(got.second_size, NINE_14 - NINE_13, "jgv_coverage_compare: second size");
    CHECK(got.both_size, 2 * NINE_14 + NINE_13, "jgv_coverage_compare: both size");

    got = compared(TEXT(HEAD "P"), TEXT(HEAD "P"), 0, 0, 1);
    CHECK(got.refusal, 0, "jgv_coverage_compare of one text twice: refusal");
    CHECK(got.both_cells, 1, "jgv_coverage_compare of one text twice: cells");
    CHECK(got.both_size, NINE_15, "jgv_coverage_compare of one text twice: size");
    CHECK(got.first_cells | got.second_cells | got.first_size | got.second_size, 0, "jgv_coverage_compare of one text twice: the others");

    /* 8 where any room is short; the order is 13, 10, 9 of the first, 13, 10, 9 of the second, 14, 8 */
    compares_nothing(TEXT(HEAD "OP(34(1))"), TEXT(HEAD "O(12)P(4)"), 7, 8, 3, 8, 0);
    compares_nothing(TEXT(HEAD "OP(34(1))"), TEXT(HEAD "O(12)P(4)"), 8, 7, 3, 8, 0);
    compares_nothing(TEXT(HEAD "OP(34(1))"), TEXT(HEAD "O(12)P(4)"), 8, 8, 2, 8, 0);
    compares_nothing(TEXT(HEAD "O"), TEXT("CVR\0\1" "10" "P"), 0, 0, 0, 14, 0);
    compares_nothing(TEXT(HEAD "O"), TEXT("CVR\0\1" "01" "P"), 16, 16, 16, 14, 0);
    compares_nothing(TEXT(HEAD "O"), TEXT("CVR\0\2" "10a" "P"), 16, 16, 16, 14, 0);
    compares_nothing(TEXT(HEAD "O"), TEXT("CVR\0\1" "10" "P()"), 16, 16, 16, 9, 9);
    compares_nothing(TEXT(HEAD "O"), TEXT("CVR\0\3" "10P"), 16, 16, 16, 10, 0);
    compares_nothing(TEXT(HEAD "O"), long_text, LONGEST + 1, 16, 16, 16, 13, 0);
    compares_nothing(TEXT(HEAD "O("), TEXT("CVR\0\3" "10P"), 16, 16, 16, 9, 9);
    compares_nothing(TEXT(HEAD "O("), long_text, LONGEST + 1, 16, 16, 16, 9, 9);
    compares_nothing(TEXT("CVR\0\3" "10P"), TEXT(HEAD "O()"), 16, 16, 16, 10, 0);
    compares_nothing(long_text, LONGEST + 1, TEXT(HEAD "O()"), 16, 16, 16, 13, 0);
    compares_nothing(NULL, 0, TEXT(HEAD), 16, 16, 16, 9, 0);
    compares_nothing(TEXT(HEAD), NULL, 0, 16, 16, 16, 9, 0);
    got = jgv_coverage_compare(TEXT(HEAD), TEXT(HEAD_2 "p"), NULL, 0, NULL, 0, NULL, 0);
    CHECK(got.refusal, 0, "jgv_coverage_compare to no memory: refusal");
    CHECK(got.first_cells | got.second_cells | got.both_cells, 0, "jgv_coverage_compare to no memory: cells");
}

#define SHEET(call, want_refusal, want_place, want_right, want_record) \
    do {                                                     \
        jgv_sheet got = (call);                              \
        CHECK(got.refusal, want_refusal, #call ": refusal"); \
        CHECK(got.place, want_place, #call ": place");       \
        CHECK(got.right, want_right, #call ": right");       \
        CHECK(got.record, want_record, #call ": record");    \
    } while (0)

/* 01: the neighbours up, right, down and left of P3, of P41, and of P0 at n = 0 and n = 1. */
static const char *const two_records[] = {"P3", "P0", "P4", "P6", "O5", "P41", "P17", "P42", "P44", "P40"};
static const char *const corner_record[] = {"P0", "N8", "P1", "P3", "O2"}, *const turned_record[] = {"P0", "N6", "P1", "P3", "O2"};

/* 02: "five 64-bit numbers, low byte first". */
static size_t put_sheet(uint8_t *sheet, uint64_t n, uint64_t s, const char *const *names, size_t count) {
    for (size_t i = 0; i < 8 * count; i++)
        sheet[i] = (uint8_t)(code_at(n, s, names[i / 8]) >> i % 8 * 8);
    return 8 * count;
}

static void sheet_check(void) {
    uint8_t sheet[121], spoilt[121];
    size_t length = put_sheet(sheet, 0, 0, two_records, 10);
    SHEET(jgv_sheet_check(TEXT(HEAD "P(34(1))"), sheet, length), 0, 0, 1, 0);
    SHEET(jgv_sheet_check(TEXT(HEAD_2 "c" "P(34(1))"), sheet, length), 0, 0, 1, 0);
    for (size_t i = 0; i < length; i++) { /* one bit of any byte wrong */
        memcpy(spoilt, sheet, length);
        spoilt[i] ^= (uint8_t)(1 << i % 8);
        SHEET(jgv_sheet_check(TEXT(HEAD "P(34(1))"), spoilt, length), 0, 0, 0, i / 40);
    }
    for (size_t cut = 0; cut < length; cut++) /* a record missing, or broken off */
        SHEET(jgv_sheet_check(TEXT(HEAD "P(34(1))"), sheet, cut), 0, 0, 0, cut / 40);
    memset(sheet + length, 0, sizeof sheet - length);
    for (size_t more = 1; more <= 41; more++) /* one too many */
        SHEET(jgv_sheet_check(TEXT(HEAD "P(34(1))"), sheet, length + more), 0, 0, 0, 2);
    memcpy(spoilt, sheet + 40, 40); /* not rising */
    memcpy(spoilt + 40, sheet, 40);
    SHEET(jgv_sheet_check(TEXT(HEAD "P(34(1))"), spoilt, length), 0, 0, 0, 0);
    memcpy(spoilt, sheet, 40); /* twice */
    SHEET(jgv_sheet_check(TEXT(HEAD "P(34(1))"), spoilt, length), 0, 0, 0, 1);
    SHEET(jgv_sheet_check(TEXT("CVR\0\1" "01" "P(34(1))"), sheet, length), 0, 0, 0, 0); /* of another arrangement */
    put_sheet(sheet, 0, 1, two_records, 10);
    SHEET(jgv_sheet_check(TEXT("CVR\0\1" "01" "P(34(1))"), sheet, length), 0, 0, 1, 0);
    length = put_sheet(sheet, 1, 0, corner_record, 5); /* the cap's turn counts */
    SHEET(jgv_sheet_check(TEXT("CVR\0\1" "10" "P(0)"), sheet, length), 0, 0, 0, 0);
    put_sheet(sheet, 1, 0, turned_record, 5);
    SHEET(jgv_sheet_check(TEXT("CVR\0\1" "10" "P(0)"), sheet, length), 0, 0, 1, 0);
    SHEET(jgv_sheet_check(TEXT(HEAD), NULL, 0), 0, 0, 1, 0);
    SHEET(jgv_sheet_check(TEXT(HEAD), sheet, 1), 0, 0, 0, 0);
    SHEET(jgv_sheet_check(TEXT(HEAD "P"), NULL, 0), 0, 0, 0, 0);
    /* the text's refusals, whatever the sheet: the order is 13, 10, 9 */
    SHEET(jgv_sheet_check(TEXT(HEAD "O()"), sheet, length), 9, 9, 0, 0);
    SHEET(jgv_sheet_check(TEXT(HEAD "O(012345678)"), NULL, 0), 9, 18, 0, 0);
    SHEET(jgv_sheet_check(TEXT("CVR\0\3" "00P"), sheet, length), 10, 0, 0, 0);
    SHEET(jgv_sheet_check(long_text, LONGEST + 1, sheet, length), 13, 0, 0, 0);
    SHEET(jgv_sheet_check(NULL, 0, sheet, length), 9, 0, 0, 0);
}

static void writes_sheet(const uint8_t *text, size_t length, size_t room, uint64_t n, uint64_t s, const char *const *names, size_t count) {
    uint8_t want[80];
    size_t bytes = put_sheet(want, n, s, names, count);
    uint64_t *codes = lend_codes();
    jgv_sheet_length got = jgv_sheet_write(text, length, (uint8_t *)codes, room);
    CHECK(got.refusal, 0, "jgv_sheet_write: refusal");
    CHECK(got.place, 0, "jgv_sheet_write: place");
    CHECK(got.length, bytes, "jgv_sheet_write: length");
    CHECK(memcmp(codes, want, bytes), 0, "jgv_sheet_write: bytes");
    CHECK(code_strays(count), 0, "jgv_sheet_write: bytes about the sheet");
}

static void writes_no_sheet(const uint8_t *text, size_t length, size_t room, uint64_t refusal, uint64_t place) {
    jgv_sheet_length got = jgv_sheet_write(text, length, (uint8_t *)lend_codes(), room);
    CHECK(got.refusal, refusal, "jgv_sheet_write refused: refusal");
    CHECK(got.place, place, "jgv_sheet_write refused: place");
    CHECK(got.length, 0, "jgv_sheet_write refused: length");
    CHECK(code_strays(0), 0, "jgv_sheet_write refused: lent bytes");
}

static void sheet_write(void) {
    writes_sheet(TEXT(HEAD "P(34(1))"), 80, 0, 0, two_records, 10);
    writes_sheet(TEXT(HEAD "P(34(1))"), 8 * ROOM, 0, 0, two_records, 10);
    writes_sheet(TEXT("CVR\0\2" "23c" "P(34(1))"), 119, 2, 3, two_records, 10);
    writes_sheet(TEXT("CVR\0\1" "00" "P(0)"), 40, 0, 0, corner_record, 5);
    writes_sheet(TEXT("CVR\0\1" "10" "P(0)"), 40, 1, 0, turned_record, 5);
    writes_sheet(TEXT(HEAD), 0, 0, 0, two_records, 0);
    writes_no_sheet(TEXT(HEAD "P(34(1))"), 79, 8, 0);
    writes_no_sheet(TEXT(HEAD "P(34(1))"), 40, 8, 0);
    writes_no_sheet(TEXT(HEAD "P(34(1))"), 0, 8, 0);
    writes_no_sheet(TEXT(HEAD "O()"), 0, 9, 9); /* the order is 13, 10, 9, 8 */
    writes_no_sheet(TEXT(HEAD "O(012345678)"), 8 * ROOM, 9, 18);
    writes_no_sheet(TEXT("CVR\0\3" "00P"), 0, 10, 0);
    writes_no_sheet(long_text, LONGEST + 1, 0, 13, 0);
    jgv_sheet_length got = jgv_sheet_write(TEXT(HEAD), NULL, 0);
    CHECK(got.refusal, 0, "jgv_sheet_write to no memory: refusal");
    CHECK(got.length, 0, "jgv_sheet_write to no memory: length");
}

static uint8_t proper_heading[7];

static void rescues(const uint8_t *text, size_t length, size_t room, const char *body, const uint64_t *want, size_t numbers) {
    uint8_t proper[64];
    uint64_t *changed = lend_codes();
    memset(proper, FILL, sizeof proper);
    jgv_rescue got = jgv_coverage_rescue(text, length, proper + GUARD, room, changed, numbers);
    CHECK(got.refusal, 0, "jgv_coverage_rescue: refusal");
    CHECK(got.place, 0, "jgv_coverage_rescue: place");
    CHECK(got.length, 7 + strlen(body), "jgv_coverage_rescue: length");
    CHECK(got.changes, numbers / 2, "jgv_coverage_rescue: number of changes");
    CHECK(memcmp(proper + GUARD, text, 7), 0, "jgv_coverage_rescue: heading");
    CHECK(memcmp(proper + GUARD + 7, body, strlen(body)), 0, "jgv_coverage_rescue: body");
    CHECK(memcmp(changed, want, numbers * sizeof *want), 0, "jgv_coverage_rescue: changes");
    CHECK(code_strays(numbers), 0, "jgv_coverage_rescue: numbers about the changes");
    CHECK(changes(proper, proper + GUARD) + changes(proper + GUARD + got.length, proper + sizeof proper), 0, "jgv_coverage_rescue: bytes about the text");
}

static void rescues_not(const uint8_t *text, size_t length, size_t room, size_t numbers, uint64_t refusal, uint64_t place) {
    uint8_t proper[64];
    memset(proper, FILL, sizeof proper);
    jgv_rescue got = jgv_coverage_rescue(text, length, proper, room, lend_codes(), numbers);
    CHECK(got.refusal, refusal, "jgv_coverage_rescue refused: refusal");
    CHECK(got.place, place, "jgv_coverage_rescue refused: place");
    CHECK(got.length | got.changes, 0, "jgv_coverage_rescue refused: numbers");
    CHECK(code_strays(0), 0, "jgv_coverage_rescue refused: lent numbers");
    CHECK(changes(proper, proper + sizeof proper), 0, "jgv_coverage_rescue refused: lent bytes");
}

static void coverage_rescue(void) {
    static const uint64_t none[] = {0}, turned[] = {8, 2}, twice[] = {8, 1, 8, 2}, empty[] = {8, 3}, nine[] = {7, 4}, inside[] = {9, 1, 11, 2};
    rescues(TEXT(HEAD "P(34(1))"), 15, "P(34(1))", none, 0);
    rescues(TEXT(HEAD "PO"), 9, "OP", turned, 2);
    rescues(TEXT(HEAD "PP"), 8, "P", twice, 4);
    rescues(TEXT(HEAD "O()"), 7, "", empty, 2);
    rescues(TEXT(HEAD "O(012345678)"), 8, "O", nine, 2);
    rescues(TEXT(HEAD "O(1)O"), 8, "O", inside, 4);
    rescues_not(TEXT(HEAD "PO"), 8, 2, 8, 0);
    rescues_not(TEXT(HEAD "PO"), 9, 1, 8, 0);
    rescues_not(TEXT(HEAD "PP"), 8, 3, 8, 0);
    rescues_not(TEXT(HEAD "O(1"), 0, 0, 9, 10); /* the order is 13, 10, 9, 8 */
    rescues_not(TEXT(HEAD "O1"), 9, 2, 9, 8);
    rescues_not(TEXT("CVR\0\2" "00p" "PO"), 0, 0, 10, 0); /* version 1 only */
    rescues_not(TEXT("CVR\0"), 0, 0, 9, 4);
    rescues_not(long_text, LONGEST + 1, 0, 0, 13, 0);
    jgv_rescue got = jgv_coverage_rescue(TEXT(HEAD), proper_heading, sizeof proper_heading, NULL, 0);
    CHECK(got.refusal, 0, "jgv_coverage_rescue of a heading: refusal");
    CHECK(got.length, 7, "jgv_coverage_rescue of a heading: length");
    CHECK(got.changes, 0, "jgv_coverage_rescue of a heading: changes");
}

/* Finest cells of N without the last child of any: nothing merges, each eight take eleven bytes and more, `d(01234567)`. */
static void long_lists(void) {
    for (uint64_t i = 0; i < TOO_MANY; i++)
        many[i] = ((i / 8 * 9 + i % 8) * 16 + 15) * 16;
    memset(long_text, FILL, sizeof long_text);
    uint8_t *text = long_text + GUARD;
    CHECK_ONE(jgv_length, length, jgv_coverage_write(1, 15, 0, 0, many, TOO_MANY, text, LONGEST + 1), 13, 0);
    CHECK_ONE(jgv_length, length, jgv_coverage_write(1, 15, 0, 0, many, TOO_MANY, text, 0), 13, 0);
    CHECK_ONE(jgv_length, length, jgv_coverage_write(2, 15, 0, 0, many, TOO_MANY, text, 0), 15, 0); /* parts of N: 15 comes before 13 */
    CHECK(changes(long_text, long_text + sizeof long_text), 0, "a text too long to write: lent bytes");

    jgv_length written = jgv_coverage_write(1, 15, 0, 0, many, MANY, text, LONGEST);
    CHECK(written.refusal, 0, "a long text: refusal");
    CHECK(written.length > MANY / 8 * 11 && written.length <= LONGEST, 1, "a long text: has a likely length");
    CHECK(changes(long_text, text) + changes(text + written.length, long_text + sizeof long_text), 0, "a long text: bytes about it");
    TEXT_ANSWER(jgv_coverage_check(text, (size_t)written.length), 0, 0, 0, 0, MANY, MANY);
    jgv_list list = jgv_coverage_list(text, (size_t)written.length, listed, MANY);
    CHECK(list.refusal, 0, "a long text listed: refusal");
    CHECK(list.count, MANY, "a long text listed: count");
    CHECK(memcmp(listed, many, MANY * sizeof *many), 0, "a long text listed: codes");
}

#define MARK(call, want_refusal, want_kind, a, b, c, d)          \
    do {                                                          \
        jgv_mark_answer got = (call);                             \
        CHECK(got.refusal, want_refusal, #call ": refusal");      \
        CHECK(got.kind, want_kind, #call ": kind");               \
        CHECK_METRES(got.numbers[0], a, #call ": numbers[0]");    \
        CHECK_METRES(got.numbers[1], b, #call ": numbers[1]");    \
        CHECK_METRES(got.numbers[2], c, #call ": numbers[2]");    \
        CHECK_METRES(got.numbers[3], d, #call ": numbers[3]");    \
    } while (0)
#define AT(call, x, y) MARK(call, 0, 1, x, y, 0.0, 0.0)
#define BOX(call, left, bottom, right, top) MARK(call, 0, 2, left, bottom, right, top)
#define NO_MARK(call, number) MARK(call, number, 0, 0.0, 0.0, 0.0, 0.0)
#define FRAME(call, want_refusal, want_left, want_bottom, want_right, want_top) \
    do {                                                          \
        jgv_frame_answer got = (call);                            \
        CHECK(got.refusal, want_refusal, #call ": refusal");      \
        CHECK_METRES(got.left, want_left, #call ": left");        \
        CHECK_METRES(got.bottom, want_bottom, #call ": bottom");  \
        CHECK_METRES(got.right, want_right, #call ": right");     \
        CHECK_METRES(got.top, want_top, #call ": top");           \
    } while (0)
#define NO_FRAME(call, number) FRAME(call, number, 0.0, 0.0, 0.0, 0.0)
#define TO_30 1073741824.0 /* 2^30 */
static const double no_sides[] = {0.9999999999999999, 1073741824.0000002, 0.0, -0.0, -1.0, -TO_30, 5e-324, 2147483648.0,
                                  1.7976931348623157e308, INFINITY, -INFINITY, NAN, -NAN};
enum { NO_SIDES = sizeof no_sides / sizeof *no_sides };

/* 02: "each planar number becomes itself times the side, then divided by M, each step rounded once". Each double here comes from the exact product
 * and the exact quotient, as fractions, each made the nearest double; with 1000.1, dividing first, or rounding but once, gives others. */
static void mark_point(void) {
    AT(jgv_mark_point(1000.1, 0, 0, 0, 0), 0.0, 0.0); /* 02: "zero for zero" */
    AT(jgv_mark_point(1000.1, 0, 0, 1, -1), 3.4849344274096974e-05, -3.4849344274096974e-05);
    AT(jgv_mark_point(1000.1, 3, 2, 33480783, 9565938), 1166.7833333333333, 333.36666666666673); /* the middle of P0 */
    AT(jgv_mark_point(1000.1, 0, 0, 4 * SIDE - 1, SIDE / 2), 4000.3999651506556, 500.05);
    AT(jgv_mark_point(1000.1, 0, 0, 4 * SIDE - 1, -SIDE / 2), 4000.3999651506556, -500.05);
    AT(jgv_mark_point(10007557.176, 2, 0, 2 * SIDE + 1, 3 * (SIDE / 2) - 1), 20015114.700721934, 15011335.415278068); /* in N above Q */
    AT(jgv_mark_point(10007557.176, 0, 0, 7, -13), 2.441053532230713, -4.53338513128561);
    AT(jgv_mark_point(1.0, 0, 0, 33480783, 9565938), 1.1666666666666667, 0.3333333333333333);
    AT(jgv_mark_point(1.0000000000000002, 0, 0, 33480783, 9565938), 1.166666666666667, 0.3333333333333334);
    AT(jgv_mark_point(TO_30, 0, 0, 1, -1), 37.4154569403788, -37.4154569403788);
    NO_MARK(jgv_mark_point(1000.1, 0, 0, 4 * SIDE, 0), 7);
    NO_MARK(jgv_mark_point(1000.1, 0, 0, -1, 0), 7);
    NO_MARK(jgv_mark_point(1000.1, 0, 0, 2 * SIDE + 1, 3 * (SIDE / 2) - 1), 7); /* above Q, with N above O */
    NO_MARK(jgv_mark_point(1000.1, 0, 0, (int64_t)WIDE, 0), 7);
    NO_MARK(jgv_mark_point(1000.1, 0, 0, 0, INT64_MIN), 7);
    NO_MARK(jgv_mark_point(1000.1, 4, 0, 0, 0), 5);
    NO_MARK(jgv_mark_point(1000.1, 0, 4, 0, 0), 5);
    NO_MARK(jgv_mark_point(1000.1, WIDE, 0, 0, 0), 5);
    NO_MARK(jgv_mark_point(1000.1, 0, WIDE, 0, 0), 5);
    NO_MARK(jgv_mark_point(1000.1, 4, 0, -1, 0), 5); /* the order is 19, 5, 7 */
    for (size_t i = 0; i < NO_SIDES; i++) {
        NO_MARK(jgv_mark_point(no_sides[i], 0, 0, 0, 0), 19);
        NO_MARK(jgv_mark_point(no_sides[i], 4, 4, -1, 0), 19);
    }
}

static void mark_code(void) {
    BOX(jgv_mark_code(1000.1, code("P0")), 1000.1, 166.68333333333337, 1333.466666666667, 500.05);
    BOX(jgv_mark_code(1000.1, code_at(2, 0, "N4")), 2333.5666666666666, 833.4166666666666, 2666.933333333334, 1166.7833333333333);
    BOX(jgv_mark_code(1000.1, code_at(0, 1, "S8")), 1666.8333333333333, -1500.1499999999999, 2000.2, -1166.7833333333333);
    BOX(jgv_mark_code(1000.1, code("O")), 0.0, -500.05, 1000.1, 500.05);
    BOX(jgv_mark_code(10007557.176, code_at(3, 0, "N")), 30022671.528000005, 5003778.588, 40030228.704, 15011335.764000002);
    BOX(jgv_mark_code(10007557.176, GREATEST), 40030228.00655614, -15011335.764000002, 40030228.704, -15011335.066556135);
    BOX(jgv_mark_code(1.0, code("R5")), 3.6666666666666665, -0.16666666666666666, 4.0, 0.16666666666666666);
    BOX(jgv_mark_code(TO_30, code("P0")), TO_30, 178956970.66666666, 1431655765.3333333, 536870912.0);
    NO_MARK(jgv_mark_code(1000.1, no_code), 4);
    NO_MARK(jgv_mark_code(1000.1, code("O") + WIDE), 4);
    for (size_t i = 0; i < NO_SIDES; i++) {
        NO_MARK(jgv_mark_code(no_sides[i], code("P0")), 19);
        NO_MARK(jgv_mark_code(no_sides[i], no_code), 19); /* before 4 */
    }
}

/* 02: "The first frame is a cell's box." */
static void frame_first(void) {
    FRAME(jgv_frame_first(1000.1, code("P0")), 0, 1000.1, 166.68333333333337, 1333.466666666667, 500.05);
    FRAME(jgv_frame_first(10007557.176, code_at(2, 0, "N4")), 0, 23350966.744, 8339630.980000001, 26686819.136, 11675483.372);
    FRAME(jgv_frame_first(1.0, code_at(0, 1, "S8")), 0, 1.6666666666666667, -1.5, 2.0, -1.1666666666666667);
    FRAME(jgv_frame_first(TO_30, GREATEST), 0, 4294967221.169086, -1610612736.0, 4294967296.0, -1610612661.1690862);
    NO_FRAME(jgv_frame_first(1000.1, no_code), 4);
    NO_FRAME(jgv_frame_first(1000.1, code("O") + WIDE), 4);
    for (size_t i = 0; i < NO_SIDES; i++) {
        NO_FRAME(jgv_frame_first(no_sides[i], code("P0")), 19);
        NO_FRAME(jgv_frame_first(no_sides[i], no_code), 19);
    }
}

static jgv_frame edges(double left, double bottom, double right, double top) {
    jgv_frame frame = {left, bottom, right, top};
    return frame;
}

/* A double with these bits; all ones behind the sign are no number. */
static double of_bits(uint64_t bits) {
    double value;
    memcpy(&value, &bits, 8);
    return value;
}

/* 02: "each edge becomes the one further out, on a tie the frame's". The box of O6 with 1000.1 is 0, -500.05, 333.36666666666673,
 * -166.68333333333337. */
static void frame_grow(void) {
    const uint64_t o6 = code("O6");
    const double right = 333.36666666666673, top = -166.68333333333337;
    FRAME(jgv_frame_grow(1000.1, edges(1.0, 1.0, 2.0, 2.0), o6), 0, 0.0, -500.05, right, 2.0);
    FRAME(jgv_frame_grow(1000.1, edges(-1.0, -600.0, 400.0, 5.0), o6), 0, -1.0, -600.0, 400.0, 5.0);
    FRAME(jgv_frame_grow(1000.1, edges(9.0, 9.0, -9.0, -999.0), o6), 0, 0.0, -500.05, right, top); /* also where left is past right */
    FRAME(jgv_frame_grow(1000.1, edges(1000.1, 166.68333333333337, 1333.466666666667, 500.05), o6), 0, 0.0, -500.05, 1333.466666666667, 500.05);
    FRAME(jgv_frame_grow(1000.1, edges(-0.0, -500.05, right, top), o6), 0, -0.0, -500.05, right, top); /* a tie with 0.0 */
    FRAME(jgv_frame_grow(1000.1, edges(0.0, -500.05, right, top), o6), 0, 0.0, -500.05, right, top);
    FRAME(jgv_frame_grow(1.0, edges(0.0, 0.0, 0.0, -0.0), code_at(0, 3, "S2")), 0, 0.0, -0.8333333333333334, 4.0, -0.0);
    FRAME(jgv_frame_grow(1000.1, edges(-INFINITY, -INFINITY, INFINITY, INFINITY), o6), 0, -INFINITY, -INFINITY, INFINITY, INFINITY);
    FRAME(jgv_frame_grow(1000.1, edges(INFINITY, INFINITY, -INFINITY, -INFINITY), o6), 0, 0.0, -500.05, right, top);
    FRAME(jgv_frame_grow(TO_30, edges(5e-324, -5e-324, 5e-324, -5e-324), code("O")), 0, 0.0, -536870912.0, TO_30, 536870912.0);
    NO_FRAME(jgv_frame_grow(1000.1, edges(0.0, 0.0, 0.0, 0.0), no_code), 4);
    NO_FRAME(jgv_frame_grow(1000.1, edges(0.0, 0.0, 0.0, 0.0), o6 + WIDE), 4);
    static const uint64_t no_numbers[] = {UINT64_C(0x7FF8000000000000), UINT64_C(0x7FF0000000000001), UINT64_MAX, UINT64_C(0xFFF4000000000000)};
    for (size_t i = 0; i < 4; i++) {
        const double nan = of_bits(no_numbers[i]);
        NO_FRAME(jgv_frame_grow(1000.1, edges(nan, 0.0, 0.0, 0.0), o6), 19);
        NO_FRAME(jgv_frame_grow(1000.1, edges(0.0, nan, 0.0, 0.0), o6), 19);
        NO_FRAME(jgv_frame_grow(1000.1, edges(0.0, 0.0, nan, 0.0), o6), 19);
        NO_FRAME(jgv_frame_grow(1000.1, edges(0.0, 0.0, 0.0, nan), o6), 19);
        NO_FRAME(jgv_frame_grow(1000.1, edges(nan, nan, nan, nan), no_code), 19); /* before 4 */
        NO_FRAME(jgv_frame_grow(nan, edges(0.0, 0.0, 0.0, 0.0), o6), 19);
    }
    for (size_t i = 0; i < NO_SIDES; i++) {
        NO_FRAME(jgv_frame_grow(no_sides[i], edges(0.0, 0.0, 0.0, 0.0), o6), 19);
        NO_FRAME(jgv_frame_grow(no_sides[i], edges(0.0, 0.0, 0.0, 0.0), no_code), 19);
    }
}

/* 02 W-207: "486 counters, one for each resolution-2 cell, .. in code order". The number of one: its face and two digits read in base nine. */
static size_t district(const char *name) {
    return (size_t)((name[0] - 'N') * 81 + (name[1] - '0') * 9 + (name[2] - '0'));
}

static void sums_up_nothing(const uint8_t *text, size_t length, uint64_t refusal, uint64_t place) {
    jgv_summary_answer got = jgv_summary(text, length);
    uint64_t any = got.n | got.s;
    for (size_t i = 0; i < 486; i++)
        any |= got.counters[i];
    CHECK(got.refusal, refusal, "jgv_summary refused: refusal");
    CHECK(got.place, place, "jgv_summary refused: place");
    CHECK(any, 0, "jgv_summary refused: n, s and counters");
}

#define SUMMARY_ASK(call, want_refusal, want) CHECK_ONE(jgv_summary_ask_answer, covered, call, want_refusal, want)

static void summary(void) {
    jgv_summary_answer kept = jgv_summary(TEXT("CVR\0\1" "21" "OP(34(1))S(00(0(8))8(8))"));
    CHECK(kept.refusal, 9, "jgv_summary of a list that does not rise: refusal");
    kept = jgv_summary(TEXT("CVR\0\1" "21" "OP(34(1))S(0(0(8))8(8))"));
    CHECK(kept.refusal, 0, "jgv_summary: refusal");
    CHECK(kept.place, 0, "jgv_summary: place");
    CHECK(kept.n, 2, "jgv_summary: n");
    CHECK(kept.s, 1, "jgv_summary: s");
    for (size_t i = 0; i < 486; i++) {
        uint64_t want = 0;
        if (i >= district("O00") && i <= district("O88"))
            want = NINE_13; /* all of O */
        if (i >= district("P30") && i <= district("P38"))
            want = NINE_13; /* all of P3 */
        if (i == district("P41") || i == district("S88"))
            want = NINE_13;
        if (i == district("S00"))
            want = NINE_13 / 9; /* S008 alone */
        CHECK(kept.counters[i], want, "jgv_summary: a counter");
    }
    /* "yes exactly when each one inside the cell is 9^13" */
    SUMMARY_ASK(jgv_summary_ask(2, 1, kept.counters, code_at(2, 1, "O")), 0, 1);
    SUMMARY_ASK(jgv_summary_ask(2, 1, kept.counters, code_at(2, 1, "O5")), 0, 1);
    SUMMARY_ASK(jgv_summary_ask(2, 1, kept.counters, code_at(2, 1, "P")), 0, 0);
    SUMMARY_ASK(jgv_summary_ask(2, 1, kept.counters, code_at(2, 1, "P3")), 0, 1);
    SUMMARY_ASK(jgv_summary_ask(2, 1, kept.counters, code_at(2, 1, "P4")), 0, 0);
    SUMMARY_ASK(jgv_summary_ask(2, 1, kept.counters, code_at(2, 1, "P41")), 0, 1);
    SUMMARY_ASK(jgv_summary_ask(2, 1, kept.counters, code_at(2, 1, "S00")), 0, 0);
    SUMMARY_ASK(jgv_summary_ask(2, 1, kept.counters, code_at(2, 1, "S88")), 0, 1);
    /* a counter that no text has */
    kept.counters[district("P35")] = NINE_13 + 1;
    SUMMARY_ASK(jgv_summary_ask(2, 1, kept.counters, code_at(2, 1, "P3")), 0, 0);
    kept.counters[district("P35")] = NINE_13 + WIDE;
    SUMMARY_ASK(jgv_summary_ask(2, 1, kept.counters, code_at(2, 1, "P35")), 0, 0);
    SUMMARY_ASK(jgv_summary_ask(2, 1, kept.counters, code_at(2, 1, "P34")), 0, 1);
    /* 5, 4, "2 for a finer cell asked, after 4", 14 */
    SUMMARY_ASK(jgv_summary_ask(4, 1, kept.counters, code_at(2, 1, "O")), 5, 0);
    SUMMARY_ASK(jgv_summary_ask(2, 4, kept.counters, code_at(2, 1, "O")), 5, 0);
    SUMMARY_ASK(jgv_summary_ask(2 + WIDE, 1, kept.counters, code_at(2, 1, "O")), 5, 0);
    SUMMARY_ASK(jgv_summary_ask(2, 1 + WIDE, kept.counters, code_at(2, 1, "O")), 5, 0);
    SUMMARY_ASK(jgv_summary_ask(4, 4, kept.counters, no_code), 5, 0);
    SUMMARY_ASK(jgv_summary_ask(2, 1, kept.counters, no_code), 4, 0);
    SUMMARY_ASK(jgv_summary_ask(2, 1, kept.counters, code_at(2, 1, "O") + WIDE), 4, 0);
    SUMMARY_ASK(jgv_summary_ask(2, 1, kept.counters, code_at(2, 1, "O00") + 256), 4, 0); /* a digit below the resolution */
    SUMMARY_ASK(jgv_summary_ask(2, 1, kept.counters, code_at(2, 1, "O000")), 2, 0);
    SUMMARY_ASK(jgv_summary_ask(2, 1, kept.counters, code_at(1, 2, "O000")), 2, 0); /* before 14 */
    SUMMARY_ASK(jgv_summary_ask(2, 1, kept.counters, GREATEST), 2, 0);
    SUMMARY_ASK(jgv_summary_ask(2, 1, kept.counters, code_at(1, 2, "O")), 14, 0);
    SUMMARY_ASK(jgv_summary_ask(2, 1, kept.counters, code_at(2, 0, "O00")), 14, 0);
    /* version 2, and texts that are none */
    kept = jgv_summary(TEXT("CVR\0\2" "30b" "NQ(8)"));
    CHECK(kept.refusal, 0, "jgv_summary of version 2: refusal");
    CHECK(kept.n, 3, "jgv_summary of version 2: n");
    CHECK(kept.s, 0, "jgv_summary of version 2: s");
    CHECK(kept.counters[district("N00")], NINE_13, "jgv_summary of version 2: N00");
    CHECK(kept.counters[district("Q88")], NINE_13, "jgv_summary of version 2: Q88");
    CHECK(kept.counters[district("Q78")] | kept.counters[district("R00")], 0, "jgv_summary of version 2: others");
    sums_up_nothing(TEXT(HEAD "O()"), 9, 9);
    sums_up_nothing(NULL, 0, 9, 0);
    sums_up_nothing(TEXT("CVR\0\3" "00"), 10, 0);
    sums_up_nothing(long_text, LONGEST + 1, 13, 0);
}

/* What a change answers: the refusal, and the newest revision of the history that it hands back. */
static jgv_history changed(jgv_history_answer got, uint64_t refusal, uint64_t newest, const char *call) {
    CHECK(got.refusal, refusal, call);
    CHECK(got.history.newest, newest, call);
    return got.history;
}
#define CHANGED(call, refusal, newest) changed((call), refusal, newest, #call)

#define KEPT(history, revision, want_refusal, want_n, want_s, want_resolution, want_eccentricity)     \
    do {                                                                                              \
        jgv_settings_answer got = jgv_settings_read(history, revision);                               \
        CHECK(got.refusal, want_refusal, "jgv_settings_read: refusal of " #revision);                 \
        CHECK(got.settings.n, want_n, "jgv_settings_read: n of " #revision);                          \
        CHECK(got.settings.s, want_s, "jgv_settings_read: s of " #revision);                          \
        CHECK(got.settings.resolution, want_resolution, "jgv_settings_read: resolution of " #revision); \
        CHECK(got.settings.eccentricity, want_eccentricity, "jgv_settings_read: eccentricity of " #revision); \
    } while (0)

static void settings(void) {
    const uint64_t most = 10000000000;
    jgv_history none, history, same;
    memset(&none, 0, sizeof none);

    /* contents by 5, 2 and 6, and zeros for a history that was not made */
    CHANGED(jgv_settings_fresh(4, 0, 16, most + 1), 5, 0);
    CHANGED(jgv_settings_fresh(0, WIDE, 16, most + 1), 5, 0);
    CHANGED(jgv_settings_fresh(3, 3, 16, most + 1), 2, 0);
    CHANGED(jgv_settings_fresh(3, 3, WIDE, 0), 2, 0);
    history = CHANGED(jgv_settings_fresh(3, 3, 15, most + 1), 6, 0);
    CHECK(memcmp(&history, &none, sizeof none), 0, "jgv_settings_fresh: zeros beside a refusal");

    history = CHANGED(jgv_settings_fresh(1, 2, 9, most), 0, 0);
    KEPT(history, 0, 0, 1, 2, 9, most);
    KEPT(history, 1, 18, 0, 0, 0, 0);
    history = CHANGED(jgv_settings_change(history, 0, 3, 0, 15, 0), 0, 1);
    KEPT(history, 0, 0, 1, 2, 9, most);
    KEPT(history, 1, 0, 3, 0, 15, 0);
    KEPT(history, 2, 18, 0, 0, 0, 0);

    /* a refused change hands back the same; contents are judged first, then 16; 18 comes before 16 */
    same = CHANGED(jgv_settings_change(history, 0, 4, 0, 0, 0), 5, 1);
    CHECK(memcmp(&same, &history, sizeof same), 0, "jgv_settings_change: the history beside 5");
    CHANGED(jgv_settings_change(history, 0, 0, 0, 16, 0), 2, 1);
    CHANGED(jgv_settings_change(history, 0, 0, 0, 0, most + 1), 6, 1);
    same = CHANGED(jgv_settings_change(history, 0, 0, 0, 0, 0), 16, 1);
    CHECK(memcmp(&same, &history, sizeof same), 0, "jgv_settings_change: the history beside 16");
    CHANGED(jgv_settings_change(history, 2, 0, 0, 0, 0), 16, 1);
    CHANGED(jgv_settings_change(history, 1 + WIDE, 0, 0, 0, 0), 16, 1);
    CHANGED(jgv_settings_back(history, 1, 2), 18, 1);
    CHANGED(jgv_settings_back(history, 0, 2), 18, 1);
    CHANGED(jgv_settings_back(history, 1, WIDE), 18, 1);
    same = CHANGED(jgv_settings_back(history, 0, 0), 16, 1);
    CHECK(memcmp(&same, &history, sizeof same), 0, "jgv_settings_back: the history beside 16");
    history = CHANGED(jgv_settings_back(history, 1, 0), 0, 2);
    KEPT(history, 2, 0, 1, 2, 9, most);

    /* the thirty-third drops the oldest, and there is none past 65,535 */
    for (uint64_t revision = 2; revision < 65535; revision++) {
        jgv_history_answer got = jgv_settings_change(history, revision, revision % 4, revision / 4 % 4, revision % 16, revision);
        history = got.history;
        if (got.refusal != 0 || history.newest != revision + 1)
            break;
        if (revision == 30)
            KEPT(history, 0, 0, 1, 2, 9, most);
        if (revision == 31)
            KEPT(history, 0, 18, 0, 0, 0, 0);
    }
    CHECK(history.newest, 65535, "jgv_settings_change: 65,535 revisions");
    KEPT(history, 65535, 0, 2, 3, 14, 65534);
    KEPT(history, 65504, 0, 3, 3, 15, 65503);
    KEPT(history, 65503, 18, 0, 0, 0, 0);
    KEPT(history, 65536, 18, 0, 0, 0, 0);
    same = CHANGED(jgv_settings_change(history, 65535, 0, 0, 0, 0), 17, 65535);
    CHECK(memcmp(&same, &history, sizeof same), 0, "jgv_settings_change: the history beside 17");
    CHANGED(jgv_settings_change(history, 65534, 0, 0, 0, 0), 16, 65535);
    CHANGED(jgv_settings_back(history, 65535, 65535), 17, 65535);
    CHANGED(jgv_settings_back(history, 65535, 65503), 18, 65535);
}

int main(void) {
    cell_code();
    code_cell();
    code_cells();
    cell_codes();
    name_code();
    code_name();
    families();
    shapes();
    squares();
    vertices();
    point_code();
    fix_code();
    no_fix_code();
    geodetic_z();
    geodetic_code();
    ground_nucleus();
    corner_cells();
    neighbour();
    coverage_check();
    handheld_check();
    coverage_list();
    coverage_write();
    handheld_write();
    coverage_ask();
    coverage_add();
    mark_point();
    mark_code();
    frame_first();
    frame_grow();
    settings();
    coverage_compare();
    sheet_check();
    sheet_write();
    coverage_rescue();
    summary();
    long_lists(); /* last, since it fills `long_text` and `many` */
    if (failed)
        printf("%lu checks failed\n", failed);
    printf("%lu checks passed\n", passed);
    return failed || !passed;
}

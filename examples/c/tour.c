/* A tour of every entry, on examples of the scope paper. The tours in Rust and Python print the same lines.
 * Each line begins with the entry's name, without jgv_. The arrangement (n, s) is (0, 0) where no other is said. */
#include "jeguarivo.h"

#include <inttypes.h>
#include <math.h>
#include <stdio.h>
#include <stdlib.h>
#include <string.h>

/* Read `refusal` first: where it isn't 0, every other field is 0, and 0 is also the code of the cell N at n = s = 0. */
static void expect_answer(uint64_t refusal) {
    if (refusal) {
        fprintf(stderr, "tour: refused with %" PRIu64 "\n", refusal);
        exit(1);
    }
}

static uint64_t code_in(jgv_code answer) {
    expect_answer(answer.refusal);
    return answer.code;
}

/* A name says no arrangement, a code does. */
static uint64_t code_at(uint64_t n, uint64_t s, const char *name) {
    return code_in(jgv_name_code(n, s, (const uint8_t *)name, strlen(name)));
}

static uint64_t code_of(const char *name) {
    return code_at(0, 0, name);
}

typedef struct {
    char text[17];
} cell_name;

/* A name has at most 16 bytes, and no zero byte follows it: the 17th here stays 0. */
static cell_name name_of(uint64_t code) {
    cell_name name = {{0}};
    expect_answer(jgv_code_name(code, (uint8_t *)name.text, 16).refusal);
    return name;
}

/* A cell is a face, a resolution, a row from the top and a column from the left. It has one name, and one code in each arrangement. */
static void codes_and_names(void) {
    uint64_t n1 = code_in(jgv_cell_code(2, 1, 0, 1, 0, 1));
    printf("cell_code: n 2, s 1, face 0, resolution 1, row 0, column 1 -> %" PRIu64 "\n", n1);
    jgv_cell cell = jgv_code_cell(n1);
    expect_answer(cell.refusal);
    printf("code_cell: %" PRIu64 " -> n %" PRIu64 ", s %" PRIu64 ", face %" PRIu64, n1, cell.n, cell.s, cell.face);
    printf(", resolution %" PRIu64 ", row %" PRIu64 ", column %" PRIu64 "\n", cell.resolution, cell.row, cell.column);
    printf("code_name: %" PRIu64 " -> %s\n", n1, name_of(n1).text);

    static const char *const names[] = {"N", "N0", "N1", "O", "S888888888888888"};
    for (size_t i = 0; i < 5; i++)
        printf("name_code: %s -> %" PRIu64 "\n", names[i], code_of(names[i]));
    printf("name_code: S888888888888888, n 3, s 3 -> %" PRIu64 "\n", code_at(3, 3, "S888888888888888"));

    /* Bad input is refused with a number; the header says what each number means. */
    jgv_code bad = jgv_name_code(0, 0, (const uint8_t *)"X1", 2);
    printf("name_code: X1 -> refused with %" PRIu64 "\n", bad.refusal);
}

/* Many at once: each code or cell gets what it gets alone, a bad one its refusal. Rooms are counted in numbers: seven to a cell, two to a code. */
static void batches(void) {
    uint64_t codes[2];
    codes[0] = code_of("P41");
    codes[1] = 256; /* no cell's */
    jgv_cell cells[2];
    jgv_count turned = jgv_code_cells(codes, 2, (uint64_t *)cells, 14);
    expect_answer(turned.refusal);
    printf("code_cells: P41 -> n %" PRIu64 ", s %" PRIu64 ", face %" PRIu64, cells[0].n, cells[0].s, cells[0].face);
    printf(", resolution %" PRIu64 ", row %" PRIu64 ", column %" PRIu64 "\n", cells[0].resolution, cells[0].row, cells[0].column);
    printf("code_cells: 256 -> refused with %" PRIu64 "\n", cells[1].refusal);

    static const uint64_t numbers[] = {0, 0, 2, 2, 3, 4, 0, 0, 6, 2, 3, 4};
    jgv_code back[2];
    turned = jgv_cell_codes(numbers, 12, (uint64_t *)back, 4);
    expect_answer(turned.refusal);
    printf("cell_codes: n 0, s 0, face 2, resolution 2, row 3, column 4 -> %s\n", name_of(code_in(back[0])).text);
    printf("cell_codes: n 0, s 0, face 6, resolution 2, row 3, column 4 -> refused with %" PRIu64 "\n", back[1].refusal);
}

/* Each cell but the finest has nine children, 0 top left to 8 bottom right. The size is the number of finest cells inside. */
static void families(void) {
    printf("parent: P41 -> %s\n", name_of(code_in(jgv_parent(code_of("P41")))).text);
    printf("child: P, digit 0 -> %s\n", name_of(code_in(jgv_child(code_of("P"), 0))).text);

    static const char *const names[] = {"O", "N1", "S888888888888888"};
    for (size_t i = 0; i < 3; i++) {
        jgv_size_answer answer = jgv_size(code_of(names[i]));
        expect_answer(answer.refusal);
        printf("size: %s -> %" PRIu64 "\n", names[i], answer.size);
    }
}

/* Four shapes of cells. */
static void shapes(void) {
    static const char *const words[] = {"quad", "cap", "dart", "skew quad"};
    static const char *const names[] = {"P0", "N4", "N0", "N1"};
    for (size_t i = 0; i < 4; i++) {
        jgv_shape_answer shape = jgv_shape(code_of(names[i]));
        expect_answer(shape.refusal);
        printf("shape: %s -> %s\n", names[i], words[shape.shape]);
    }
}

static void print_square(uint64_t n, uint64_t s, const char *name, const char *shown) {
    jgv_square_answer square = jgv_square(code_at(n, s, name));
    expect_answer(square.refusal);
    printf("square: %s -> left %" PRId64 ", top %" PRId64 ", side %" PRId64 "\n", shown, square.left, square.top, square.side);
}

static jgv_point print_nucleus(uint64_t s, const char *name, const char *shown) {
    jgv_point nucleus = jgv_nucleus(code_at(0, s, name));
    expect_answer(nucleus.refusal);
    printf("nucleus: %s -> (%" PRId64 ", %" PRId64 ")\n", shown, nucleus.x, nucleus.y);
    return nucleus;
}

/* The corners, owned or not: top left, top right, bottom right, bottom left. */
static jgv_vertices_answer print_vertices(const char *name) {
    jgv_vertices_answer corners = jgv_vertices(code_of(name));
    expect_answer(corners.refusal);
    printf("vertices: %s ->", name);
    for (size_t i = 0; i < 4; i++)
        printf(" (%" PRId64 ", %" PRId64 ")", corners.x[i], corners.y[i]);
    putchar('\n');
    return corners;
}

static void print_point(int64_t x, int64_t y) {
    printf("point_code: (%" PRId64 ", %" PRId64 "), resolution 1 -> %s\n", x, y, name_of(code_in(jgv_point_code(0, 0, 1, x, y))).text);
}

/* The plane, in whole units: x runs east from the left edge of O, y up from the equator. N lies above face n, S below face s. */
static void plane(void) {
    print_square(0, 0, "N", "N, n 0");
    print_square(3, 0, "N", "N, n 3");
    print_square(0, 2, "S", "S, s 2");
    print_square(0, 0, "P0", "P0");
    jgv_point nucleus = print_nucleus(0, "P0", "P0");
    print_nucleus(2, "S", "S, s 2");
    jgv_vertices_answer corners = print_vertices("P0");
    print_vertices("P8");

    /* A cell owns its left and top edges: the top left corner of P0 is in P0, the bottom right one in P4. */
    print_point(nucleus.x, nucleus.y);
    print_point(corners.x[0], corners.y[0]);
    print_point(corners.x[2], corners.y[2]);
    const int64_t four_sides = 4 * 28697814;
    jgv_code outside = jgv_point_code(0, 0, 0, four_sides, 0);
    printf("point_code: (%" PRId64 ", 0), resolution 0 -> refused with %" PRIu64 "\n", four_sides, outside.refusal);
}

static void print_fix(uint64_t n, uint64_t resolution, int64_t longitude, int64_t z) {
    printf("fix_code: longitude %" PRId64 ", z %" PRId64 ", resolution %" PRIu64 "%s -> %s\n", longitude, z, resolution, n == 1 ? ", n 1" : "",
           name_of(code_in(jgv_fix_code(n, 0, resolution, longitude, z))).text);
}

static void print_z(int64_t sine, uint64_t eccentricity) {
    jgv_z answer = jgv_geodetic_z(sine, eccentricity);
    printf("geodetic_z: sine %" PRId64 ", eccentricity %" PRIu64 " -> ", sine, eccentricity);
    if (answer.refusal)
        printf("refused with %" PRIu64 "\n", answer.refusal);
    else
        printf("%" PRId64 "\n", answer.z);
}

static void print_geodetic(int64_t longitude, int64_t sine, uint64_t eccentricity) {
    printf("geodetic_code: longitude %" PRId64 ", sine %" PRId64 ", eccentricity %" PRIu64 ", resolution 1 -> %s\n", longitude, sine,
           eccentricity, name_of(code_in(jgv_geodetic_code(0, 0, 1, longitude, sine, eccentricity))).text);
}

static void print_ground_nucleus(const char *name) {
    jgv_fix fix = jgv_ground_nucleus(code_of(name));
    expect_answer(fix.refusal);
    printf("ground_nucleus: %s -> longitude %" PRId64 ", z %" PRId64 "\n", name, fix.longitude, fix.z);
}

/* A fix is a longitude in units of 10^-7 degree and z, the sine of the authalic latitude, in units of 10^-18. */
static void ground(void) {
    print_fix(0, 2, 0, 0);
    print_fix(0, 1, 0, 1000000000000000000);
    print_fix(0, 1, -1350000000, 666666666666666666);
    print_fix(0, 1, -1350000000, 666666666666666667);
    print_fix(0, 1, -900000000, 880000000000000000);
    print_fix(1, 1, -900000000, 880000000000000000);
    print_fix(0, 1, -900000000, -880000000000000000);
    print_fix(0, 2, -1350000000, 970000000000000000);

    /* A fix with the sine of its geodetic latitude on WGS84, by the squared eccentricity in units of 10^-12: 0.668 lies in the belt there, and past it
     * on a sphere. */
    const uint64_t wgs84 = 6694379990;
    print_z(100000000000000000, wgs84);
    print_z(-100000000000000000, wgs84);
    print_z(1000000000000000000, wgs84);
    print_z(100000000000000000, 0);
    print_z(0, 10000000001);
    print_geodetic(-1350000000, 668000000000000000, wgs84);
    print_geodetic(-1350000000, 668000000000000000, 0);

    /* Back from a cell to the fix of its middle; both numbers are floored, so P6 is no mirror of P0. */
    print_ground_nucleus("Q");
    print_ground_nucleus("P0");
    print_ground_nucleus("P6");
    print_ground_nucleus("N4");
}

static void neighbours(void) {
    static const char *const directions[] = {"up", "right", "down", "left"};
    for (uint64_t direction = 0; direction < 4; direction++)
        printf("neighbour: P0, %s -> %s\n", directions[direction], name_of(code_in(jgv_neighbour(code_of("P0"), direction))).text);
    printf("neighbour: P0, up, n 1 -> %s\n", name_of(code_in(jgv_neighbour(code_at(1, 0, "P0"), 0))).text);
}

static void print_corner_cells(uint64_t n, const char *name, const char *shown) {
    uint64_t codes[4]; /* always enough */
    jgv_count listed = jgv_corner_cells(code_at(n, 0, name), codes, 4);
    expect_answer(listed.refusal);
    printf("corner_cells: %s ->", shown);
    for (size_t i = 0; i < listed.count; i++)
        printf(" %s", name_of(codes[i]).text);
    putchar('\n');
}

/* Cells that meet at a corner only: none about a face, three about a cell in a corner of its face, four about any other. */
static void corners(void) {
    static const char *const names[] = {"P", "P0", "P1", "N0", "N04"};
    for (size_t i = 0; i < 5; i++) {
        jgv_count answer = jgv_corner_count(code_of(names[i]));
        expect_answer(answer.refusal);
        printf("corner_count: %s -> %" PRIu64 "\n", names[i], answer.count);
    }
    print_corner_cells(0, "P0", "P0");
    print_corner_cells(1, "P0", "P0, n 1");
    print_corner_cells(0, "R5", "R5");
}

/* Writes the text of rising cells to `text` and shows its bytes; answers its length. No text is longer than 65,536 bytes. */
static size_t write_text(const char *const *names, size_t count, uint8_t *text, size_t room) {
    uint64_t codes[10];
    printf("coverage_write:");
    for (size_t i = 0; i < count; i++) {
        codes[i] = code_of(names[i]);
        printf(" %s", names[i]);
    }
    jgv_length written = jgv_coverage_write(1, 15, 0, 0, codes, count, text, room); /* version 1; any depth to 15 will do */
    expect_answer(written.refusal);
    printf(" ->");
    for (size_t i = 0; i < written.length; i++)
        printf(" %02X", text[i]);
    putchar('\n');
    return (size_t)written.length;
}

static void print_ask(const uint8_t *text, size_t length, const char *name) {
    jgv_ask answer = jgv_coverage_ask(text, length, code_of(name));
    expect_answer(answer.refusal);
    printf("coverage_ask: %s, %s -> %s, settled by %" PRIu64 "\n", "P(34(1))", name, answer.covered ? "yes" : "no", answer.settled);
}

/* Adds a cell to a text of version 1 and shows its body before and after; answers its length. */
static size_t add_cell(uint8_t *text, size_t room, size_t length, const char *name) {
    printf("coverage_add: %.*s, %s", (int)length - 7, (const char *)text + 7, name);
    jgv_add added = jgv_coverage_add(text, room, length, code_of(name));
    expect_answer(added.refusal);
    printf(" -> %.*s\n", (int)added.length - 7, (const char *)text + 7);
    return (size_t)added.length;
}

/* A flight's cells go into its text one by one, in any order; the text is all that there is to keep. */
static void additions(void) {
    uint8_t text[64] = {'C', 'V', 'R', 0, 1, '0', '0', 'P', '(', '3', '4', '(', '1', ')', ')'};
    size_t length = add_cell(text, sizeof text, 15, "P40");
    length = add_cell(text, sizeof text, length, "P4"); /* the list gives way */
    length = add_cell(text, sizeof text, length, "P418"); /* covered already */
    jgv_add other = jgv_coverage_add(text, sizeof text, length, code_at(1, 0, "N6"));
    printf("coverage_add: P(34), N6, n 1 -> refused with %" PRIu64 "\n", other.refusal);
}

/* One place flown by two crews, in two arrangements: N8 in the first is N6 in the second. Codes of two arrangements are not taken together. */
static void two_arrangements(void) {
    const uint64_t ours = code_in(jgv_fix_code(0, 0, 1, -900000000, 880000000000000000));
    const uint64_t theirs = code_in(jgv_fix_code(1, 0, 1, -900000000, 880000000000000000));
    const uint64_t both[] = {theirs, ours};
    uint8_t text[32];
    jgv_length mixed = jgv_coverage_write(1, 15, 0, 0, both, 2, text, sizeof text);
    printf("coverage_write: N6, n 1, and N8, n 0 -> refused with %" PRIu64 "\n", mixed.refusal);
    jgv_length written = jgv_coverage_write(1, 15, 0, 0, &ours, 1, text, sizeof text);
    expect_answer(written.refusal);
    jgv_ask asked = jgv_coverage_ask(text, (size_t)written.length, theirs);
    printf("coverage_ask: N(8), N6, n 1 -> refused with %" PRIu64 "\n", asked.refusal);
}

/* What the heading says and what the reading comes to. */
static void print_check(const uint8_t *text, size_t length) {
    jgv_check check = jgv_coverage_check(text, length);
    expect_answer(check.refusal);
    printf("coverage_check: P(34(1)) -> version %" PRIu64 ", depth %" PRIu64, check.version, check.depth);
    printf(", n %" PRIu64 ", s %" PRIu64 ", %" PRIu64 " whole cells, size %" PRIu64 "\n", check.n, check.s, check.cells, check.size);
}

/* Writes the text of version 2 of rising cells and shows its bytes, or the refusal; answers its length. */
static size_t write_handheld(uint64_t depth, const char *const *names, size_t count, uint8_t *text, size_t room) {
    uint64_t codes[10];
    printf("coverage_write: version 2, depth %" PRIu64 ",", depth);
    for (size_t i = 0; i < count; i++) {
        codes[i] = code_of(names[i]);
        printf(" %s", names[i]);
    }
    jgv_length written = jgv_coverage_write(2, depth, 0, 0, codes, count, text, room);
    if (written.refusal) {
        printf(" -> refused with %" PRIu64 "\n", written.refusal);
        return 0;
    }
    printf(" ->");
    for (size_t i = 0; i < written.length; i++)
        printf(" %02X", text[i]);
    putchar('\n');
    return (size_t)written.length;
}

/* Handhelds take no cap detail and a limited depth: texts of version 2 say it in an eighth byte, a letter a to p for depth 0 to 15. */
static void handhelds(void) {
    static const char *const two[] = {"P3", "P41"};
    static const char *const north[] = {"N0", "N1", "N2", "N3", "N4", "N5", "N6", "N7", "N8", "P3"};
    uint8_t text[32];
    size_t length = write_handheld(2, two, 2, text, sizeof text);
    print_check(text, length);
    write_handheld(1, two, 2, text, sizeof text); /* P41 lies deeper */
    write_handheld(1, north, 10, text, sizeof text); /* the fewest cells are judged: N0 to N8 are N */
    write_handheld(1, north + 1, 9, text, sizeof text); /* N is not whole */
}

/* A mark is a point (kind 1) or a box (kind 2), or there is none: shown to a millimetre, or with the refusal. */
static void print_mark(jgv_mark_answer mark) {
    const double *is = mark.numbers;
    if (mark.refusal)
        printf("refused with %" PRIu64 "\n", mark.refusal);
    else if (mark.kind == 1)
        printf("point (%.3f, %.3f)\n", is[0], is[1]);
    else
        printf("box left %.3f, bottom %.3f, right %.3f, top %.3f\n", is[0], is[1], is[2], is[3]);
}

static void print_mark_point(double side, int64_t x, int64_t y) {
    printf("mark_point: side %.1f, (%" PRId64 ", %" PRId64 ") -> ", side, x, y);
    print_mark(jgv_mark_point(side, 0, 0, x, y));
}

static void print_mark_code(double side, uint64_t n, const char *name, const char *shown) {
    printf("mark_code: side %.1f, %s -> ", side, shown);
    print_mark(jgv_mark_code(side, code_at(n, 0, name)));
}

static jgv_frame print_frame(jgv_frame_answer frame) {
    expect_answer(frame.refusal);
    printf("left %.3f, bottom %.3f, right %.3f, top %.3f\n", frame.left, frame.bottom, frame.right, frame.top);
    jgv_frame edges = {frame.left, frame.bottom, frame.right, frame.top};
    return edges;
}

static jgv_frame print_frame_grow(double side, jgv_frame frame, const char *name) {
    printf("frame_grow: side %.1f, and %s -> ", side, name);
    return print_frame(jgv_frame_grow(side, frame, code_of(name)));
}

/* The plane in metres, for a plotter: `side` is the face side, from 1 to 2^30. A frame starts as a cell's box and grows to hold further ones. */
static void plotter(void) {
    const double side = 10000000.0;
    print_mark_point(side, 33480783, 9565938);
    print_mark_point(side, 0, -1);
    print_mark_point(side, 4 * 28697814, 0);
    print_mark_code(side, 0, "P0", "P0");
    print_mark_code(side, 2, "N", "N, n 2");
    print_mark_code(0.5, 0, "P0", "P0");

    printf("frame_first: side %.1f, P0 -> ", side);
    jgv_frame frame = print_frame(jgv_frame_first(side, code_of("P0")));
    frame = print_frame_grow(side, frame, "P8");
    frame = print_frame_grow(side, frame, "N4");
    frame = print_frame_grow(side, frame, "P1"); /* lies inside by then */
    frame.top = NAN;
    jgv_frame_answer bad = jgv_frame_grow(side, frame, code_of("P1"));
    printf("frame_grow: side %.1f, a top that is not a number, and P1 -> refused with %" PRIu64 "\n", side, bad.refusal);
}

/* A text that is not of the grammar is refused with 9; `place` says how much of it some good text begins with. */
static void print_bad_text(const char *body) {
    uint8_t text[32] = {'C', 'V', 'R', 0, 1, '0', '0'};
    memcpy(text + 7, body, strlen(body));
    jgv_check check = jgv_coverage_check(text, 7 + strlen(body));
    printf("coverage_check: %s -> refused with %" PRIu64 " at place %" PRIu64 "\n", body, check.refusal, check.place);
}

/* A coverage text of version 1 is a heading of seven bytes, with the version and n and s, and the whole cells as a tree of digits. */
static void coverage(void) {
    static const char *const whole[] = {"O", "P0", "P1", "P2", "P3", "P4", "P5", "P6", "P7", "P8"};
    static const char *const two[] = {"P3", "P41"};
    uint8_t text[32];
    write_text(whole, 10, text, sizeof text); /* nine whole siblings become their parent */
    size_t length = write_text(two, 2, text, sizeof text);

    print_check(text, length);
    uint64_t codes[32]; /* a text has fewer whole cells than bytes */
    jgv_list list = jgv_coverage_list(text, length, codes, 32);
    expect_answer(list.refusal);
    printf("coverage_list: P(34(1)) ->");
    for (size_t i = 0; i < list.count; i++)
        printf(" %s", name_of(codes[i]).text);
    putchar('\n');

    print_ask(text, length, "P3");
    print_ask(text, length, "P41");
    print_ask(text, length, "P418");
    print_ask(text, length, "P4"); /* covered in part only */
    print_bad_text("O()");
    print_bad_text("O(012345678)");
}

/* The history after a change, or the one at hand where it is refused. */
static jgv_history after_change(const char *what, jgv_history_answer answer) {
    printf("%s -> ", what);
    if (answer.refusal)
        printf("refused with %" PRIu64 "\n", answer.refusal);
    else
        printf("newest %" PRIu64 "\n", answer.history.newest);
    return answer.history;
}

/* A history is a value, handed from call to call: each change answers the next one, and a refused change the one that it was given. */
static void office(void) {
    const uint64_t wgs84 = 6694379990;
    jgv_history history = after_change("settings_fresh: 0 0 9 6694379990", jgv_settings_fresh(0, 0, 9, wgs84));
    history = after_change("settings_change: from 0, 1 0 10 6694379990", jgv_settings_change(history, 0, 1, 0, 10, wgs84));
    /* Two people changed revision 0: the second of them has to look at revision 1 first. */
    history = after_change("settings_change: from 0, 0 0 11 6694379990", jgv_settings_change(history, 0, 0, 0, 11, wgs84));
    history = after_change("settings_back: from 1, to 0", jgv_settings_back(history, 1, 0));
    for (uint64_t revision = 0; revision <= 3; revision++) {
        jgv_settings_answer read = jgv_settings_read(history, revision);
        jgv_settings kept = read.settings;
        printf("settings_read: %" PRIu64 " -> ", revision);
        if (read.refusal)
            printf("refused with %" PRIu64 "\n", read.refusal);
        else
            printf("%" PRIu64 " %" PRIu64 " %" PRIu64 " %" PRIu64 "\n", kept.n, kept.s, kept.resolution, kept.eccentricity);
    }
}

static void print_listing(const char *which, const uint64_t *codes, uint64_t count, uint64_t size) {
    printf("coverage_compare: P(34(1)) and P(4): %s ->", which);
    for (uint64_t i = 0; i < count; i++)
        printf(" %s", name_of(codes[i]).text);
    printf(", size %" PRIu64 "\n", size);
}

/* What you flew and I did not: two texts of one arrangement, which may be of two versions. Each listing is the fewest cells of its ground. */
static void crews(void) {
    static const uint8_t first[] = {'C', 'V', 'R', 0, 1, '0', '0', 'P', '(', '3', '4', '(', '1', ')', ')'};
    static const uint8_t second[] = {'C', 'V', 'R', 0, 2, '0', '0', 'b', 'P', '(', '4', ')'};
    static const uint8_t another[] = {'C', 'V', 'R', 0, 1, '1', '0', 'P', '(', '4', ')'};
    uint64_t firsts[96], seconds[96], boths[96];
    jgv_compare found = jgv_coverage_compare(first, sizeof first, second, sizeof second, firsts, 96, seconds, 96, boths, 96);
    expect_answer(found.refusal);
    print_listing("only the first", firsts, found.first_cells, found.first_size);
    print_listing("only the second", seconds, found.second_cells, found.second_size);
    print_listing("both", boths, found.both_cells, found.both_size);
    found = jgv_coverage_compare(first, sizeof first, another, sizeof another, firsts, 96, seconds, 96, boths, 96);
    printf("coverage_compare: P(34(1)), n 0, and P(4), n 1 -> refused with %" PRIu64 "\n", found.refusal);
}

static uint64_t number_at(const uint8_t *bytes) {
    uint64_t number = 0;
    for (int i = 7; i >= 0; i--)
        number = number << 8 | bytes[i];
    return number;
}

static void print_told(const char *what, jgv_sheet told) {
    printf("sheet_check: %s -> ", what);
    if (told.refusal)
        printf("refused with %" PRIu64 " at place %" PRIu64 "\n", told.refusal, told.place);
    else if (told.right)
        printf("yes\n");
    else
        printf("no, record %" PRIu64 "\n", told.record);
}

/* A partner's neighbour sheet: for each whole cell a record of five numbers, its code and its neighbours' up, right, down and left, low byte first. */
static void sheets(void) {
    static const uint8_t text[] = {'C', 'V', 'R', 0, 1, '0', '0', 'P', '(', '3', '4', '(', '1', ')', ')'};
    static const uint8_t empty_list[] = {'C', 'V', 'R', 0, 1, '0', '0', 'O', '(', ')'};
    uint8_t sheet[80], exchanged[80];
    jgv_sheet_length written = jgv_sheet_write(text, sizeof text, sheet, sizeof sheet);
    expect_answer(written.refusal);
    printf("sheet_write: P(34(1)) ->");
    for (size_t at = 0; at < written.length; at += 8)
        printf("%s %s", at && at % 40 == 0 ? "," : "", name_of(number_at(sheet + at)).text);
    printf("\n");
    for (size_t i = 0; i < sizeof sheet; i++)
        exchanged[i] = sheet[i < 48 || i >= 64 ? i : i < 56 ? i + 8 : i - 8]; /* up and right of P41 */
    print_told("P(34(1)), as written", jgv_sheet_check(text, sizeof text, sheet, sizeof sheet));
    print_told("P(34(1)), two neighbours of P41 exchanged", jgv_sheet_check(text, sizeof text, exchanged, sizeof exchanged));
    print_told("P(34(1)), the record of P41 missing", jgv_sheet_check(text, sizeof text, sheet, 40));
    print_told("P(34(1)), the record of P41 broken off", jgv_sheet_check(text, sizeof text, sheet, 79));
    print_told("O(), as written for P(34(1))", jgv_sheet_check(empty_list, sizeof empty_list, sheet, sizeof sheet));
}

/* A hand-edited text: O3 behind P, O3 twice, nine whole siblings left standing, and an empty list. */
static void edited_by_hand(void) {
    static const uint8_t text[] = {'C', 'V', 'R', 0, 1, '0', '0', 'P', 'O', '(', '3', '3', ')', 'Q', '(', '0', '1', '2', '3', '4', '5', '6', '7', '8', ')', 'S', '(', ')'};
    static const uint8_t open_list[] = {'C', 'V', 'R', 0, 1, '0', '0', 'O', '(', '3'};
    uint8_t proper[sizeof text];
    uint64_t changed[4 * sizeof text];
    jgv_rescue rescued = jgv_coverage_rescue(text, sizeof text, proper, sizeof proper, changed, 4 * sizeof text);
    expect_answer(rescued.refusal);
    printf("coverage_rescue: PO(33)Q(012345678)S() -> %.*s;", (int)(rescued.length - 7), (const char *)proper + 7);
    for (uint64_t i = 0; i < rescued.changes; i++)
        printf("%s %" PRIu64 " kind %" PRIu64, i ? "," : "", changed[2 * i], changed[2 * i + 1]);
    printf("\n");
    rescued = jgv_coverage_rescue(open_list, sizeof open_list, proper, sizeof proper, changed, 4 * sizeof text);
    printf("coverage_rescue: O(3 -> refused with %" PRIu64 " at place %" PRIu64 "\n", rescued.refusal, rescued.place);
}

/* A summary kept beside the text: dispatch asks whether a cell of resolution 0 to 2 is done, and the counters answer as the text would. */
static void dispatch(void) {
    static const uint8_t text[] = {'C', 'V', 'R', 0, 1, '0', '0', 'P', '(', '3', '4', '(', '1', ')', ')'};
    static const char *const asked[] = {"P3", "P41", "P4", "P418"};
    jgv_summary_answer kept = jgv_summary(text, sizeof text);
    expect_answer(kept.refusal);
    uint64_t done = 0, sum = 0;
    for (size_t i = 0; i < 486; i++) {
        done += kept.counters[i] == UINT64_C(2541865828329); /* 9^13 */
        sum += kept.counters[i];
    }
    printf("summary: P(34(1)) -> n %" PRIu64 ", s %" PRIu64 ", %" PRIu64 " districts done, sum %" PRIu64 "\n", kept.n, kept.s, done, sum);
    for (size_t i = 0; i < 4; i++) {
        jgv_summary_ask_answer answer = jgv_summary_ask(kept.n, kept.s, kept.counters, code_of(asked[i]));
        printf("summary_ask: P(34(1)), %s -> ", asked[i]);
        if (answer.refusal)
            printf("refused with %" PRIu64 "\n", answer.refusal);
        else
            puts(answer.covered ? "yes" : "no");
    }
}

int main(void) {
    codes_and_names();
    batches();
    families();
    shapes();
    plane();
    ground();
    neighbours();
    corners();
    coverage();
    additions();
    two_arrangements();
    handhelds();
    plotter();
    office();
    crews();
    sheets();
    edited_by_hand();
    dispatch();
    return 0;
}

/* Jeguarivo: the rHEALPix grid with three cells to a side, resolutions 0 to 15, in all sixteen arrangements of the caps.
 *
 * Every entry takes any numbers and any bytes, and returns. An answer's first field is `refusal`: 0, or the number that says what was
 * wrong; every other field is 0 then (but `place` with 9), and no lent byte is changed. Read `refusal` first: 0 is also the code of the
 * cell N at n = s = 0. A pointer whose length or room is 0 may be null. Memory that an entry writes must not overlap memory that it reads.
 *
 * A code says its cell and its arrangement: it is 16 times the number (face x 9^15 + path x 9^(15-k)) x 16 + k of the cell, where path is
 * the digits of its name read in base nine and k the resolution, plus 4n + s. Codes of two arrangements are never equal; among cells of
 * one arrangement the order of codes is the byte order of names. The greatest code is 316,248,778,897,380,863. Names say no arrangement.
 *
 *    1  face above 5, empty name, first byte not N to S
 *    2  resolution above 15, name over 16 bytes, depth above 15
 *    3  later name byte not 0 to 8, row or column not below 3^resolution, child digit above 8, direction above 3
 *    4  a code is no cell's
 *    5  n or s above 3
 *    6  longitude, z, sine or eccentricity out of range
 *    7  planar point outside the image
 *    8  lent buffer shorter than the answer
 *    9  text not of the grammar; `place` is then the length of the longest leading part that some accepted text of either version begins with
 *   10  five bytes or more, mark right, version neither 1 nor 2; a version neither 1 nor 2 asked of the writer
 *   11  list not strictly rising, or one cell inside another
 *   12  parent at resolution 0, child at 15
 *   13  text longer than 65,536 bytes, read or to be written
 *   14  a question or a cell to add of another arrangement than the text's heading has, or a list with a code of another arrangement than
 *       the asked one, or two texts whose headings differ in n or s
 *   15  list, or text with a cell, outside the profile of version 2: the fewest cells of its ground hold a part of N or S, or one deeper than
 *       the asked depth or the text's
 *   16  a change of settings that was not made from the newest revision
 *   17  a change of settings past revision 65,535
 *   18  a revision of settings that is dropped or not yet made
 *   19  a face side in metres out of range or not a number, a frame handed in with an edge that is not a number
 *
 * Where several apply, the order is 19, 5, 2, 1, 3, 4, 6, 7, 12, 13, 10, 9, 14, 11, 15, 8, 18, 16, 17; in
 * writing 13 comes after 15; jgv_coverage_add has its own order. Faces 0 to 5 are N, O, P, Q, R, S; N lies above face n of O to R and S below
 * face s, both from 0 to 3.
 *
 * A coverage text is a heading and a body: the mark `CVR`, the version in two bytes (00 01 or 00 02), n and s as digits, at version 2 one
 * letter a to p for the greatest depth 0 to 15, and the whole cells as faces with lists of digits. At version 2, for handhelds, N and S
 * stand only whole and nothing lies deeper than that depth; version 1 is depth 15 with N and S divided like the others.
 */
#ifndef JEGUARIVO_H
#define JEGUARIVO_H

#include <stddef.h>
#include <stdint.h>

#ifdef __cplusplus
extern "C" {
#endif

typedef struct { uint64_t refusal, code; } jgv_code;
typedef struct { uint64_t refusal, n, s, face, resolution, row, column; } jgv_cell;
typedef struct { uint64_t refusal, n, s, length; } jgv_name;
typedef struct { uint64_t refusal, length; } jgv_length;
typedef struct { uint64_t refusal, size; } jgv_size_answer;
typedef struct { uint64_t refusal, shape; } jgv_shape_answer;
typedef struct { uint64_t refusal, count; } jgv_count;
typedef struct { uint64_t refusal; int64_t left, top, side; } jgv_square_answer;
typedef struct { uint64_t refusal; int64_t x, y; } jgv_point;
typedef struct { uint64_t refusal; int64_t x[4], y[4]; } jgv_vertices_answer;
typedef struct { uint64_t refusal; int64_t longitude, z; } jgv_fix;
typedef struct { uint64_t refusal; int64_t z; } jgv_z;
typedef struct { uint64_t refusal, place, version, depth, n, s, cells, size; } jgv_check;
typedef struct { uint64_t refusal, place, count; } jgv_list;
typedef struct { uint64_t refusal, place, covered, settled; } jgv_ask;
typedef struct { uint64_t refusal, place, length; } jgv_add;
typedef struct { uint64_t refusal, kind; double numbers[4]; } jgv_mark_answer;
typedef struct { double left, bottom, right, top; } jgv_frame;
typedef struct { uint64_t refusal; double left, bottom, right, top; } jgv_frame_answer;
typedef struct { uint64_t refusal, place, first_cells, second_cells, both_cells, first_size, second_size, both_size; } jgv_compare;
typedef struct { uint64_t refusal, place, length, changes; } jgv_rescue;
typedef struct { uint64_t refusal, place, right, record; } jgv_sheet;
typedef struct { uint64_t refusal, place, length; } jgv_sheet_length;
typedef struct { uint64_t refusal, place, n, s, counters[486]; } jgv_summary_answer;
typedef struct { uint64_t refusal, covered; } jgv_summary_ask_answer;

/* Settings: an arrangement, the working resolution, and the squared eccentricity, from 0 to 10,000,000,000 in units of 10^-12. */
typedef struct { uint64_t n, s, resolution, eccentricity; } jgv_settings;
/* Settings with their past: the newest revision, and what was accepted under the last 32; revision r stands at r modulo 32. */
typedef struct { uint64_t newest; jgv_settings kept[32]; } jgv_history;
typedef struct { uint64_t refusal; jgv_history history; } jgv_history_answer;
typedef struct { uint64_t refusal; jgv_settings settings; } jgv_settings_answer;

/* The code of a cell in an arrangement. Refusals 5, 2, 1, 3. */
jgv_code jgv_cell_code(uint64_t n, uint64_t s, uint64_t face, uint64_t resolution, uint64_t row, uint64_t column);

/* The arrangement and the cell of a code. Refusal 4. */
jgv_cell jgv_code_cell(uint64_t code);

/* The same of many codes, three levels at a time: for each code the seven numbers that jgv_code_cell answers, in the order of jgv_cell, so an
 * array of jgv_cell can be lent; room is counted in numbers. A code that is no cell's has its 4 in its own place, and the batch goes on. `count` is
 * the number of codes. Refusal 8, and then nothing is changed. */
jgv_count jgv_code_cells(const uint64_t *codes, size_t count, uint64_t *numbers, size_t room);

/* The codes of many cells, of six numbers each (n, s, face, resolution, row, column; up to five numbers behind the last cell are none): for each the
 * two numbers that jgv_cell_code answers, in the order of jgv_code. A cell that is refused has its number in its own place. `count` and `room` count
 * the numbers lent, six and two a cell; `count` in the answer is the number of cells. Refusal 8, and then nothing is changed. */
jgv_count jgv_cell_codes(const uint64_t *numbers, size_t count, uint64_t *codes, size_t room);

/* The code of a name in an arrangement: a face letter and a digit 0 to 8 for each resolution. Refusals 5, 2, 1, 3. */
jgv_code jgv_name_code(uint64_t n, uint64_t s, const uint8_t *name, size_t length);

/* The arrangement and the name of a code; the name is written to the first bytes of `name` (16 are always enough; no zero byte follows).
 * Refusals 4, 8. */
jgv_name jgv_code_name(uint64_t code, uint8_t *name, size_t room);

/* The parent of a cell, in its arrangement. Refusals 4, 12. */
jgv_code jgv_parent(uint64_t code);

/* The child of a cell, in its arrangement: 0 is top left, 8 bottom right. Refusals 3, 4, 12. */
jgv_code jgv_child(uint64_t code, uint64_t digit);

/* The number of finest cells, those of resolution 15, in a cell. Refusal 4. */
jgv_size_answer jgv_size(uint64_t code);

/* The shape of a cell: quad 0, cap 1, dart 2, skew quad 3. Refusal 4. */
jgv_shape_answer jgv_shape(uint64_t code);

/* How many cells meet a cell at a corner only: none at resolution 0; above that 3 for a cell in a corner of its face (row and column each
 * first or last), and 4 for every other. Refusal 4. */
jgv_count jgv_corner_count(uint64_t code);

/* The codes of those cells, of the code's arrangement, in rising order, written to the first of `codes` (4 are always enough): the
 * neighbours of at least two of the cell's neighbours that are neither the cell nor a neighbour of it. Refusals 4, 8. */
jgv_count jgv_corner_cells(uint64_t code, uint64_t *codes, size_t room);

/* The square of a cell in the plane. Here and in the next three a face side is 28,697,814 units; x runs east from the left edge of O, y up
 * from the equator. Refusal 4. */
jgv_square_answer jgv_square(uint64_t code);

/* The middle of a cell in the plane. Refusal 4. */
jgv_point jgv_nucleus(uint64_t code);

/* The corners of a cell in the plane: top left, top right, bottom right, bottom left. Refusal 4. */
jgv_vertices_answer jgv_vertices(uint64_t code);

/* The cell of a resolution that owns a point of the plane. Refusals 5, 2, 7. */
jgv_code jgv_point_code(uint64_t n, uint64_t s, uint64_t resolution, int64_t x, int64_t y);

/* The cell of a resolution in which a fix lies, found with no rounding: a longitude from -1,800,000,000 to 1,800,000,000 in units of 10^-7
 * degree, where both ends are the antimeridian and get the same cell, and z, the sine of the authalic latitude, from -10^18 to 10^18 in units
 * of 10^-18. Refusals 5, 2, 6. */
jgv_code jgv_fix_code(uint64_t n, uint64_t s, uint64_t resolution, int64_t longitude, int64_t z);

/* z from a geodetic latitude: `sine` is its sine, from -10^18 to 10^18 in units of 10^-18, and `eccentricity` the squared eccentricity of the
 * ellipsoid, from 0 to 10,000,000,000 in units of 10^-12 (WGS84: 6,694,379,990). The answer is within one unit of the exact authalic sine, odd
 * in the sine and never falling as it rises; exact at the equator, at both poles and with eccentricity 0. Refusal 6. */
jgv_z jgv_geodetic_z(int64_t sine, uint64_t eccentricity);

/* The cell of a resolution in which a fix with a geodetic latitude lies: jgv_fix_code with the z of jgv_geodetic_z. Refusals 5, 2, 6. */
jgv_code jgv_geodetic_code(uint64_t n, uint64_t s, uint64_t resolution, int64_t longitude, int64_t sine, uint64_t eccentricity);

/* The longitude and z of a cell's middle on the ground, each floored to a whole unit: a fix that lies in that cell. Refusal 4. */
jgv_fix jgv_ground_nucleus(uint64_t code);

/* The neighbour of a cell, in its arrangement: direction 0 is up, 1 right, 2 down, 3 left. Refusals 3, 4. */
jgv_code jgv_neighbour(uint64_t code, uint64_t direction);

/* Checks a coverage text: the heading's version, depth (15 at version 1), n and s, the number of its whole cells and the sum of their sizes.
 * Refusals 13, 10, 9. */
jgv_check jgv_coverage_check(const uint8_t *text, size_t length);

/* The codes of a text's whole cells, of its heading's arrangement, in rising order, written to the first of `codes`. A text has fewer whole
 * cells than bytes, so a room of `length` is enough. Refusals 13, 10, 9, 8. */
jgv_list jgv_coverage_list(const uint8_t *text, size_t length, uint64_t *codes, size_t room);

/* The coverage text, of version 1 or 2, of rising codes of the arrangement (n, s), none inside another, with nine whole siblings merged
 * upwards. At version 2 the merged cells must keep to the depth and leave N and S whole, so N0 to N8 pass as N; at version 1 the depth is
 * tested and not used. A room of 65,536 bytes is always enough. Refusals 5, 2, 4, 10, 14, 11, 15, 13, 8. */
jgv_length jgv_coverage_write(uint64_t version, uint64_t depth, uint64_t n, uint64_t s, const uint64_t *codes, size_t count, uint8_t *text,
                              size_t room);

/* Whether a text covers all finest cells of a cell of its arrangement: 1 or 0; and how many letters and digits of the text settle that: those whose
 * cells' codes are not above `code`, whole or not, and one more if a later one stands in the text. Any other accepted text with the same heading that has
 * the same bytes through the last of these, and as many of them, gives the same answer. Refusals 4, 13, 10, 9, 14. */
jgv_ask jgv_coverage_ask(const uint8_t *text, size_t length, uint64_t code);

/* Adds a cell of its arrangement to the text that the first `length` of `room` bytes are: they become the accepted text of the old ground and
 * the cell, with the same heading, and its length is answered. In place: one run of bytes is taken out or put in, or, where the cell is
 * covered, none. The text grows by at most 46 bytes. At version 2 a cell that is not covered is refused with 15 where it is deeper than the
 * depth or a part of N or S. Refusals 4; 13 and 8 of `length`; 10, 9, 14; 15, 13, 8 of the text with the cell. */
jgv_add jgv_coverage_add(uint8_t *text, size_t room, uint64_t length, uint64_t code);

/* A mark for the plotter at a point of the plane, in metres: kind 1, `numbers` x, y, 0, 0. Here and in the next three `side` is the face side
 * in metres, from 1 to 2^30. Each number is the planar number times the side, then divided by 28,697,814, each step rounded once: within one
 * part in 2^51 of the exact quotient, and 0 for 0. Beside a refusal the kind is 0. Refusals 19, 5, 7. */
jgv_mark_answer jgv_mark_point(double side, uint64_t n, uint64_t s, int64_t x, int64_t y);

/* A mark for the plotter of a cell, in metres: kind 2, a box; `numbers` left, bottom, right, top, the edges of the cell's square. Refusals 19,
 * 4. */
jgv_mark_answer jgv_mark_code(double side, uint64_t code);

/* The first frame: a cell's box, in metres. Refusals 19, 4. */
jgv_frame_answer jgv_frame_first(double side, uint64_t code);

/* A frame grown to hold the box of a further cell, in metres: each edge becomes the one further out, on a tie the frame's, as -0.0 stays beside
 * 0.0. An infinite edge is a number. Refusals 19, 4. */
jgv_frame_answer jgv_frame_grow(double side, jgv_frame frame, uint64_t code);

/* A history whose revision 0 is these settings. It is a value, handed from call to call: each change answers the next one. A history that no such
 * calls made gets some answer. Refusals 5, 2, 6. */
jgv_history_answer jgv_settings_fresh(uint64_t n, uint64_t s, uint64_t resolution, uint64_t eccentricity);

/* The history with these settings as a new revision. `revision` is the one that the change was made from, which must be the newest. The
 * thirty-third revision drops the oldest. A refused change answers the history that it was given. Refusals 5, 2, 6, 16, 17. */
jgv_history_answer jgv_settings_change(jgv_history history, uint64_t revision, uint64_t n, uint64_t s, uint64_t resolution, uint64_t eccentricity);

/* The same with the settings of a kept revision, `wanted`. Refusals 18, 16, 17. */
jgv_history_answer jgv_settings_back(jgv_history history, uint64_t revision, uint64_t wanted);

/* What was accepted under a kept revision. Refusal 18. */
jgv_settings_answer jgv_settings_read(jgv_history history, uint64_t revision);

/* What two texts of one arrangement cover, each as the fewest cells in rising order: only the first to `firsts`, only the second to
 * `seconds`, both to `boths`; how many cells each listing has, and the sum of their sizes. First only and both add up to the first text's
 * size, second only and both to the second's. The texts may differ in version and depth. Refusals: 13, 10, 9 of the first text, then of the
 * second, 14 where n or s differ, 8 where any room is short. */
jgv_compare jgv_coverage_compare(const uint8_t *first, size_t first_length, const uint8_t *second, size_t second_length, uint64_t *firsts,
                                 size_t first_room, uint64_t *seconds, size_t second_room, uint64_t *boths, size_t both_room);

/* The proper text of a hand-edited one, to the first bytes of `proper`: the accepted text of the same ground, never longer than `text`. The body may
 * have letters and digits out of order or twice, nine whole siblings left standing, and empty lists, which cover nothing; the heading is that of
 * version 1. What was changed goes to `changed`, two numbers a change: its place in `text`, from 0, and its kind, in order of place and then kind.
 * Kind 1 is a letter or digit that names a whole cell named whole earlier, or one inside a larger whole cell named anywhere; 2 one not above the one
 * right before it in the same list or body; 3 the opening bracket of an empty list; 4 the first letter or digit standing for a cell that is whole in
 * the answer and nowhere named whole. There are no changes exactly for a proper text, which comes back unchanged. Four numbers for each byte are
 * always room enough. It needs some 1.3 million bytes of stack. Refusals 13, 10 (also for version 2), 9 with the place in the looser form, 8 for
 * either room. */
jgv_rescue jgv_coverage_rescue(const uint8_t *text, size_t length, uint8_t *proper, size_t room, uint64_t *changed, size_t changed_room);

/* Checks a partner's neighbour sheet for a coverage text. A sheet has one record of 40 bytes for each whole cell: its code and the codes of its
 * neighbours up, right, down, left, each a 64-bit number, low byte first. `right` is 1 exactly where the records stand in rising order, each
 * whole cell has one, no other has any, and all neighbours are right; `record` is 0 then. Otherwise `right` is 0, and `record` is the number,
 * from 0, of the first record that is not the one our rules put there: a missing one at the end has the number of records, and one that is
 * broken off is a wrong one. A sheet may be of any length. Refusals 13, 10, 9, those of the text. */
jgv_sheet jgv_sheet_check(const uint8_t *text, size_t length, const uint8_t *sheet, size_t sheet_length);

/* The neighbour sheet of a coverage text by our rules, to the first bytes of `sheet`: 40 for each whole cell that jgv_coverage_check counts. It
 * always passes jgv_sheet_check. Refusals 13, 10, 9, 8. */
jgv_sheet_length jgv_sheet_write(const uint8_t *text, size_t length, uint8_t *sheet, size_t room);

/* A summary to be kept beside a text: the heading's n and s, and for each cell of resolution 2, in code order, the number of covered finest
 * cells inside it, 9^13 where all are. The counters add up to the size of jgv_coverage_check. Refusals 13, 10, 9. */
jgv_summary_answer jgv_summary(const uint8_t *text, size_t length);

/* Whether all finest cells of a cell of resolution 0 to 2 are covered, by a summary that is kept: 1 where each of the 486 counters inside the
 * cell is 9^13, else 0. Of a text's own summary the answer is that of jgv_coverage_ask. Refusals 5, 4, 2 where the cell is finer, 14. */
jgv_summary_ask_answer jgv_summary_ask(uint64_t n, uint64_t s, const uint64_t counters[486], uint64_t code);

#ifdef __cplusplus
}
#endif

#endif

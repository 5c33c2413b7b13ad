/*
 * The C interface of Hinthevoun. Link target/staticlib/libexports.a, written by `tools/staticlib exports`; it asks for no
 * other library, not even C's. `tools/library` writes libhinthevoun.so beside it, with the same functions.
 *
 * Every function answers for every argument. None keeps state, allocates, touches memory that it is not lent or reports
 * errors in another way than by its answer. Results are meant bit for bit, with one exception: a float answer that is
 * not a number is some NaN, and which one is not promised. The rounding mode must be the default, to the nearest, and
 * subnormal numbers must not be flushed to zero.
 */
#ifndef HINTHEVOUN_H
#define HINTHEVOUN_H

#include <stddef.h>
#include <stdint.h>

#ifdef __cplusplus
extern "C" {
#endif

/*
 * Roots: the float nearest to the exact root, and of two equally near the one whose last digit is even.
 */

/* The square root. Of -0 it is -0, of anything below zero NaN, of +infinity +infinity. */
float hinth_sqrt(float x);

/*
 * The square root of x*x + y*y, with no overflow on the way. It is +infinity if x or y is infinite, whatever the other
 * one, also NaN; otherwise NaN if one is NaN; +infinity if the nearest float would lie past the largest; +0 if both are
 * zeros.
 */
float hinth_hypot(float x, float y);

/* The cube root, with the sign of x. Zeros and infinities are their own cube roots. */
float hinth_cbrt(float x);

/* The cube root of x*x. Of either zero it is +0, of anything below zero NaN, of +infinity +infinity. */
float hinth_two_thirds(float x);

/*
 * The value of the IEEE 754 binary16 in the low 16 bits of the word, exactly: subnormals, infinities and both zeros
 * included. The upper 16 bits are ignored.
 */
float hinth_half(uint32_t word);

/*
 * Trigonometry: fixed sequences of float operations, each rounded once, the same on every processor; a large angle is
 * first reduced in whole numbers. A NaN argument gives NaN. Angles are in radians; pi is the float 0x40490fdb.
 */

/*
 * The sine and the cosine: from -1 to 1, the sine odd and the cosine even bit for bit. An infinite angle gives NaN. Of
 * every finite angle, also of size over 1024, which is reduced by pi to as many digits as that takes, they lie within
 * 0.000001 of the true value: all floats were tried, and the worst is off by less than 0.00000015.
 */
float hinth_sin(float x);
float hinth_cos(float x);

/*
 * The angle of the point (x, y), from -pi to pi, with the sign of y. The zeros and infinities are as in C's atan2f: in
 * particular either zero for y over a positive x gives that zero.
 */
float hinth_atan2(float y, float x);

/* The angle with that sine, from -pi/2 to pi/2, with the sign of x. Outside -1 to 1 it is NaN. */
float hinth_asin(float x);

/* The angle with that cosine, from 0 to pi. Outside -1 to 1 it is NaN. */
float hinth_acos(float x);

/*
 * Paths: from the tags, points, transforms and styles of a scene to lines. docs/SCENE.md says how to write a scene; in
 * short:
 *
 * A tag is a byte, four to a word, the lowest first. 0x03 is its type (0 no segment, 1 line, 2 quadratic, 3 cubic),
 * 0x04 ends a subpath, 0x08 says f32 points and not i16, 0x10 ends a path, 0x20 and 0x40 begin the next transform and
 * style. A tag belongs to the path, transform and style that the tags before it have come to. Behind the last tag are
 * zeros.
 *
 * A segment has as many points behind its start as its type says; its start is the end of the one before, stored once.
 * A subpath's last segment takes one point more, so that the next begins with its own start. An i16 point is one word,
 * x in the low half; an f32 point is two.
 *
 * A transform is six f32: a, b, c, d, e, f take (x, y) to (a*x + c*y + e, b*x + d*y + f). A style is two words, flags
 * and the line width as f32. Flags: 0x80000000 stroke, 0x40000000 even-odd, 0x30000000 join (0 bevel, 0x10000000
 * miter, 0x20000000 round), 0x0c000000 start cap (0 butt, 0x04000000 square, 0x08000000 round), 0x03000000 end cap (0
 * butt, 0x01000000 square, 0x02000000 round), the low 16 bits the miter limit as a binary16.
 *
 * A stroked subpath ends with a marker, which has the end bit. Of an open one it is a quadratic: the subpath's start
 * again, and a point in the direction in which it began. Of a closed one it is a line to such a point.
 *
 * A list is lent as a pointer to its first element and then its number of elements: bytes for the lists of uint8_t,
 * words for those of uint32_t, int32_t and uint64_t, records for the boxes. The pointer must be aligned and must not be
 * null, also where the number is 0. A list that is written must not overlap another one. `const` lists are only read.
 *
 * The result is 0 if the call was accepted, or the number of its refusal:
 *
 *   1  the tag base or the data base lies past the scene's end
 *   2  a read of the scene falls outside it, or an address passes 2^32 - 1
 *   3  a prefix that a tag needs is not lent
 *   4  a path tag names a box that is not lent
 *   5  a line would have a coordinate that is not a number; hinth_flatten tells at which end
 *   6  there is no room for the next line, or the count of lines would be 2^32
 *   7  a join is drawn and the style's two join bits are 3
 *   8  the count of a curve's pieces is not a number
 *   9  the transform of a segment has a NaN or an infinity among its six numbers; no line of that segment is stored
 */

/*
 * Fills the prefixes that hinth_flatten needs, one for each word of tags: four words (path, transform, style, data),
 * the sums over the tags in the words from tag_base on and before that one. As many whole prefixes are filled as
 * prefix_words has room for and as there are words in the scene from tag_base on; words behind them are not touched.
 *
 * The result is 0, or 1 if tag_base is past scene_len; then no prefix is filled. out[0] is the count of prefixes
 * filled; if out_len is 0 it is not written. Nothing else of out is ever written.
 */
uint32_t hinth_scan(const uint32_t *scene, size_t scene_len, uint32_t tag_base, uint32_t *prefixes, size_t prefix_words,
                    uint64_t *out, size_t out_len);

/*
 * The box of a path: what its lines lie within, floors at x0 and y0, ceilings at x1 and y1; the draw flags (1 for the
 * even-odd rule, else 0); and the index of its transform.
 */
struct hinth_box {
    int32_t x0, y0, x1, y1;
    uint32_t draw_flags, trans_ix;
};

/*
 * Writes the lines of 256 * n_wg tags, one tag after the other. The tags stand in the scene from the word tag_base on,
 * four to a word, the points from data_base on, transforms of six words from transform_base and styles of two from
 * style_base. The prefixes are those of hinth_scan for the same scene and tag_base.
 *
 * A line is six words: its path, the index of the tag that drew it (modulo 2^32, as out[0] counts them; lines of a join
 * or a cap have the tag being drawn), and the bits of the floats x and y of its start and of its end. Lines are stored
 * from lines[0] on; room is for line_words / 6 of them, and words behind the last one stored are not touched. A subpath
 * that the scene leaves open is not closed.
 *
 * The box that a path's index names, if it is lent, is widened by the box of what each of its tags drew, where that has
 * extent; a path tag stores draw flags and transform index there. A box is widened and never reset: give x0 and y0 as
 * INT32_MAX and x1 and y1 as INT32_MIN to begin with.
 *
 * out[0] is the index of the tag in turn at a refusal, 0 if accepted or for refusal 1; out[1] is the count of whole
 * lines stored. If out_len is under 2 neither is written. out[2], where out_len is 3 or more, says which end of the
 * line is not a number at refusal 5: 1 its start (then its end may be none too), 2 its end alone; 0 at any other answer.
 * Start and end are those of the line as it would be stored. Nothing else of out is ever written. At a refusal the
 * lines stored stand, and the boxes hold what the tags before the one in turn did, with flags and transform index of
 * that one if it had stored them.
 */
uint32_t hinth_flatten(uint32_t n_wg, uint32_t tag_base, uint32_t data_base, uint32_t transform_base,
                       uint32_t style_base, const uint32_t *scene, size_t scene_len, const uint32_t *prefixes,
                       size_t prefix_words, struct hinth_box *boxes, size_t n_boxes, uint32_t *lines, size_t line_words,
                       uint64_t *out, size_t out_len);

/*
 * Lists of lines: six words a record, as hinth_flatten stores them, by whoever made them.
 *
 * Checks a list of at most 2,000 records and changes nothing of it. It is sound exactly when no coordinate is a NaN or
 * an infinity and, for each path number separately, every point is a start as often as an end; +0 and -0 are one. The
 * second word of a record is ignored, and an empty list is sound. What the library draws for closed fills of one path
 * each, up to 2,000 lines, passes where its coordinates are finite.
 *
 * The result is 0 if the list was looked at, or the number of its refusal, the first that holds:
 *
 *   50  the list has more than 2,000 whole records
 *   51  its number of words is not a multiple of six
 *
 * out[0] is 0 for a sound list, 1 where a record has a bad number, 2 where none has and a record has its start or its end
 * out of balance in its path; out[1] is the first such record, counted from 0. Both are 0 at a refusal. If out_len is
 * under 2 neither is written. Nothing else of out is ever written.
 */
uint32_t hinth_check(const uint32_t *list, size_t list_words, uint64_t *out, size_t out_len);

/*
 * Old sheets: tag bytes, as many as there are, and point words.
 *
 * A tag counts point words where its type or its end bit is not zero: as many points as its type says, and one more for
 * the end bit. hinth_to_f32 sets bit 0x08 in each such tag and writes its points as two f32 words each, where they were
 * one word of two i16. hinth_to_i16 goes back: it clears the bit and writes one word a point. Every other bit, every tag
 * that counts nothing, and the order stay. Tags and words go to the front of the lent buffers, and nothing behind them is
 * written. The sheet is only read, and looked through whole before a word is written: a refusal changes nothing.
 *
 * The result is 0, or the number of the first of these that holds:
 *
 *   40  a tag that counts points has the wanted kind already: out[2] is its index
 *   43  a counted point word is not there: out[2] is the index of the first that is missing
 *   41  (to i16) a counted coordinate is no whole number from -32768 to 32767, or is -0: out[2] is the index of its word
 *   42  no room for the tags or the points
 *
 * out[0] and out[1] are how many tags and point words were written, 0 at a refusal; out[2] is 0 where there is nothing to
 * tell. If out_len is under 3 none is written. Nothing else of out is ever written.
 *
 * Back from what hinth_to_f32 wrote are the old bytes and words. A sheet that was moved and is scanned afresh flattens to
 * the same lines and boxes, bit for bit, under the conditions that docs/SHEETS.md lists.
 */
uint32_t hinth_to_f32(const uint8_t *tags, size_t n_tags, const uint32_t *points, size_t point_words, uint8_t *new_tags,
                      size_t new_tag_room, uint32_t *new_points, size_t new_point_room, uint64_t *out, size_t out_len);

uint32_t hinth_to_i16(const uint8_t *tags, size_t n_tags, const uint32_t *points, size_t point_words, uint8_t *old_tags,
                      size_t old_tag_room, uint32_t *old_points, size_t old_point_room, uint64_t *out, size_t out_len);

/*
 * The profile for lay-up sheets: a test of a scene before it is flattened. Layout, scene and prefixes are those of
 * hinth_flatten, and are only read. It reads what hinth_flatten reads for the 256 * n_wg tags, as if every path had a box,
 * and draws nothing. The result is 0 where the scene passes. Else it is, wherever among the tags it arises first,
 *
 *   1, 2, 3  as hinth_flatten's reads give them, those for the widths and neighbours of strokes too; 9 is not told
 *
 * or else, of the first tag that breaks a rule, the first rule that it breaks:
 *
 *   70  a segment or a path tag has a stroke style
 *   71  a segment or a path tag has a style with the even-odd bit
 *   72  a segment's points are not f32
 *   73  a segment's transform is not, word for word, that of the first segment; or its second or third number is not zero
 *   74  a tag with no segment has an end bit; a segment with an end bit does not end on its subpath's first point, compared
 *       as numbers; or a segment is the last of the tags and has no end bit
 *   75  4,096 segments stand before a segment
 *
 * out[0] is the tag at a refusal, else 0; out[1] and out[2] are how many segments and subpaths passed, 0 at a refusal. If
 * out_len is under 3 none is written. Nothing else of out is ever written.
 *
 * Where a scene passes with the prefixes of a fresh hinth_scan, and hinth_flatten accepts it with these, in the lines of
 * each subpath every point is a start exactly as often as an end; each segment belongs to one subpath.
 */
uint32_t hinth_profile(uint32_t n_wg, uint32_t tag_base, uint32_t data_base, uint32_t transform_base, uint32_t style_base,
                       const uint32_t *scene, size_t scene_words, const uint32_t *prefixes, size_t prefix_words,
                       uint64_t *out, size_t out_len);

/*
 * Cuts for the knife table: HP-GL files. A file is the three bytes `IN;`, then chains, none or more: a `PU` to the start of
 * the chain and one `PD` or more, each to the end of a line, as in `IN;PU0,2;PD-5,0;PD1,1;`. Numbers are decimal,
 * without a leading zero; zero has no sign. There is no space and no line end anywhere. The old table takes numbers from
 * -32767 to 32767, the new one from -8388608 to 8388607.
 *
 * Writes the lines of one path, from the records of a list as hinth_flatten stores them, in their order. A new chain starts
 * whenever a line does not begin on the bits where the last line of the path ended. Coordinates are taken to the nearest
 * whole number, ties to even. Records of other paths do not matter, whatever they hold, nor does the second word of a
 * record, nor do words behind the last whole record. A path without lines is `IN;` alone.
 *
 * The result is 0, or the number of the refusal, which is decided command by command:
 *
 *   30  a coordinate of the command is a NaN or, rounded, outside -8388608 to 8388607
 *   31  the whole command has no room, or `IN;` has none
 *
 * out[0] is the count of bytes that stand: those of the file, or those before the refused command. out[1] is the record in
 * turn at a refusal, by its index in the whole list, else 0. Bytes behind those that stand are not touched. If out_len is
 * under 2 neither is written. Nothing else of out is ever written.
 */
uint32_t hinth_cut(const uint32_t *list, size_t list_words, uint32_t path, uint8_t *bytes, size_t n_bytes, uint64_t *out,
                   size_t out_len);

/*
 * Reads such a file back: its lines, four numbers each, x and y of the start and of the end. What hinth_cut accepted gives
 * the rounded lines of the path, in order. Room is for n_numbers / 4 lines. The reader is set to a table: 1 is the new one,
 * and any other number the old one.
 *
 * The result is 0, or the number of the refusal:
 *
 *   32  a number is outside the table's range
 *   33  a byte is not of the form, or the file stops short
 *   34  a whole PD has no room for its line
 *
 * out[0] is the count of lines that stand. out[1] is at 32 the start of that number, as soon as its digits pass the range; at
 * 33 the position of the first byte that is not of the form, n_bytes if the file stops short; at 34 the position of that
 * PD's P; else 0. Numbers behind the lines that stand are not touched. If out_len is under 2 neither is
 * written. Nothing else of out is ever written.
 */
uint32_t hinth_read_cut(const uint8_t *file, size_t n_bytes, uint32_t table, int32_t *lines, size_t n_numbers, uint64_t *out,
                        size_t out_len);

/*
 * Drawing: moves, lines, quadratics, cubics and ends become the tag bytes and the f32 point words of fills, in lent
 * buffers. docs/DRAWING.md shows a whole sheet. Transform, style and path tags stay with the caller: before the tags of
 * a path goes 0x20 and 0x40 where a new transform and a new style hold, and behind them 0x10; the tags are then packed
 * four to a word.
 *
 * The pen is HINTH_PEN words, lent with each command and written back when the command is accepted. Zeros are a fresh
 * pen. Its words, in order: what is open (0 nothing, 1 moved, anything else drawing), the bits of x and y of the open
 * subpath's first point and of its last, how many tag bytes and how many point words are written. Of the points' words
 * only the low 32 bits are looked at. A pen can be made up: what it counts is never read or written outside the buffers.
 *
 * A move or an end finishes the open subpath: where its last point differs from its first (+0 equals -0), a line to the
 * first point's bits is written; the end bit stands on the subpath's last segment. A move with no segment behind it
 * writes nothing, and so does an end with nothing open. The start of a subpath is written with its first segment.
 *
 * The result is 0 if the command was accepted, or the number of its refusal, the first of these; after a refusal the
 * pen and both buffers are as they were:
 *
 *   20  a line, quadratic or cubic with no move since the start or the last end
 *   22  a coordinate that is a NaN or an infinity
 *   21  no room for the tag and the points that this command itself writes, the closing line of a move or an end among
 *       them; or a pen that counts more than is lent; or, before all others, fewer than HINTH_PEN words lent as the pen
 */
#define HINTH_PEN 7

/* Begins a subpath at (x, y). */
uint32_t hinth_move(uint64_t *pen, size_t pen_len, float x, float y, uint8_t *tags, size_t tags_len, uint32_t *points,
                    size_t points_len);

/* A line to (x, y). */
uint32_t hinth_line(uint64_t *pen, size_t pen_len, float x, float y, uint8_t *tags, size_t tags_len, uint32_t *points,
                    size_t points_len);

/* A quadratic with the control point (x1, y1) to (x, y). */
uint32_t hinth_quad(uint64_t *pen, size_t pen_len, float x1, float y1, float x, float y, uint8_t *tags,
                    size_t tags_len, uint32_t *points, size_t points_len);

/* A cubic with the control points (x1, y1) and (x2, y2) to (x, y). */
uint32_t hinth_cubic(uint64_t *pen, size_t pen_len, float x1, float y1, float x2, float y2, float x, float y,
                     uint8_t *tags, size_t tags_len, uint32_t *points, size_t points_len);

/* Finishes the open subpath. The pen keeps its first and last point. */
uint32_t hinth_end(uint64_t *pen, size_t pen_len, uint8_t *tags, size_t tags_len, uint32_t *points,
                   size_t points_len);

/*
 * Imports path data of SVG: the absolute M, L, Q, C and Z of the standard, drawn by the commands above behind what the pen
 * has drawn. White space is tab, line feed, form feed, carriage return and space; between two numbers stands at most one
 * comma. A number has an optional sign, at most nine digits, and at most nine behind a point, which a digit follows; it
 * becomes the nearest f32, ties to even. The pairs behind an M's first are lines. Z and the end of the text are ends; behind
 * Z, a command other than M starts with a move to the closed subpath's first point. An empty text is one.
 *
 * The result is 0, or the number of the refusal that is met first as the text is read from left to right:
 *
 *   60  the text is not in that language
 *   61  a number with ten digits before the point or behind it
 *   21  no room for what a command itself writes, once its last number is read; or, before all else, fewer than HINTH_PEN
 *       words lent as the pen
 *
 * out[0] is at 60 the first byte after which no text of the language goes on, text_len if it stops short; at 61 the first
 * byte of the number, its sign included; at 21 the byte behind the command's last number, a Z's own byte, or text_len for
 * the end; else 0. It is written where out_len is at least 1, and nothing else of out ever is.
 *
 * What earlier commands wrote stands after a refusal. The pen is written back on every answer, and tells how far they
 * came; only a pen that is too short is not.
 */
uint32_t hinth_import(uint64_t *pen, size_t pen_len, const uint8_t *text, size_t text_len, uint8_t *tags, size_t tags_len,
                      uint32_t *points, size_t points_len, uint64_t *out, size_t out_len);

/*
 * The whole way: path data of SVG becomes the file for the knife table in one call, by the parts above, one after the other.
 * The text is drawn as hinth_import does with a fresh pen, into tags and points. The sheet of one path is written to the
 * front of the scene: the tags 0x20 and 0x40, what was drawn, 0x10, and zeros up to 256 * n_wg tags, where n_wg is the least
 * that has room; then the points, the six numbers of the transform, and the style 0, 0, a fill by the nonzero rule. It is
 * scanned into prefixes, tested against the profile for lay-up sheets, and flattened into lines, as path 0. The lines become
 * HP-GL as hinth_cut writes it, for a table: 1 is the new one, and any other number the old one. The bytes are written only
 * where the whole file can be; at any refusal they are as they were. Words of scene, prefixes and lines behind what each part
 * writes are not touched; the scan, the profile and the flattening are lent the whole scene.
 *
 * The result is 0, or the number of the refusal of the first part that refuses. out[0] is the count of bytes written, 0 at a
 * refusal; out[1] is the part that refused, else 0; out[2] is the place, in that part's own terms, else 0:
 *
 *   1 text      21, 60, 61     the byte of the text, as hinth_import tells it
 *   2 sheet     80             the scene has no room for the sheet: how many words that takes, 0 where they are 2^31 or more
 *   3 scan      1              0; it cannot arise, since the sheet begins at the scene's first word
 *   4 profile   1 to 3, 70-75  the tag, as hinth_profile tells it; tags 0 and 1 are the sheet's own
 *   5 flatten   1 to 9         the tag, as hinth_flatten tells it
 *   6 cut       30             the record: a coordinate is a NaN or, rounded, outside the table's range
 *               31             the record: a whole command has no room; 0 where `IN;` has none
 *
 * If out_len is under 3 none is written. Nothing else of out is ever written.
 */
uint32_t hinth_cut_text(const uint8_t *text, size_t text_len, float a, float b, float c, float d, float e, float f,
                        uint32_t table, uint8_t *tags, size_t n_tags, uint32_t *points, size_t point_words, uint32_t *scene,
                        size_t scene_words, uint32_t *prefixes, size_t prefix_words, uint32_t *lines, size_t line_words,
                        uint8_t *bytes, size_t n_bytes, uint64_t *out, size_t out_len);

/*
 * Mends a list whose paths each lack at most one line, and says what was done. The list is only read; the lines are
 * appended in `room`, which may stand right behind the list in memory, so that both together are the mended list.
 *
 * Within one path number, where exactly one point is an end once more than a start, exactly one is a start once more than an
 * end, no other is out of balance, and the two differ by at most `within` units in x and in y, exactly, a line is appended
 * from the first to the second: its path, 0xffffffff in place of a tag, and the points, zeros as +0. Otherwise nothing.
 * Paths come in order of first appearance. The report has six words a path: the path; 0 sound, 1 mended or 2 not mended; and
 * the four words of the appended line's points, or zeros. Words behind the lines and behind the report are not touched. With
 * no path left unmended the list passes hinth_check; mending it again with the same number appends nothing.
 *
 * The result is 0, or the number of the refusal, the first that holds; a refusal changes nothing of room and report:
 *
 *   50  the list has more than 2,000 whole records
 *   51  its number of words is not a multiple of six
 *   52  a coordinate is a NaN or an infinity
 *   53  no room for the appended lines or for the report, or more than 2,000 records afterwards
 *
 * out[0] is the number of paths reported and out[1] of lines appended, at refusal 53 those that there would be; at refusal 52
 * out[0] is the first bad record, counted from 0; else both are 0. If out_len is under 2 neither is written. Nothing else of
 * out is ever written.
 */
uint32_t hinth_mend(const uint32_t *list, size_t list_words, uint32_t within, uint32_t *room, size_t room_words,
                    uint32_t *report, size_t report_words, uint64_t *out, size_t out_len);

#ifdef __cplusplus
}
#endif

#endif

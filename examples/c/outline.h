/* Finishing outlines from C: the functions of liboutline.a (`tools/archive` proves it and writes it to target/staticlib/;
 * `tools/install PREFIX` installs it with this header, for pkg-config and CMake). docs/JOB.md says more of the job, the refusals and the tray.
 *
 * Slices are a pointer and a count of elements, words of 32 bits and bytes. Any count will do, and so will any content: nothing outside a
 * slice is read or written, and every call ends. A pointer must point to as many elements as its count says, and be aligned for
 * them; with a count of 0 it may point anywhere but must not be null. The slices of one call, job, work space, tray, text, answers and list, or two work spaces,
 * must not overlap.
 *
 * Nothing is kept between calls but the words of the work space, so two threads may use two work spaces at once. */
#ifndef OUTLINE_H
#define OUTLINE_H

#include <stddef.h>
#include <stdint.h>

#ifdef __cplusplus
extern "C" {
#endif

/* ---- the job
 *
 * Fields and nothing else: a tag (one byte), the length of the value (two bytes), the value. Numbers stand low byte first; x, y and z are signed, as two's
 * complement. Tags never fall; points, records, segments and joins are numbered from 0, each kind by itself. One unit is a micrometre. A point's z is its
 * depth, any number, and goes with it; points are compared by x and y alone, and a crossing that is made has z 0.
 *
 *   tag  field          length  value
 *    1   settings          1    bit 0: keep points that lie in line; bit 1: write every path the other way round. First, and once
 *    2   point            18    x, y (four bytes each); next, prev, record (two bytes each); z (four bytes)
 *    3   record            5    flags (bit 0: the ring is open; bit 1: it has a front edge); owner, first point (two bytes each, 65535 for none)
 *    4   level segment     2    a point
 *    5   join              4    two points */

/* At most so many points and records, those made while finishing included; so many segments and joins in the job; a coordinate either way. */
#define OUTLINE_POINTS 2048
#define OUTLINE_RECORDS 512
#define OUTLINE_SEGMENTS 256
#define OUTLINE_JOINS 256
#define OUTLINE_COORDINATE 1048576

/* The first so many bytes of a job decide what becomes of it: the longest job that is accepted, and one point more. */
#define OUTLINE_JOB_BYTES 50201
#if OUTLINE_JOB_BYTES != 4 + 21 * (OUTLINE_POINTS + 1) + 8 * OUTLINE_RECORDS + 5 * OUTLINE_SEGMENTS + 7 * OUTLINE_JOINS
#error "OUTLINE_JOB_BYTES is not what the limits make it"
#endif

/* ---- the work space and the tray */

/* So many states may be kept at once, each under a name. */
#define OUTLINE_STATES 4

/* The fixed length of a work space in words: the live block, a name for each state, and a copy of the block for each. A shorter one is refused with 10 by every call, first of all. */
#define OUTLINE_WORK_WORDS 94804
#if OUTLINE_WORK_WORDS != (1 + OUTLINE_STATES) * (16 + 6 * OUTLINE_POINTS + 13 * OUTLINE_RECORDS) + OUTLINE_STATES
#error "OUTLINE_WORK_WORDS is not what the limits make it"
#endif

/* The tray has a field for each path: a tag (6 closed, then 7 open), the length of its value in two bytes, low byte first, and the value: x, y and z
 * of each point, four bytes each, low byte first, two's complement. A tag of 0, or the tray's end, comes after the last path.
 * So many bytes are always enough. */
#define OUTLINE_TRAY_BYTES 26112
#if OUTLINE_TRAY_BYTES != 3 * OUTLINE_RECORDS + 12 * OUTLINE_POINTS
#error "OUTLINE_TRAY_BYTES is not what the limits make it"
#endif

/* ---- the listing: two counts, then a line for each path, then, with a rate, the charge; or `refused` and the number */

/* A text of so many bytes has room for the listing of any job; with a shorter one outline_list does nothing, unless the work space is too short. */
#define OUTLINE_TEXT_BYTES 160359
#if OUTLINE_TEXT_BYTES != 54 + 49 * OUTLINE_RECORDS + 66 * OUTLINE_POINTS + 49
#error "OUTLINE_TEXT_BYTES is not what the limits make it"
#endif

/* The largest rate, in cents for a square decimetre; 0 is none. */
#define OUTLINE_RATE 1000

/* ---- a job written the one way */

/* A tray of so many bytes has room for any accepted job. */
#define OUTLINE_REWRITTEN_BYTES 50180
#if OUTLINE_REWRITTEN_BYTES != OUTLINE_JOB_BYTES - 21
#error "OUTLINE_REWRITTEN_BYTES is not what the limits make it"
#endif

/* ---- which shape lies in which: a byte for each ordered pair of closed paths, 1 for yes and 0 for no */

/* A slice of so many bytes has room for the answers of any job. */
#define OUTLINE_ANSWER_BYTES 261632
#if OUTLINE_ANSWER_BYTES != OUTLINE_RECORDS * (OUTLINE_RECORDS - 1)
#error "OUTLINE_ANSWER_BYTES is not what the limits make it"
#endif

/* ---- the answers: 0, or the refusal's number, the first that applies */

enum outline_refusal {
    OUTLINE_TORN = 1,             /* a field is cut off, or its length is not its tag's */
    OUTLINE_STRANGE = 2,          /* the job is empty, or has a tag or a bit that does not belong there */
    OUTLINE_CROWDED = 3,          /* more points, records, segments or joins than a job may have */
    OUTLINE_OFF_THE_TABLE = 4,    /* a coordinate is beyond 1,048,576 micrometres either way */
    OUTLINE_NO_SUCH = 5,          /* a number names no point or no record of the job */
    OUTLINE_LOOSE = 6,            /* a point's next and prev do not lead back to it */
    OUTLINE_MUDDLED = 7,          /* owners go in a circle, or a point is not on the ring of the record that it names */
    OUTLINE_OPEN_EDGE = 8,        /* a segment or a join names a point of an open ring */
    OUTLINE_KNOT = 9,             /* a join's second point is already the next of its first */
    OUTLINE_FULL = 10,            /* finishing, or laying together, needs more than 2,048 points or 512 records, or a work space is too short */
    OUTLINE_SMALL_TRAY = 11,      /* the paths, or the job that is written, need more bytes than the tray has, the pairs more than the answers have, or the records in a window more words than the list has */
    OUTLINE_OUT_OF_TURN = 12,     /* a step on a record that has none to take, the reason of an unknown record, writing out or asking for a reason before every closed ring is done, or laying together what was stepped */
    OUTLINE_BAD_RATE = 13,        /* more than one rate is given, or one that is not a whole number from 1 to 1,000 */
    OUTLINE_UNKNOWN_NAME = 14,    /* going back to, or dropping, a name that is not kept */
    OUTLINE_NO_PLACE = 15,        /* keeping a fifth name */
    OUTLINE_SETTINGS_DIFFER = 16, /* laying together two drawings whose settings bytes are unequal */
    OUTLINE_PAST_MENDING = 17     /* some point is the next of none or of more than one, so no backward links would do */
};

/* ---- where a record's ring went */

enum outline_reason_number {
    OUTLINE_NO_RING = 1,    /* the job has no ring for it */
    OUTLINE_JOINED = 2,     /* joined into another record, the one that took it in that join */
    OUTLINE_SMALL_RING = 3, /* too small at the validity test */
    OUTLINE_RING_FELL = 4,  /* fell invalid while points were removed */
    OUTLINE_SMALL_AREA = 5, /* its area was under 2.0 at a split */
    OUTLINE_SHORT_PATH = 6, /* too short when its path was built */
    OUTLINE_SMALL_PATH = 7, /* too small when its path was built */
    OUTLINE_WRITTEN = 8     /* its path is in the tray */
};

/* ---- the calls */

/* OUTLINE_WORK_WORDS, as the library has it. */
uint64_t outline_work_words(void);

/* Finishes a job in one call: opens it, steps every ring until it is done, and writes out. Refused: every word of the work space and every
 * byte of the tray is 0. Else the tray holds the paths, and past them every byte is 0; the work space holds the finished rings, and no name is kept. */
uint32_t outline_finish(const uint8_t *job, size_t job_bytes, uint32_t *work, size_t work_words, uint8_t *tray, size_t tray_bytes);

/* Which shape lies in which: finishes a job as outline_finish does and answers for every ordered pair of its closed paths whether the second contains the first. With n closed paths
 * there are n (n - 1) answers, a byte each, 1 for yes and 0 for no, by rising first place and then second, a path never with itself: of paths i and j, places in the tray from 0, the byte
 * i (n - 1) + j, one less if j > i, says whether path i lies in path j. Refused as outline_finish is; then with 11 if the slice is shorter than the answers. Refused: every word, every byte of
 * the tray and every byte of the slice is 0. Else words and tray are as outline_finish leaves them, and past the answers every byte of the slice is 0. */
uint32_t outline_contained(const uint8_t *job, size_t job_bytes, uint32_t *work, size_t work_words, uint8_t *tray, size_t tray_bytes, uint8_t *answers, size_t answers_bytes);

/* Finishes a job as outline_finish does and writes its listing, ASCII with a line feed after each line, into the text; bytes past it stay. The
 * answer is how many bytes the listing has, a refused job's too. A work space that is too short is refused with 10 first of all; every word and
 * every byte of the tray is then 0, and a text that has no room for the refusal's 11 bytes has as many as fit, with the answer 0. Else 0: the
 * text has fewer than OUTLINE_TEXT_BYTES bytes; then every word and every byte is as found. Then a rate above OUTLINE_RATE is refused with 13,
 * before the job is read, and words and tray stay as found. */
uint64_t outline_list(const uint8_t *job, size_t job_bytes, uint32_t *work, size_t work_words, uint8_t *tray, size_t tray_bytes, uint32_t rate,
                      uint8_t *text, size_t text_bytes);

/* Writes a job the one way, without joining or finishing it: records in their order, each ring's points from its first point in walk order and numbered so,
 * every point naming its ring's record, segments and joins by the new numbers. Two jobs give the same bytes exactly when they hold the same drawing.
 * The low half of the answer, (uint32_t)answer, is 0 or the refusal's number: 10 for the work space's length, 1 to 8, or 11 if the tray is shorter than the
 * written job; the high half, answer >> 32, is how many bytes that has. Refused: every word and every byte is 0. Else the tray holds the bytes, and past them
 * every byte is 0; every word is 0 too. */
uint64_t outline_rewrite(const uint8_t *job, size_t job_bytes, uint32_t *work, size_t work_words, uint8_t *tray, size_t tray_bytes);

/* Opens a job: reads it and joins its rings. Refused: every word of the work space is 0. Else it holds the rings, each closed one at its start, and no name is kept, whatever it held
 * before; the words behind the names are as found. */
uint32_t outline_open(const uint8_t *job, size_t job_bytes, uint32_t *work, size_t work_words);

/* One step on the ring of a record. Refused with 12: the record is unknown, open, without a ring, or done; with 10: the step needs more
 * points or records than there are; with 3 to 7: the work space is not one that these calls left (7 too where the box beside a ring is not the ring's). A refused step leaves every word as
 * found. Steps may be taken in any order; an offcut is a new record, with the next number. */
uint32_t outline_step(uint32_t *work, size_t work_words, uint32_t record);

/* Lays two drawings on one table, each opened and not yet stepped: the second's points and records stand after the first's, in the first's work space and in their order, with numbers
 * raised to fit; where the first has n records, record r of the second is record n + r of the pair. No joins are made across. The pair is stepped and written out as one job, and gives each
 * drawing's own outlines and offcuts; the limits bind the pair. A pair that is not yet stepped may be laid together with a third. The states that the first keeps remain, and going back to
 * one leaves the pair; the second's are not brought. The second's work space is only read; the two must not overlap.
 * Refusals in this order: 10 for the first's length, then for the second's; 3 to 7 as a step, of the first, then of the second; 16: the settings bytes, the low bytes of the two settings
 * words, are unequal; 12: in either a record is an offcut or was discarded by a step, or a closed ring isn't at its start; 10: the pair has more points or records than there may be. A
 * refused call leaves every word of both as found. */
uint32_t outline_lay_together(uint32_t *first, size_t first_words, const uint32_t *second, size_t second_words);

/* States to come back to: the next three calls. A name is one byte, any of the 256, 0 and 255 too. Refusals in this order: 10 for the length; 3 to 7 as a step, the last of them 7 for a name that
 * is kept twice, which every call on an opened work space tests; then 14 or 15. A refused call leaves every word as found.
 * The names and the copies are words of the work space, so opening a job, and finishing or listing one, keeps no name. If somebody else wrote into the live rings, or into the boxes beside them, every call is refused
 * with 3 to 7, going back too: then there is no way back but opening the job again. A copy is not tested while it is kept; what somebody wrote into it, the next call after going back finds.
 *
 * Keeps the state, the rings as they are now, under a name; a state that the name kept is replaced. Refused with 15: OUTLINE_STATES other names are kept. */
uint32_t outline_keep(uint32_t *work, size_t work_words, uint8_t name);

/* Goes back to the state that a name keeps: points, records, progress, reasons and counts are those kept, and places taken since count as never taken. The name stays kept, and so does every
 * other, with its state. Refused with 14: the name isn't kept. */
uint32_t outline_go_back(uint32_t *work, size_t work_words, uint8_t name);

/* Drops a name: its place is free for another. The rings are as they were. Refused with 14: the name isn't kept. */
uint32_t outline_drop(uint32_t *work, size_t work_words, uint8_t name);

/* Writes the paths of a work space whose closed rings are all done into the tray; past them every byte is 0. Refused with 12: a closed ring isn't
 * done; with 11: the tray is too short; with 3 to 7 as a step. A refused writing out leaves every byte as found. The work space is only read. */
uint32_t outline_write(const uint32_t *work, size_t work_words, uint8_t *tray, size_t tray_bytes);

/* Where the ring of a record went, of a work space whose closed rings are all done. The low half of the answer, (uint32_t)answer, is 0 or the refusal's number:
 * 12 if there is no such record or a closed ring isn't done, 10 and 3 to 7 as a step. The high half is 0 if refused; else answer >> 32 & 255 is the reason;
 * answer >> 40 & 255, of reason 8, the tag of its path's list in the tray, 6 or 7; and answer >> 48 of reason 2 the record that took it, of reason 8 its path's
 * place in that list, from 0. The work space is only read. */
uint64_t outline_reason(const uint32_t *work, size_t work_words, uint32_t record);

/* Which records a window shows: those with a ring, closed or open, done or not, whose box has a place in common with the window, edges counted as inside. A ring's box is from the least
 * to the greatest x and y of its points as they are now, and stands beside the ring in the work space. left and right are the window's least and greatest x, top and bottom its least and
 * greatest y. Any four numbers are a window; one turned inside out, left above right or top above bottom, shows nothing.
 * The records' numbers go into the list, rising, each once; every word past them is 0. OUTLINE_RECORDS words are always enough.
 * The low half of the answer, (uint32_t)answer, is 0 or the refusal's number: 10 and 3 to 7 as a step, then 11 if the list is too short. The high half, answer >> 32, is how many records the
 * window shows, 0 if refused. A refused call leaves every word of the list as found. The work space is only read; as in every call its tests walk the points, once. */
uint64_t outline_records_in(const uint32_t *work, size_t work_words, int32_t left, int32_t top, int32_t right, int32_t bottom, uint32_t *list, size_t list_words);

/* Mends the backward links of a job, in its bytes: if every point is the next of exactly one point, each prev becomes that point, and no other byte changes. A job that it has mended
 * never meets 6, no other backward links would avoid 6, and a job whose links are sound comes back as it was. Refused with 1 to 5 as opening, then with 17: some point is the next of none or
 * of more than one. What 7 and 8 speak of is not asked. Refused, every byte is as found. No work space is lent: the call takes some 90 kB of stack. */
uint32_t outline_mend(uint8_t *job, size_t job_bytes);

/* ---- helpers, in C alone: they call nothing, and keep nothing */

/* Four bytes as a signed number, and a number as bytes; low byte first. */
static inline int32_t outline_get4(const uint8_t *at) {
    uint32_t word = (uint32_t)at[0] | (uint32_t)at[1] << 8 | (uint32_t)at[2] << 16 | (uint32_t)at[3] << 24;
    return word < 2147483648u ? (int32_t)word : (int32_t)(word - 2147483648u) - 2147483647 - 1;
}

static inline uint8_t *outline_put(uint8_t *at, uint32_t number, size_t bytes) {
    for (; bytes > 0; bytes--, number >>= 8) *at++ = (uint8_t)(number & 255);
    return at;
}

/* A path of a tray: whether it is open, how many points it has, and their bytes, which stay the tray's. */
struct outline_path {
    int open;
    size_t points;
    const uint8_t *bytes;
};

/* The path that stands *at bytes into a tray, if a whole one does: then the answer is 1, and *at is moved past it. Begin with *at 0. 0 after the last path;
 * any bytes may be given. */
static inline int outline_next_path(const uint8_t *tray, size_t tray_bytes, size_t *at, struct outline_path *path) {
    size_t length;
    if (*at > tray_bytes || tray_bytes - *at < 3 || (tray[*at] != 6 && tray[*at] != 7)) return 0;
    length = (size_t)tray[*at + 1] + 256 * (size_t)tray[*at + 2];
    if (length % 12 != 0 || length > tray_bytes - *at - 3) return 0;
    path->open = tray[*at] == 7;
    path->points = length / 12;
    path->bytes = tray + *at + 3;
    *at += 3 + length;
    return 1;
}

/* x, y and z of a point of a path, from 0; there must be such a point. */
static inline int32_t outline_path_x(const struct outline_path *path, size_t point) { return outline_get4(path->bytes + 12 * point); }
static inline int32_t outline_path_y(const struct outline_path *path, size_t point) { return outline_get4(path->bytes + 12 * point + 4); }
static inline int32_t outline_path_z(const struct outline_path *path, size_t point) { return outline_get4(path->bytes + 12 * point + 8); }

/* Begins a job: its settings, in four bytes. The answer is how many bytes the job has; 0 if there is no room. */
static inline size_t outline_new_job(uint8_t *job, size_t room, uint32_t settings) {
    if (room < 4) return 0;
    outline_put(outline_put(outline_put(job, 1, 1), 1, 2), settings, 1);
    return 4;
}

/* How many fields of a tag there are from *at on, which is moved past them. */
static inline size_t outline_skip(const uint8_t *job, size_t bytes, size_t *at, uint8_t tag, size_t value) {
    size_t count = 0;
    while (bytes - *at >= 3 + value && job[*at] == tag) {
        *at += 3 + value;
        count++;
    }
    return count;
}

/* Adds a ring to a job of so many bytes, which stands in a room of so many: its points, x, y and z of each in turn, linked in this order, after the points
 * that are there; and a record with these flags and this owner, 65535 for none, after the records that are there, which starts at the first of the points,
 * or has no ring if there is none. Level segments and joins stay as they are. The answer is how many bytes the job then has, and the ring's record is the
 * job's last. 0, and no byte changed: there is no room, or more points or records would be there than a job may have, or the job does not begin with settings. */
static inline size_t outline_add_ring(uint8_t *job, size_t bytes, size_t room, uint32_t flags, uint32_t owner, const int32_t *xyz, size_t points) {
    size_t at = 0, old, records, first, more, k;
    uint8_t *put;
    if (bytes > room || outline_skip(job, bytes, &at, 1, 1) != 1) return 0;
    old = outline_skip(job, bytes, &at, 2, 18);
    first = at;
    records = outline_skip(job, bytes, &at, 3, 5);
    if (points > OUTLINE_POINTS || old + points > OUTLINE_POINTS || records >= OUTLINE_RECORDS) return 0;
    more = 21 * points + 8;
    if (room - bytes < more) return 0;
    for (k = bytes; k > at; k--) job[k + more - 1] = job[k - 1];
    for (k = at; k > first; k--) job[k + 21 * points - 1] = job[k - 1];
    put = job + first;
    for (k = 0; k < points; k++) {
        put = outline_put(outline_put(put, 2, 1), 18, 2);
        put = outline_put(outline_put(put, (uint32_t)xyz[3 * k], 4), (uint32_t)xyz[3 * k + 1], 4);
        put = outline_put(put, (uint32_t)(old + (k + 1) % points), 2);
        put = outline_put(put, (uint32_t)(old + (k + points - 1) % points), 2);
        put = outline_put(outline_put(put, (uint32_t)records, 2), (uint32_t)xyz[3 * k + 2], 4);
    }
    put = outline_put(outline_put(job + at + 21 * points, 3, 1), 5, 2);
    outline_put(outline_put(outline_put(put, flags, 1), owner, 2), points == 0 ? 65535 : (uint32_t)old, 2);
    return bytes + more;
}

/* The parts of an answer of outline_reason: 0 or the refusal's number (of outline_rewrite and outline_records_in too); the reason, 1 to 8; of reason 8 the tag of its path's list,
 * 6 or 7; and of reason 2 the record that took it, of reason 8 its path's place in that list. */
static inline uint32_t outline_told_refusal(uint64_t answer) { return (uint32_t)answer; }
static inline uint32_t outline_told_reason(uint64_t answer) { return (uint32_t)(answer >> 32 & 255); }
static inline uint32_t outline_told_list(uint64_t answer) { return (uint32_t)(answer >> 40 & 255); }
static inline uint32_t outline_told_number(uint64_t answer) { return (uint32_t)(answer >> 48); }

#ifdef __cplusplus
}
#endif

/* The library is for x86-64 Linux: a count of elements has 64 bits. */
#if defined(SIZE_MAX) && SIZE_MAX != UINT64_MAX
#error "outline: size_t must have 64 bits"
#endif

#endif

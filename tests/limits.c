/* limits: every constant of outline.h against the library's calls. What is at a limit passes, what is one past it is refused; each refusal
 * is given by name, on a smallest job of docs/JOB.md; each reason, on the job with one of each; states are kept of it, two of it laid together, and windows asked of it. */
#include "outline.h"
#include <stdio.h>
#include <string.h>

#define NONE 65535
/* Where the records' progress marks stand (docs/WORKSPACE.md). */
#define MARKS (16 + 6 * OUTLINE_POINTS + 3 * OUTLINE_RECORDS)
/* And where the boxes: least x, least y, greatest x, greatest y. */
#define BOXES (16 + 6 * OUTLINE_POINTS + 9 * OUTLINE_RECORDS)

static uint8_t job[2 * OUTLINE_JOB_BYTES], tray[OUTLINE_TRAY_BYTES], text[OUTLINE_TEXT_BYTES], written[OUTLINE_REWRITTEN_BYTES], answers[OUTLINE_ANSWER_BYTES];
static uint32_t work[OUTLINE_WORK_WORDS], second[OUTLINE_WORK_WORDS], list[OUTLINE_RECORDS + 1];
static size_t length;
static int faults;

static void is(const char *what, uint64_t answer, uint64_t wanted) {
    if (answer == wanted) return;
    fprintf(stderr, "limits: %s: %llu, not %llu\n", what, (unsigned long long)answer, (unsigned long long)wanted);
    faults++;
}

/* ---- a job, field by field */

static void number(uint32_t value, int bytes) {
    for (; bytes > 0; bytes--, value >>= 8) job[length++] = value & 255;
}

static void field(uint32_t tag, uint32_t bytes) {
    number(tag, 1);
    number(bytes, 2);
}

static void settings(void) {
    length = 0;
    field(1, 1);
    number(0, 1);
}

static void deep_point(int32_t x, int32_t y, uint32_t next, uint32_t prev, uint32_t record, int32_t z) {
    field(2, 18);
    number(x, 4);
    number(y, 4);
    number(next, 2);
    number(prev, 2);
    number(record, 2);
    number(z, 4);
}

static void point(int32_t x, int32_t y, uint32_t next, uint32_t prev, uint32_t record) { deep_point(x, y, next, prev, record, 0); }

static void record(uint32_t flags, uint32_t owner, uint32_t first) {
    field(3, 5);
    number(flags, 1);
    number(owner, 2);
    number(first, 2);
}

static void segments(uint32_t count) {
    for (; count > 0; count--) field(4, 2), number(0, 2);
}

static void joins(uint32_t count) {
    for (; count > 0; count--) field(5, 4), number(0, 4);
}

/* As many points as there may be, on as many rings. */
static void largest(uint32_t flags) {
    const uint32_t each = OUTLINE_POINTS / OUTLINE_RECORDS;
    settings();
    for (uint32_t i = 0; i < OUTLINE_POINTS; i++) {
        uint32_t first = i - i % each;
        point(i, i, first + (i + 1 - first) % each, first + (i + each - 1 - first) % each, i / each);
    }
    for (uint32_t i = 0; i < OUTLINE_RECORDS; i++) record(flags, NONE, each * i);
}

/* ---- what the calls say */

static uint32_t finish(size_t bytes, size_t words, size_t tray_bytes) { return outline_finish(job, bytes, work, words, tray, tray_bytes); }

static uint32_t whole(void) { return finish(length, OUTLINE_WORK_WORDS, OUTLINE_TRAY_BYTES); }

static void lengths(void) {
    is("outline_work_words", outline_work_words(), OUTLINE_WORK_WORDS);
    largest(1);
    is("the largest job", whole(), 0);
    is("its last path's tag", tray[OUTLINE_TRAY_BYTES - 3 - 12 * (OUTLINE_POINTS / OUTLINE_RECORDS)], 7);
    is("a word less", finish(length, OUTLINE_WORK_WORDS - 1, OUTLINE_TRAY_BYTES), OUTLINE_FULL);
    is("a byte of the tray less", finish(length, OUTLINE_WORK_WORDS, OUTLINE_TRAY_BYTES - 1), OUTLINE_SMALL_TRAY);
    segments(OUTLINE_SEGMENTS);
    joins(OUTLINE_JOINS);
    is("the longest job's bytes and a point's", length + 21, OUTLINE_JOB_BYTES);
    is("segments of an open ring", whole(), OUTLINE_OPEN_EDGE);
    is("a byte of the job less", finish(length - 1, OUTLINE_WORK_WORDS, OUTLINE_TRAY_BYTES), OUTLINE_TORN);
    joins(9);
    is("what follows OUTLINE_JOB_BYTES", whole(), finish(OUTLINE_JOB_BYTES, OUTLINE_WORK_WORDS, OUTLINE_TRAY_BYTES));
}

static void counts(void) {
    settings();
    for (uint32_t i = 0; i <= OUTLINE_POINTS; i++) point(0, 0, i, i, 0);
    is("a point too many", whole(), OUTLINE_CROWDED);
    largest(1);
    record(0, NONE, NONE);
    is("a record too many", whole(), OUTLINE_CROWDED);
    for (uint32_t more = 0; more < 2; more++) {
        settings(), segments(OUTLINE_SEGMENTS + more);
        is("segments", whole(), more ? OUTLINE_CROWDED : OUTLINE_NO_SUCH);
        settings(), joins(OUTLINE_JOINS + more);
        is("joins", whole(), more ? OUTLINE_CROWDED : OUTLINE_NO_SUCH);
    }
}

static void coordinates(void) {
    for (int32_t sign = -1; sign < 2; sign += 2)
        for (int32_t more = 0; more < 2; more++) {
            settings(), point(0, sign * (OUTLINE_COORDINATE + more), 0, 0, 0), record(1, NONE, 0);
            is("a coordinate", whole(), more ? OUTLINE_OFF_THE_TABLE : 0);
        }
}

/* A depth may be any number, and comes out as it went in. */
static void depths(void) {
    static const int32_t zs[] = {INT32_MAX, INT32_MIN, OUTLINE_COORDINATE + 1, -1};
    for (size_t i = 0; i < sizeof zs / sizeof *zs; i++) {
        int32_t z;
        settings(), deep_point(0, 0, 1, 1, 0, 0), deep_point(5, 5, 0, 0, 0, zs[i]), record(1, NONE, 0);
        is("a line with a depth", whole(), 0);
        is("its bytes", tray[1], 2 * 12);
        memcpy(&z, tray + 3 + 8, 4);
        is("its depth", (uint32_t)z, (uint32_t)zs[i]);
    }
    settings(), field(2, 14), number(0, 7), number(0, 7), record(0, NONE, 0);
    is("a point without a depth", whole(), OUTLINE_TORN);
}

static void other_refusals(void) {
    length = 0;
    is("an empty job", whole(), OUTLINE_STRANGE);
    settings(), point(0, 0, 1, 0, 0), point(5, 5, 0, 1, 0), record(0, NONE, NONE);
    is("a prev that does not lead back", whole(), OUTLINE_LOOSE);
    settings(), record(0, 0, NONE);
    is("a record that owns itself", whole(), OUTLINE_MUDDLED);
    settings(), point(0, 0, 0, 0, 0), record(0, NONE, 0), joins(1);
    is("a point joined to itself", whole(), OUTLINE_KNOT);
    settings();
    is("a job of settings alone", outline_open(job, length, work, OUTLINE_WORK_WORDS), 0);
    is("a step on no record", outline_step(work, OUTLINE_WORK_WORDS, 0), OUTLINE_OUT_OF_TURN);
    is("writing out no path", outline_write(work, OUTLINE_WORK_WORDS, tray, 0), 0);
}

/* The refusal that a listing says; 0 where it says none. */
static uint32_t listed(uint32_t rate) {
    unsigned refused = 0;
    memset(text, 0, sizeof text);
    uint64_t bytes = outline_list(job, length, work, OUTLINE_WORK_WORDS, tray, sizeof tray, rate, text, sizeof text);
    is("a text", bytes, strlen((char *)text));
    sscanf((char *)text, "refused %u", &refused);
    return refused;
}

static void listings(void) {
    largest(1);
    is("no rate", listed(0), 0);
    is("the largest rate", listed(OUTLINE_RATE), 0);
    is("a larger rate", listed(OUTLINE_RATE + 1), OUTLINE_BAD_RATE);
    memset(work, 7, sizeof work);
    memset(tray, 7, sizeof tray);
    memset(text, 7, sizeof text);
    is("a byte of the text less", outline_list(job, length, work, OUTLINE_WORK_WORDS, tray, sizeof tray, 0, text, sizeof text - 1), 0);
    is("the words then", work[0], 0x07070707);
    is("the tray then", tray[0], 7);
    is("the text then", text[0], 7);
    is("a short work space, a larger rate and a short text", outline_list(job, length, work, 10, tray, sizeof tray, OUTLINE_RATE + 1, text, 11), 11);
    is("what the text says then", (uint64_t)memcmp(text, "refused 10\n\7", 12), 0);
    is("the words then", work[0], 0);
    is("the tray then", tray[0], 0);
}

static uint64_t rewritten(size_t words, size_t bytes) { return outline_rewrite(job, length, work, words, written, bytes); }

static void rewriting(void) {
    largest(0), segments(OUTLINE_SEGMENTS), joins(OUTLINE_JOINS);
    is("the longest job, which would be a knot, written", rewritten(OUTLINE_WORK_WORDS, OUTLINE_REWRITTEN_BYTES), (uint64_t)OUTLINE_REWRITTEN_BYTES << 32);
    is("its bytes, which were so", memcmp(written, job, length), 0);
    is("a byte of its tray less", rewritten(OUTLINE_WORK_WORDS, OUTLINE_REWRITTEN_BYTES - 1), OUTLINE_SMALL_TRAY);
    is("a word less, of it", rewritten(OUTLINE_WORK_WORDS - 1, OUTLINE_REWRITTEN_BYTES), OUTLINE_FULL);
}

static uint32_t contained(size_t words, size_t bytes) {
    memset(answers, 7, sizeof answers);
    return outline_contained(job, length, work, words, tray, sizeof tray, answers, bytes);
}

/* As many squares as there may be records, the last round all others. */
static void containing(void) {
    const uint32_t last = OUTLINE_RECORDS - 1;
    settings();
    for (uint32_t r = 0; r <= last; r++) {
        const int32_t x = r < last ? (int32_t)r * 20 : -10, side = r < last ? 10 : 20000, y = r < last ? 0 : -10;
        const uint32_t first = 4 * r;
        point(x, y, first + 1, first + 3, r), point(x + side, y, first + 2, first, r);
        point(x + side, y + side, first + 3, first + 1, r), point(x, y + side, first, first + 2, r);
    }
    for (uint32_t r = 0; r <= last; r++) record(0, NONE, 4 * r);
    is("all pairs", contained(OUTLINE_WORK_WORDS, OUTLINE_ANSWER_BYTES), 0);
    is("the first square in the last", answers[last - 1], 1);
    is("the first in the second", answers[0], 0);
    is("the last in the first", answers[last * last], 0);
    is("a byte of the answers less", contained(OUTLINE_WORK_WORDS, OUTLINE_ANSWER_BYTES - 1), OUTLINE_SMALL_TRAY);
    is("the answers then", answers[last - 1], 0);
    is("the byte past them", answers[OUTLINE_ANSWER_BYTES - 1], 7);
    is("a word less, of the pairs", contained(OUTLINE_WORK_WORDS - 1, OUTLINE_ANSWER_BYTES), OUTLINE_FULL);
}

/* A ring for each reason, the second joined into the first: the case `one of each` of tests/answers/reasons.txt. Two offcuts come to it. */
static const struct {
    uint32_t reason, open, points;
    int32_t at[8];
} rings[] = {
    {OUTLINE_WRITTEN, 0, 4, {0, 0, 10, 0, 10, 10, 0, 10}},
    {OUTLINE_JOINED, 0, 4, {20, 0, 30, 0, 30, 10, 20, 10}},
    {OUTLINE_NO_RING, 0, 0, {0}},
    {OUTLINE_SMALL_RING, 0, 1, {5, 5}},
    {OUTLINE_RING_FELL, 0, 3, {0, 0, 10, 0, 20, 0}},
    {OUTLINE_SMALL_AREA, 0, 4, {0, 0, 10, 10, 10, 0, 0, 10}},
    {OUTLINE_SHORT_PATH, 0, 4, {0, -5, 2, 1, 0, 1, 1, 7}},
    {OUTLINE_SMALL_PATH, 0, 4, {-2, 0, 3, 1, 0, 2, -1, -1}},
    {OUTLINE_WRITTEN, 1, 2, {0, 0, 5, 5}},
};
#define RINGS (sizeof rings / sizeof *rings)

static void one_of_each(void) {
    uint32_t first[RINGS], next = 0;
    settings();
    for (uint32_t r = 0; r < RINGS; r++) {
        const uint32_t count = rings[r].points;
        first[r] = count ? next : NONE;
        for (uint32_t i = 0; i < count; i++)
            point(rings[r].at[2 * i], rings[r].at[2 * i + 1], next + (i + 1) % count, next + (i + count - 1) % count, r);
        next += count;
    }
    for (uint32_t r = 0; r < RINGS; r++) record(rings[r].open, NONE, first[r]);
    field(5, 4), number(1, 2), number(4, 2);
}

static uint64_t told(uint32_t record) { return outline_reason(work, OUTLINE_WORK_WORDS, record); }

/* An answer, whole. */
static uint64_t answer(uint64_t reason, uint64_t list, uint64_t number) { return (reason + 256 * list + 65536 * number) << 32; }

static void reasons(void) {
    one_of_each();
    is("one of each, opened", outline_open(job, length, work, OUTLINE_WORK_WORDS), 0);
    is("a reason before all is done", told(2), OUTLINE_OUT_OF_TURN);
    is("one of each", whole(), 0);
    for (uint32_t r = 0; r < RINGS; r++) {
        is("a reason's refusal", (uint32_t)told(r), 0);
        is("a reason", told(r) >> 32 & 255, rings[r].reason);
    }
    is("the joined ring", told(1), answer(OUTLINE_JOINED, 0, 0));
    is("the open line", told(8), answer(OUTLINE_WRITTEN, 7, 0));
    is("the second offcut", told(10), answer(OUTLINE_WRITTEN, 6, 2));
    is("a record that is not there", told(11), OUTLINE_OUT_OF_TURN);
    is("a word less, of a reason", outline_reason(work, OUTLINE_WORK_WORDS - 1, 0), OUTLINE_FULL);
}

/* ---- states to come back to */

static uint32_t keep(uint8_t name) { return outline_keep(work, OUTLINE_WORK_WORDS, name); }
static uint32_t go_back(uint8_t name) { return outline_go_back(work, OUTLINE_WORK_WORDS, name); }
static uint32_t drop(uint8_t name) { return outline_drop(work, OUTLINE_WORK_WORDS, name); }

/* Names from 255 down, and 0 at last. */
static uint8_t name_of(uint32_t place) { return place + 1 < OUTLINE_STATES ? 255 - place : 0; }

static void states(void) {
    one_of_each();
    memset(work, 7, sizeof work);
    is("one of each, to keep", outline_open(job, length, work, OUTLINE_WORK_WORDS), 0);
    is("words behind the names, opened", work[OUTLINE_WORK_WORDS - 1], 0x07070707);
    is("going back before keeping", go_back(0), OUTLINE_UNKNOWN_NAME);
    is("dropping before keeping", drop(255), OUTLINE_UNKNOWN_NAME);
    for (uint32_t place = 0; place < OUTLINE_STATES; place++) is("a name", keep(name_of(place)), 0);
    is("a name too many", keep(100), OUTLINE_NO_PLACE);
    is("a name once more", keep(255), 0);
    is("a step to go back from", outline_step(work, OUTLINE_WORK_WORDS, 0), 0);
    is("its mark", work[MARKS], 1);
    is("going back", go_back(0), 0);
    is("its mark, gone back", work[MARKS], 0);
    is("a name, dropped", drop(0), 0);
    is("going back, dropped", go_back(0), OUTLINE_UNKNOWN_NAME);
    is("another in its place", keep(100), 0);
    is("a word less, of keeping", outline_keep(work, OUTLINE_WORK_WORDS - 1, 255), OUTLINE_FULL);
    is("a word less, of going back", outline_go_back(work, OUTLINE_WORK_WORDS - 1, 1), OUTLINE_FULL);
    is("a word less, of dropping", outline_drop(work, OUTLINE_WORK_WORDS - 1, 1), OUTLINE_FULL);
    work[1] = OUTLINE_POINTS + 1;
    is("no way back to spoilt rings", go_back(255), OUTLINE_CROWDED);
    is("nor to a name that is not kept", go_back(1), OUTLINE_CROWDED);
    is("but opening", outline_open(job, length, work, OUTLINE_WORK_WORDS), 0);
    is("which frees the names", go_back(255), OUTLINE_UNKNOWN_NAME);
    is("one of each, finished to keep", whole(), 0);
    is("finished, and kept", keep(255), 0);
    is("back to what is finished", go_back(255), 0);
    is("its reason", (uint32_t)told(0), 0);
}

/* ---- two drawings on one table */

static uint32_t open_in(uint32_t *words) { return outline_open(job, length, words, OUTLINE_WORK_WORDS); }
static uint32_t lay(void) { return outline_lay_together(work, OUTLINE_WORK_WORDS, second, OUTLINE_WORK_WORDS); }

static void pairs(void) {
    one_of_each();
    is("one of each, the first", open_in(work), 0);
    is("one of each, the second", open_in(second), 0);
    is("a word of the first less", outline_lay_together(work, OUTLINE_WORK_WORDS - 1, second, OUTLINE_WORK_WORDS), OUTLINE_FULL);
    is("a word of the second less", outline_lay_together(work, OUTLINE_WORK_WORDS, second, OUTLINE_WORK_WORDS - 1), OUTLINE_FULL);
    is("together", lay(), 0);
    is("their records", work[2], 2 * RINGS);
    for (uint32_t r = 0; r < 2 * RINGS + 4; r++)
        while (outline_step(work, OUTLINE_WORK_WORDS, r) == 0) continue;
    is("their records, and two offcuts of each", work[2], 2 * RINGS + 4);
    for (uint32_t r = 0; r < RINGS; r++) {
        is("a reason of the first", told(r) >> 32 & 255, rings[r].reason);
        is("a reason of the second", told(RINGS + r) >> 32 & 255, rings[r].reason);
    }
    is("the second's joined ring", told(RINGS + 1), answer(OUTLINE_JOINED, 0, RINGS));
    is("what was stepped, laid again", lay(), OUTLINE_OUT_OF_TURN);
    work[0] = 1;
    is("and under other settings", lay(), OUTLINE_SETTINGS_DIFFER);
    work[1] = OUTLINE_POINTS + 1;
    is("and with too many points", lay(), OUTLINE_CROWDED);
    /* As many points and records as there may be, and one of either more. */
    largest(1);
    is("the largest job, the first", open_in(work), 0);
    settings();
    is("nothing, the second", open_in(second), 0);
    is("nothing beside the largest", lay(), 0);
    second[1] = 1;
    is("a point beside the largest", lay(), OUTLINE_FULL);
    settings(), record(0, NONE, NONE);
    is("a record, the second", open_in(second), 0);
    is("a record beside the largest", lay(), OUTLINE_FULL);
}

/* ---- windows */

static uint64_t in(int32_t left, int32_t top, int32_t right, int32_t bottom, size_t words) {
    for (size_t i = 0; i <= OUTLINE_RECORDS; i++) list[i] = 7;
    return outline_records_in(work, OUTLINE_WORK_WORDS, left, top, right, bottom, list, words);
}

static uint64_t everywhere(size_t words) { return in(INT32_MIN, INT32_MIN, INT32_MAX, INT32_MAX, words); }

static uint64_t found_so(uint64_t count) { return count << 32; }

static void windows(void) {
    uint32_t r;
    /* Squares in a row, ten wide with ten between them; a record without a ring; an open line. */
    settings();
    for (r = 0; r < 3; r++) {
        const int32_t x = 20 * (int32_t)r;
        point(x, 0, 4 * r + 1, 4 * r + 3, r), point(x + 10, 0, 4 * r + 2, 4 * r, r), point(x + 10, 5, 4 * r + 3, 4 * r + 1, r), point(x, 5, 4 * r, 4 * r + 2, r);
    }
    point(-30, 40, 13, 13, 4), point(-40, 50, 12, 12, 4);
    for (r = 0; r < 3; r++) record(0, NONE, 4 * r);
    record(0, NONE, NONE), record(1, NONE, 12);
    is("squares, a record without a ring, a line", outline_open(job, length, work, OUTLINE_WORK_WORDS), 0);
    is("the least x of the second square", work[BOXES + 1], OUTLINE_COORDINATE + 20);
    is("its least y", work[BOXES + OUTLINE_RECORDS + 1], OUTLINE_COORDINATE);
    is("its greatest x", work[BOXES + 2 * OUTLINE_RECORDS + 1], OUTLINE_COORDINATE + 30);
    is("its greatest y", work[BOXES + 3 * OUTLINE_RECORDS + 1], OUTLINE_COORDINATE + 5);
    is("all of them", everywhere(OUTLINE_RECORDS), found_so(4));
    is("the line's number", list[3], 4);
    is("a word past them", list[4], 0);
    is("the last word", list[OUTLINE_RECORDS - 1], 0);
    is("the word past the list", list[OUTLINE_RECORDS], 7);
    is("a list that just suffices", everywhere(4), found_so(4));
    is("a word of the list less", everywhere(3), OUTLINE_SMALL_TRAY);
    is("the list then", list[0], 7);
    is("an edge, just touched", in(30, 5, 39, 9, OUTLINE_RECORDS), found_so(1));
    is("whose", list[0], 1);
    is("a corner", in(-5, -5, 0, 0, OUTLINE_RECORDS), found_so(1));
    is("one beside it", in(-5, -5, -1, 0, 0), found_so(0));
    is("between two squares", in(11, 0, 19, 5, 0), found_so(0));
    is("a place in a square", in(45, 2, 45, 2, 1), found_so(1));
    is("inside out in x", in(50, 0, 0, 5, 0), found_so(0));
    is("inside out in y", in(0, 5, 50, 0, 0), found_so(0));
    is("inside out in both", in(INT32_MAX, INT32_MAX, INT32_MIN, INT32_MIN, 0), found_so(0));
    is("far away", in(INT32_MIN, INT32_MIN, INT32_MIN, INT32_MIN, 0), found_so(0));
    is("a word less, of a window", outline_records_in(work, OUTLINE_WORK_WORDS - 1, 0, 0, 0, 0, list, 0), OUTLINE_FULL);
    work[BOXES + 3] = 7;
    is("any box of a record without a ring", everywhere(OUTLINE_RECORDS), found_so(4));
    for (r = 0; r < 4; r++) {
        uint32_t *side = work + BOXES + r * OUTLINE_RECORDS + 4;
        ++*side;
        is("a box that is not its ring's", everywhere(0), OUTLINE_MUDDLED);
        is("the list then", list[0], 7);
        is("a step then", outline_step(work, OUTLINE_WORK_WORDS, 0), OUTLINE_MUDDLED);
        --*side;
    }
    is("as before", everywhere(OUTLINE_RECORDS), found_so(4));
    largest(1);
    is("as many rings as there may be", outline_open(job, length, work, OUTLINE_WORK_WORDS), 0);
    is("all of them, in a list that always suffices", everywhere(OUTLINE_RECORDS), found_so(OUTLINE_RECORDS));
    is("the last of them", list[OUTLINE_RECORDS - 1], OUTLINE_RECORDS - 1);
}

/* ---- backward links: a line of two points, the second its own prev */

static uint8_t found[OUTLINE_JOB_BYTES];

static void mending(void) {
    settings();
    point(0, 0, 1, 1, 0);
    point(5, 5, 0, 1, 0);
    record(1, NONE, 0);
    is("a loose link", outline_open(job, length, work, OUTLINE_WORK_WORDS), OUTLINE_LOOSE);
    memcpy(found, job, length);
    is("mended", outline_mend(job, length), 0);
    is("its prev", job[4 + 21 + 13], 0);
    job[4 + 21 + 13] = 1;
    is("its other bytes", (uint64_t)memcmp(found, job, length), 0);
    is("mended again", outline_mend(job, length), 0);
    is("opened", outline_open(job, length, work, OUTLINE_WORK_WORDS), 0);
    is("a byte less", outline_mend(job, length - 1), OUTLINE_TORN);
    job[15] = 0;
    memcpy(found, job, length);
    is("the next of none", outline_mend(job, length), OUTLINE_PAST_MENDING);
    job[4 + 21 + 13] = 2;
    is("a prev that names nothing, before 17", outline_mend(job, length), OUTLINE_NO_SUCH);
    job[4 + 21 + 13] = 0;
    is("nothing is altered", (uint64_t)memcmp(found, job, length), 0);
}

int main(void) {
    lengths();
    listings();
    rewriting();
    containing();
    reasons();
    states();
    pairs();
    windows();
    mending();
    counts();
    coordinates();
    depths();
    other_refusals();
    return faults != 0;
}

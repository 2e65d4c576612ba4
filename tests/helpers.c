/* helpers: the static functions of outline.h, for tests/header.
 *   helpers add ROOM FLAGS OWNER X Y Z .. <JOB   the job with the ring added, in a room of so many bytes; nothing if it is not
 *   helpers told <JOB                           a line for each record, made of the parts of outline_reason's answer, as the program reasons prints it
 *   helpers limits                              what is added at the limits and past them; any bytes as a tray */
#include "outline.h"
#include <stdio.h>
#include <stdlib.h>
#include <string.h>

static uint8_t job[2 * OUTLINE_JOB_BYTES], before[2 * OUTLINE_JOB_BYTES], tray[OUTLINE_TRAY_BYTES];
static uint32_t work[OUTLINE_WORK_WORDS];
static int32_t xyz[3 * (OUTLINE_POINTS + 1)];
static int faults;

static void is(const char *what, uint64_t answer, uint64_t wanted) {
    if (answer == wanted) return;
    fprintf(stderr, "helpers: %s: %llu, not %llu\n", what, (unsigned long long)answer, (unsigned long long)wanted);
    faults++;
}

static int add(int count, char **words) {
    size_t bytes = fread(job, 1, sizeof job, stdin), points = (size_t)(count - 5) / 3, k;
    for (k = 0; k < 3 * points; k++) xyz[k] = (int32_t)strtol(words[5 + k], NULL, 10);
    bytes = outline_add_ring(job, bytes, (size_t)atol(words[2]), (uint32_t)atol(words[3]), (uint32_t)atol(words[4]), xyz, points);
    fwrite(job, 1, bytes, stdout);
    return 0;
}

static void told(uint32_t record, uint64_t answer) {
    static const char *const words[] = {"", "no ring in the job", "", "too small to begin with", "too little left once points were removed",
                                        "area under 2 at a crossing", "too few points left for an outline", "too small for an outline", ""};
    uint32_t reason = outline_told_reason(answer), number = outline_told_number(answer);
    if (reason == OUTLINE_JOINED) {
        printf("record %u: joined into record %u\n", (unsigned)record, (unsigned)number);
    } else if (reason == OUTLINE_WRITTEN) {
        printf("record %u: %s outline %u\n", (unsigned)record, outline_told_list(answer) == 7 ? "open" : "closed", (unsigned)number);
    } else {
        printf("record %u: %s\n", (unsigned)record, words[reason]);
    }
}

static int tell(void) {
    size_t bytes = fread(job, 1, sizeof job, stdin);
    uint32_t record, refused = outline_finish(job, bytes, work, OUTLINE_WORK_WORDS, tray, sizeof tray);
    if (refused != 0) {
        printf("refused %u\n", (unsigned)refused);
        return 0;
    }
    for (record = 0;; record++) {
        uint64_t answer = outline_reason(work, OUTLINE_WORK_WORDS, record);
        if (outline_told_refusal(answer) != 0) return outline_told_refusal(answer) != OUTLINE_OUT_OF_TURN;
        told(record, answer);
    }
}

/* As many points and records as there may be, and one more; a room that is just enough, and a byte less; no job to add to. */
static void rings(void) {
    size_t bytes = outline_new_job(job, 4, 3), k;
    is("a new job", bytes, 4);
    is("a new job in three bytes", outline_new_job(before, 3, 0), 0);
    is("too many points", outline_add_ring(job, bytes, sizeof job, 0, 65535, xyz, OUTLINE_POINTS + 1), 0);
    is("as many points as may be", outline_add_ring(job, bytes, sizeof job, 0, 65535, xyz, OUTLINE_POINTS), 4 + 21 * OUTLINE_POINTS + 8);
    bytes = 4 + 21 * OUTLINE_POINTS + 8;
    is("a point more", outline_add_ring(job, bytes, sizeof job, 0, 65535, xyz, 1), 0);
    for (k = 1; k < OUTLINE_RECORDS; k++) bytes = outline_add_ring(job, bytes, sizeof job, 0, 0, xyz, 0);
    is("as many records as may be", bytes, 4 + 21 * OUTLINE_POINTS + 8 * OUTLINE_RECORDS);
    is("which is a job", outline_open(job, bytes, work, OUTLINE_WORK_WORDS), 0);
    is("a record more", outline_add_ring(job, bytes, sizeof job, 0, 0, xyz, 0), 0);
    bytes = outline_new_job(job, sizeof job, 0);
    memcpy(before, job, sizeof job);
    is("a byte too little room", outline_add_ring(job, bytes, bytes + 3 * 21 + 7, 0, 65535, xyz, 3), 0);
    is("of which nothing is used", (uint64_t)memcmp(before, job, sizeof job), 0);
    is("just room enough", outline_add_ring(job, bytes, bytes + 3 * 21 + 8, 0, 65535, xyz, 3), bytes + 3 * 21 + 8);
    is("no settings", outline_add_ring(job, 0, sizeof job, 0, 65535, xyz, 3), 0);
    is("less room than bytes", outline_add_ring(job, 4, 3, 0, 65535, xyz, 0), 0);
}

/* A tray of exactly so many bytes, so that a reader that goes past them is seen where memory is watched. */
static uint64_t paths_in(const uint8_t *bytes, size_t count) {
    uint8_t *copy = (uint8_t *)malloc(count + 1);
    struct outline_path path;
    size_t at = 0, k;
    uint64_t points = 0;
    copy = (uint8_t *)realloc(copy, count == 0 ? 1 : count);
    memcpy(copy, bytes, count);
    while (outline_next_path(copy, count, &at, &path)) {
        for (k = 0; k < path.points; k++) points += outline_path_z(&path, k) == outline_path_x(&path, k) + outline_path_y(&path, k);
        points += path.open ? 1000 : 0;
    }
    free(copy);
    return points;
}

static void trays(void) {
    static const uint8_t two[] = {6, 12, 0, 255, 255, 255, 255, 3, 0, 0, 0, 2, 0, 0, 0, 7, 24, 0, 0, 0, 0, 128, 0, 0, 0, 0, 0, 0, 0, 128, 1, 0, 0, 0, 1, 0, 0, 0, 2, 0, 0, 0, 0};
    uint8_t spoiled[sizeof two];
    size_t count, at = 100;
    struct outline_path path;
    for (count = 0; count <= sizeof two; count++) is("paths of a tray cut short", paths_in(two, count), count < 15 ? 0 : count < 42 ? 1 : 1003);
    for (count = 0; count < 256; count++) {
        memcpy(spoiled, two, sizeof two);
        spoiled[0] = (uint8_t)count;
        is("paths by their tag", paths_in(spoiled, sizeof two), count == 6 ? 1003 : count == 7 ? 2003 : 0);
        spoiled[0] = 6, spoiled[1] = (uint8_t)count;
        if (count % 12 != 0) is("a length that is no points'", paths_in(spoiled, sizeof two), 0);
    }
    is("past the end", (uint64_t)outline_next_path(two, sizeof two, &at, &path), 0);
}

int main(int count, char **words) {
    if (count >= 5 && strcmp(words[1], "add") == 0) return add(count, words);
    if (count == 2 && strcmp(words[1], "told") == 0) return tell();
    rings();
    trays();
    return faults != 0;
}

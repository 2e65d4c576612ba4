/* replay FILE: runs the stored answers of FILE (tests/answers/README.md) through liboutline.a with no Rust at hand: each job in one
 * call, listed, and by steps; its listing, its answer and every byte of its tray against what is stored. */
#define _POSIX_C_SOURCE 200809L
#include "outline.h"
#include <stdio.h>
#include <stdlib.h>
#include <string.h>

static uint32_t work[OUTLINE_WORK_WORDS];
static uint8_t tray[OUTLINE_TRAY_BYTES], wanted[OUTLINE_TRAY_BYTES], text[OUTLINE_TEXT_BYTES];

static void stop(const char *name, const char *what) {
    fprintf(stderr, "replay: %s: %s\n", name, what);
    exit(1);
}

/* The bytes that a line of hexadecimal digits stands for; their number. */
static size_t from_hex(const char *digits, uint8_t *bytes, size_t most) {
    size_t count = 0;
    unsigned byte;
    for (; count < most && sscanf(digits + 2 * count, "%2x", &byte) == 1; count++) bytes[count] = byte;
    return count;
}

/* Opens a job, steps its rings in rising record order until each is done, and writes out. */
static uint32_t by_steps(const uint8_t *job, size_t length) {
    uint32_t answer = outline_open(job, length, work, OUTLINE_WORK_WORDS);
    for (uint32_t record = 0; answer == 0 && record < OUTLINE_RECORDS; record++) {
        uint32_t stepped;
        while ((stepped = outline_step(work, OUTLINE_WORK_WORDS, record)) == 0) {
        }
        if (stepped != OUTLINE_OUT_OF_TURN) answer = stepped;
    }
    return answer != 0 ? answer : outline_write(work, OUTLINE_WORK_WORDS, tray, sizeof tray);
}

static void check(const char *name, const char *how, uint32_t answer, uint32_t refused) {
    if (answer != refused) stop(name, how);
    if (answer == 0 && memcmp(tray, wanted, sizeof tray) != 0) stop(name, how);
}

static void run(const char *name, const uint8_t *job, size_t length, const char *listing) {
    unsigned refused = 0;
    sscanf(listing, "refused %u", &refused);
    memset(tray, 7, sizeof tray);
    check(name, "finished in one call it answers otherwise", outline_finish(job, length, work, OUTLINE_WORK_WORDS, tray, sizeof tray), refused);
    memset(tray, 7, sizeof tray);
    check(name, "finished by steps it answers otherwise", by_steps(job, length), refused);
    memset(tray, 7, sizeof tray);
    uint64_t bytes = outline_list(job, length, work, OUTLINE_WORK_WORDS, tray, sizeof tray, 0, text, sizeof text);
    if (bytes != strlen(listing) || memcmp(text, listing, bytes) != 0) stop(name, "it is listed otherwise");
    check(name, "listed, its tray is another", refused, refused);
}

int main(int count, char **words) {
    FILE *file = count == 2 ? fopen(words[1], "r") : NULL;
    if (file == NULL) stop("usage", "replay FILE, a file of stored answers");
    char *line = NULL, *name = NULL, *listing = calloc(1, 1);
    size_t room = 0, job_room = 0, job_length = 0, cases = 0;
    uint8_t *job = NULL;
    while (getline(&line, &room, file) > 0) {
        if (strncmp(line, "case ", 5) == 0) {
            free(name);
            name = strdup(line + 5);
            name[strcspn(name, "\n")] = 0;
            listing[0] = 0;
        } else if (strncmp(line, "job ", 4) == 0) {
            job_room = strlen(line);
            job = realloc(job, job_room);
            job_length = from_hex(line + 4, job, job_room);
        } else if (strncmp(line, "tray ", 5) == 0) {
            memset(wanted, 0, sizeof wanted);
            from_hex(line + 5, wanted, sizeof wanted);
            run(name, job, job_length, listing);
            cases++;
        } else if (line[0] != '\n' && line[0] != '#') {
            listing = realloc(listing, strlen(listing) + strlen(line) + 1);
            strcat(listing, line);
        }
    }
    if (cases == 0) stop(words[1], "no stored answers in it");
    printf("replay: %zu stored answers, in one call, by steps and listed, the same\n", cases);
    return 0;
}

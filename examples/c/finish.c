/* finish FILE [RATE]: finishes the job in FILE in one call and prints its listing, as the program cutlist does.
 * finish --paths FILE: finishes it likewise and walks the tray: a line for each path, its kind and its points.
 * Ends with 0; with 1 if the job is refused; with 2 if it could not be run, or what it prints not be written. */
#include "outline.h"
#include <stdio.h>
#include <string.h>

static uint8_t job[OUTLINE_JOB_BYTES];
static uint32_t work[OUTLINE_WORK_WORDS];
static uint8_t tray[OUTLINE_TRAY_BYTES];
static uint8_t text[OUTLINE_TEXT_BYTES];

/* Cents for a square decimetre: decimal digits alone. What is no such number, or 0, is handed on as one that is refused. */
static uint32_t rate_of(const char *word) {
    uint32_t rate = 0;
    for (; *word >= '0' && *word <= '9'; word++) {
        rate = 10 * rate + (uint32_t)(*word - '0');
        if (rate > OUTLINE_RATE) rate = OUTLINE_RATE + 1;
    }
    return *word != 0 || rate == 0 ? OUTLINE_RATE + 1 : rate;
}

/* The listing, which is `refused` and a number where the job is refused. */
static int list(size_t length, uint32_t rate) {
    uint64_t bytes = outline_list(job, length, work, OUTLINE_WORK_WORDS, tray, sizeof tray, rate, text, sizeof text);
    fwrite(text, 1, bytes, stdout);
    return bytes > 8 && memcmp(text, "refused ", 8) == 0;
}

/* The paths, as the tray has them. */
static int walk(size_t length) {
    struct outline_path path;
    size_t at = 0, k;
    uint32_t refused = outline_finish(job, length, work, OUTLINE_WORK_WORDS, tray, sizeof tray);
    if (refused != 0) {
        printf("refused %u\n", (unsigned)refused);
        return 1;
    }
    while (outline_next_path(tray, sizeof tray, &at, &path)) {
        printf(path.open ? "open" : "closed");
        for (k = 0; k < path.points; k++) {
            printf(" %d,%d,%d", (int)outline_path_x(&path, k), (int)outline_path_y(&path, k), (int)outline_path_z(&path, k));
        }
        printf("\n");
    }
    return 0;
}

int main(int count, char **words) {
    int walks = count == 3 && strcmp(words[1], "--paths") == 0, status;
    const char *name;
    FILE *file;
    size_t length;
    if (count != 2 && count != 3) {
        fprintf(stderr, "usage: finish FILE [RATE]\n       finish --paths FILE\n");
        return 2;
    }
    name = words[walks ? 2 : 1];
    file = fopen(name, "rb");
    length = file == NULL ? 0 : fread(job, 1, sizeof job, file);
    if (file == NULL || ferror(file)) { /* a folder opens, and cannot be read */
        fprintf(stderr, "finish: cannot read %s\n", name);
        return 2;
    }
    fclose(file);
    status = walks ? walk(length) : list(length, count == 3 ? rate_of(words[2]) : 0);
    if (fflush(stdout) != 0 || ferror(stdout)) {
        fprintf(stderr, "finish: cannot write to standard output\n");
        return 2;
    }
    return status;
}

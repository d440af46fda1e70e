/*
 * fit_all IMAGE LEDGER OBJECT ORDER [OBJECT ORDER]..: fits several objects over files, as one list of calls.
 * Writes number, place and reason of each; image and ledger are replaced where all are done.
 */
#include "aktinoph.h"
#include "files.h"

/* As many fits as can stand. */
enum { MOST = 16 };

static uint8_t image[LONGEST + 1], ledger[LONGEST + 1];
/* The count; of each fit its kind, and object and order after their lengths; and the byte past the longest file. */
static uint8_t calls[4 + MOST * (4 + 2 * (4 + LONGEST)) + 1];
static size_t calls_len;
static uint64_t answers[MOST];

static void write_u32(uint8_t *at, size_t number) {
    for (int byte = 0; byte < 4; byte++)
        at[byte] = (uint8_t)(number >> (8 * byte));
}

static void add_u32(size_t number) {
    write_u32(calls + calls_len, number);
    calls_len += 4;
}

static void add_file(const char *name) {
    size_t length = read_file(name, calls + calls_len + 4);
    add_u32(length);
    calls_len += length;
}

int main(int count, char **names) {
    int fits = (count - 3) / 2;
    if (fits < 1 || fits > MOST || count % 2 == 0) {
        fprintf(stderr, "usage: fit_all IMAGE LEDGER OBJECT ORDER [OBJECT ORDER].. (at most %d)\n", MOST);
        return 1;
    }
    add_u32((size_t)fits);
    for (int fit = 0; fit < fits; fit++) {
        add_u32(AKTINOPH_CALL_FIT);
        add_file(names[3 + 2 * fit]);
        add_file(names[4 + 2 * fit]);
    }
    size_t image_len = read_file(names[1], image), ledger_len = read_file(names[2], ledger);
    if (!aktinoph_replay(calls, calls_len, image, image_len, ledger, ledger_len, answers, MOST)) {
        fprintf(stderr, "not a list of calls\n");
        return 1;
    }
    int done = 0;
    for (int fit = 0; fit < fits; fit++) {
        printf("%u %lu %u\n", aktinoph_number(answers[fit]), (unsigned long)aktinoph_place(answers[fit]),
               aktinoph_reason(answers[fit]));
        done += aktinoph_number(answers[fit]) == AKTINOPH_DONE;
    }
    if (done != fits)
        return 0;
    /* While the image is written, the ledger's file has the old bytes of every fit. */
    write_file(names[2], ledger, ledger_len);
    write_file(names[1], image, image_len);
    return 0;
}

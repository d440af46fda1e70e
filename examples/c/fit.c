/*
 * fit OBJECT ORDER IMAGE LEDGER: one fit over files. fit IMAGE LEDGER: takes the newest fit back.
 * Writes number, place and reason; a done call replaces image and ledger.
 */
#include <stdbool.h>

#include "aktinoph.h"
#include "files.h"

static uint8_t object[LONGEST + 1], order[LONGEST + 1], image[LONGEST + 1], ledger[LONGEST + 1];

int main(int count, char **names) {
    bool is_fit = count == 5, is_take_back = count == 3;
    if (!is_fit && !is_take_back) {
        fprintf(stderr, "usage: fit OBJECT ORDER IMAGE LEDGER\n       fit IMAGE LEDGER (takes the newest fit back)\n");
        return 1;
    }
    const char *image_name = names[count - 2], *ledger_name = names[count - 1];
    size_t image_len = read_file(image_name, image), ledger_len = read_file(ledger_name, ledger);
    uint64_t answer;
    if (is_fit) {
        size_t object_len = read_file(names[1], object), order_len = read_file(names[2], order);
        answer = aktinoph_fit(object, object_len, order, order_len, image, image_len, ledger, ledger_len);
    } else {
        answer = aktinoph_take_back(image, image_len, ledger, ledger_len);
    }
    printf("%u %lu %u\n", aktinoph_number(answer), (unsigned long)aktinoph_place(answer), aktinoph_reason(answer));
    if (aktinoph_number(answer) != AKTINOPH_DONE)
        return 0;
    /* While the image is written, the ledger's file has the old bytes: it comes first after a fit, else last. */
    if (is_fit)
        write_file(ledger_name, ledger, ledger_len);
    write_file(image_name, image, image_len);
    if (is_take_back)
        write_file(ledger_name, ledger, ledger_len);
    return 0;
}

/* Whole files, for the examples; a failure ends the program. */
#include <stdint.h>
#include <stdio.h>
#include <stdlib.h>

/* An allowed object or image has at most 1,048,576 bytes; one more shows that a file is too long. */
enum { LONGEST = 1048576 };

static size_t read_file(const char *name, uint8_t *bytes) {
    FILE *file = fopen(name, "rb");
    size_t length = file ? fread(bytes, 1, LONGEST + 1, file) : 0;
    if (!file || ferror(file) || length > LONGEST) {
        fprintf(stderr, "%s: cannot be read, or is too long\n", name);
        exit(1);
    }
    fclose(file);
    return length;
}

static void write_file(const char *name, const uint8_t *bytes, size_t length) {
    FILE *file = fopen(name, "wb");
    if (!file || fwrite(bytes, 1, length, file) != length || fclose(file) != 0) {
        fprintf(stderr, "%s: cannot be written\n", name);
        exit(1);
    }
}

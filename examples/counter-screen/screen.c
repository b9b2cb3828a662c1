/* A ticket counter's screen: prints the report of each file named on the command line. */
#include <stdio.h>
#include <stdlib.h>
#include <string.h>

#include "period_report.h"

enum { FILE_SPACE = 60001 };

/* Reads at most FILE_SPACE bytes of a file; one byte too many is enough for the report to say so. */
static size_t read_file(const char *name, uint8_t *space)
{
    FILE *in = fopen(name, "rb");
    if (in == NULL) {
        fprintf(stderr, "screen: %s: cannot be read\n", name);
        exit(1);
    }
    size_t got = fread(space, 1, FILE_SPACE, in);
    if (ferror(in)) {
        fprintf(stderr, "screen: %s: cannot be read\n", name);
        exit(1);
    }
    fclose(in);
    return got;
}

int main(int argc, char **argv)
{
    static uint8_t file[FILE_SPACE];
    static uint8_t text[PERIOD_REPORT_SPACE + 1];

    for (int i = 1; i < argc; i++) {
        size_t length = read_file(argv[i], file);
        memset(text, '#', sizeof text);
        int64_t wrote = report(file, length, text, PERIOD_REPORT_SPACE);
        if (wrote < 0 || wrote > PERIOD_REPORT_SPACE || text[wrote] != '#' || text[PERIOD_REPORT_SPACE] != '#') {
            fprintf(stderr, "screen: %s: %lld bytes, or bytes past them\n", argv[i], (long long)wrote);
            return 1;
        }
        const char *base = strrchr(argv[i], '/');
        printf("== %s\n", base == NULL ? argv[i] : base + 1);
        fwrite(text, 1, (size_t)wrote, stdout);
    }
    /* a text space that is too small is refused, and nothing is written */
    memset(text, '#', sizeof text);
    printf("== a text space of %d bytes\n%lld\n", PERIOD_REPORT_SPACE - 1, (long long)report(file, 0, text, PERIOD_REPORT_SPACE - 1));
    return text[0] == '#' ? 0 : 1;
}

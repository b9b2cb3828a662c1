/* The report of a supplier's file, for C programs that link libreport.a. */
#ifndef PERIOD_REPORT_H
#define PERIOD_REPORT_H

#include <stddef.h>
#include <stdint.h>

/* The least text space that the report takes, in bytes. It always suffices. */
#define PERIOD_REPORT_SPACE 4096

/*
 * Writes the report of the file into the text space, from its first byte on, and answers how many bytes it wrote:
 * lines that end in a line feed, with no byte 0 after them. What the file is refused for is a line too.
 * With a text space below PERIOD_REPORT_SPACE bytes it writes nothing and answers -17.
 * Bytes of the text space past those written stay as they are, and the file is only read.
 *
 * file points to file_len bytes and text to text_len bytes; neither may be NULL, not even where the length is 0, and
 * the two must not overlap.
 */
int64_t report(const uint8_t *file, size_t file_len, uint8_t *text, size_t text_len);

#endif

/* The run of a study, as a C program calls it. */
#ifndef WASKURIN_H
#define WASKURIN_H

#include <stddef.h>
#include <stdint.h>

/* A text above this many bytes is answered by fault 27 alone. */
#define WASKURIN_TEXT_MOST 65536

/* Nothing is ever written to a page below this many bytes. */
#define WASKURIN_PAGE_LEAST 32

/*
 * Runs the study in text[0 .. text_len) on a new line and writes an answer
 * line for each of its lines to page. Returns the number of bytes written,
 * which is at most page_len; page[returned .. page_len) stays as it was, and
 * the text is only read. docs/run-files.md has the formats.
 *
 * Memory for the line is got before the first byte is written and given back
 * before the return. If there is none, 0 is returned and the page stays as it
 * was. The only other cases of 0 are an empty text and a page of fewer than
 * WASKURIN_PAGE_LEAST bytes.
 *
 * The caller sees to it that both pointers are valid for their lengths and not
 * null, even at length 0, and that the page overlaps neither the text nor
 * anything else in use during the call. Nothing is kept from one call to the
 * next.
 */
size_t waskurin_run(const uint8_t *text, size_t text_len, uint8_t *page,
                    size_t page_len);

#endif

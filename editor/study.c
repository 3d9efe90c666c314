/* Runs a study from standard input and writes its answers to standard output,
 * the way an editor does with a buffer that it holds. */
#include "waskurin.h"

#include <stdio.h>

/* Room for more than a study may have, so that the run itself gets to say
 * that a text is too long. */
#define TEXT_ROOM (2 * WASKURIN_TEXT_MOST)
#define PAGE_ROOM 65536

static uint8_t text[TEXT_ROOM];
static uint8_t page[PAGE_ROOM];

static int fail(const char *why)
{
    fprintf(stderr, "study: %s\n", why);
    return 1;
}

int main(void)
{
    size_t length = fread(text, 1, sizeof text, stdin);
    if (ferror(stdin))
        return fail("cannot read the study");
    if (length == sizeof text && getchar() != EOF)
        return fail("the study does not fit the buffer");
    if (ferror(stdin))
        return fail("cannot read the study");

    size_t written = waskurin_run(text, length, page, sizeof page);
    if (written > sizeof page)
        return fail("the run claims more bytes than the page has");
    if (written == 0 && length > 0)
        return fail("no memory for a line");

    if (fwrite(page, 1, written, stdout) != written || fflush(stdout) != 0)
        return fail("cannot write the answers");
    return 0;
}

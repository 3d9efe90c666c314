/* Calls the run at the edges of its text and its page, and compares all that it
 * answers, and all that it leaves, byte by byte. */
#define _POSIX_C_SOURCE 200809L

#include "waskurin.h"

#include <inttypes.h>
#include <pthread.h>
#include <stdio.h>
#include <stdlib.h>
#include <string.h>

/* Room for the longest answer here: a fault for each of 65,536 empty lines. */
#define ROOM 2097152

/* Bytes before and behind a page, which are not the run's. */
#define GUARD 64

/* A thread's stack on which a run still answers. */
#define SMALL_STACK 24576

#define LINK "(link (longest 100))\n"
#define DEPART "(depart)\n"
#define DONE "(done)\n"
#define IDLE "(refused 13 idle)\n"
#define PAGE_FAULT "(fault 26 page 1 1)\n"
#define TEXT_FAULT "(fault 27 text 0 0)\n"

static const char listing[] =
    "(link (longest 100))\n"
    "(open (at 0) (session 0) (interval 2) (places 4))\n"
    "(open (at 0) (session 1) (interval 4) (places 4))\n"
    "(open (at 0) (session 2) (interval 4) (places 4))\n"
    "(arrive (at 0) (session 0) (bytes 10))\n"
    "(arrive (at 0) (session 1) (bytes 10))\n"
    "(change (at 5) (session 0) (interval 4))\n"
    "(change (at 5) (session 1) (interval 2))\n"
    "(depart)\n"
    "(change (at 10) (session 1) (interval 2))\n"
    "(arrow)\n";

static const char listing_answers[] =
    "(done)\n(done)\n(done)\n(done)\n(done)\n(done)\n(done)\n"
    "(refused 10 share)\n"
    "(left (session 0) (bytes 10) (arrived 0) (at 10) (due 20) (spare 10) "
    "(waiting 0))\n"
    "(done)\n"
    "(fault 22 word 11 2)\n";

struct buffer {
    size_t length;
    uint8_t bytes[ROOM];
};

static struct buffer text;
static struct buffer expected;
static uint8_t text_before[ROOM];
static uint8_t memory[2][GUARD + ROOM + GUARD];
static unsigned passed;

/* A byte that tells its place, so that bytes which moved are seen too. */
static uint8_t pattern(size_t i)
{
    return (uint8_t)(i * 7 % 251);
}

static void put(struct buffer *to, const char *string)
{
    size_t length = strlen(string);
    if (length > ROOM - to->length) {
        fprintf(stderr, "edges: a buffer of this test is too small\n");
        exit(1);
    }
    memcpy(to->bytes + to->length, string, length);
    to->length += length;
}

static void put_times(struct buffer *to, size_t times, const char *string)
{
    for (size_t i = 0; i < times; i++)
        put(to, string);
}

static void study(const char *string)
{
    text.length = 0;
    put(&text, string);
}

static void answers(const char *string)
{
    expected.length = 0;
    put(&expected, string);
}

/* A study of a link and as many departures from the idle line. */
static void idle_study(size_t departures)
{
    study(LINK);
    put_times(&text, departures, DEPART);
}

static void idle_answers(size_t departures, const char *last)
{
    answers(DONE);
    put_times(&expected, departures, IDLE);
    put(&expected, last);
}

static void differs(const char *name, const char *what, uintmax_t at,
                    uintmax_t is, uintmax_t should)
{
    fprintf(stderr,
            "edges: %s: %s %" PRIuMAX " is %" PRIuMAX ", expected %" PRIuMAX
            "\n",
            name, what, at, is, should);
    exit(1);
}

/* Runs the study on a page of so many bytes, in the middle of a patterned
 * memory. The answer must be the expected one, and all other bytes, those
 * around the page too, must keep the pattern. The text must stay. */
static void check_on(unsigned place, const char *name, size_t page_length)
{
    uint8_t *all = memory[place];
    size_t size = sizeof memory[place];
    for (size_t i = 0; i < size; i++)
        all[i] = pattern(i);
    memcpy(text_before, text.bytes, ROOM);

    size_t written =
        waskurin_run(text.bytes, text.length, all + GUARD, page_length);

    if (written != expected.length)
        differs(name, "the answer's length on a page of", page_length, written,
                expected.length);
    for (size_t i = 0; i < size; i++) {
        int answer = i >= GUARD && i - GUARD < expected.length;
        uint8_t should = answer ? expected.bytes[i - GUARD] : pattern(i);
        if (all[i] != should)
            differs(name, i < GUARD ? "before the page, byte" : "byte",
                    i < GUARD ? i : i - GUARD, all[i], should);
    }
    for (size_t i = 0; i < ROOM; i++)
        if (text.bytes[i] != text_before[i])
            differs(name, "text byte", i, text.bytes[i], text_before[i]);
    passed++;
}

static void check(const char *name, size_t page_length)
{
    check_on(0, name, page_length);
}

static void small_pages(void)
{
    study(LINK);
    answers("");
    check("a page of no bytes", 0);
    check("a page of 31 bytes", 31);
    answers(PAGE_FAULT);
    check("a page of 32 bytes", 32);
    check("a page of 191 bytes", 191);
    answers(DONE);
    check("a page of 192 bytes", 192);

    study(LINK DEPART);
    answers(DONE "(fault 26 page 2 1)\n");
    check("two lines on a page of 192 bytes", 192);
    check("two lines on a page of 198 bytes", 198);
    answers(DONE IDLE);
    check("two lines on a page of 199 bytes", 199);
}

static void empty_texts(void)
{
    study("");
    answers("");
    check("an empty text on a page of no bytes", 0);
    check("an empty text on a page of 31 bytes", 31);
    check("an empty text on a page of 32 bytes", 32);
    check("an empty text on a large page", ROOM);
}

/* A link of 21 bytes, 7,278 departures of 9, and one with 4 blanks more. */
static void longest_text(void)
{
    idle_study(7278);
    put(&text, "(depart)    \n");
    if (text.length != WASKURIN_TEXT_MOST)
        differs("the longest text", "its length, line", 1, text.length,
                WASKURIN_TEXT_MOST);
    idle_answers(7279, "");
    check("the longest text", ROOM);
    answers(PAGE_FAULT);
    check("the longest text on a page of 32 bytes", 32);
    answers("");
    check("the longest text on a page of 31 bytes", 31);

    put(&text, " ");
    check("a text of 65,537 bytes on a page of 31 bytes", 31);
    answers(TEXT_FAULT);
    check("a text of 65,537 bytes on a page of 32 bytes", 32);
    check("a text of 65,537 bytes on a page of 191 bytes", 191);
    check("a text of 65,537 bytes on a large page", ROOM);
}

static void longest_line(void)
{
    study("");
    put_times(&text, WASKURIN_TEXT_MOST, " ");
    answers("(fault 21 bracket 1 65537)\n");
    check("a line of 65,536 blanks", ROOM);
}

static void most_lines(void)
{
    study("");
    put_times(&text, WASKURIN_TEXT_MOST, "\n");
    answers("");
    for (unsigned line = 1; line <= WASKURIN_TEXT_MOST; line++) {
        char fault[32];
        snprintf(fault, sizeof fault, "(fault 21 bracket %u 1)\n", line);
        put(&expected, fault);
    }
    check("65,536 empty lines", ROOM);
}

/* The link's answer has 7 bytes and each departure's 18. So 817 bytes are
 * written after 46 lines, and line 47 needs a page of 817 + 192. */
static void full_pages(void)
{
    idle_study(500);
    idle_answers(45, "(fault 26 page 47 1)\n");
    check("a page of 1,000 bytes that fills", 1000);
    check("one byte too few for line 47", 1008);
    idle_answers(46, "(fault 26 page 48 1)\n");
    check("just enough for line 47", 1009);

    idle_study(45);
    idle_answers(45, "");
    check("a page that is full after the last line", 1000);
}

static void last_lines(void)
{
    study(LINK "(depart)");
    answers(DONE IDLE);
    check("no last line end", ROOM);
    study(LINK DEPART);
    check("a last line end", ROOM);

    /* What lies behind the text would make the last line sound. */
    text.length -= strlen(")\n");
    answers(DONE "(fault 21 bracket 2 8)\n");
    check("a text that ends before its last bracket", ROOM);

    study(LINK "\n");
    answers(DONE "(fault 21 bracket 2 1)\n");
    check("an empty last line", ROOM);
}

static void nothing_kept(void)
{
    study(listing);
    answers(listing_answers);
    check_on(0, "the listing on the first page", ROOM);

    study(DEPART);
    answers("(fault 25 order 1 1)\n");
    check_on(1, "a departure without a link, after a linked study", ROOM);

    study(listing);
    answers(listing_answers);
    check_on(1, "the listing on the second page", ROOM);
    for (size_t i = 0; i < sizeof memory[0]; i++)
        if (memory[0][i] != memory[1][i])
            differs("the listing on two pages", "byte", i, memory[1][i],
                    memory[0][i]);
    passed++;
}

static void *run_listing(void *name)
{
    check(name, ROOM);
    return NULL;
}

/* A run that needs more stack ends the program here. */
static void small_stack(void)
{
    static char name[] = "the listing on a small stack";
    pthread_attr_t attributes;
    pthread_t thread;
    study(listing);
    answers(listing_answers);
    if (pthread_attr_init(&attributes) != 0 ||
        pthread_attr_setstacksize(&attributes, SMALL_STACK) != 0 ||
        pthread_create(&thread, &attributes, run_listing, name) != 0 ||
        pthread_join(thread, NULL) != 0) {
        fprintf(stderr, "edges: %s: no thread\n", name);
        exit(1);
    }
}

int main(void)
{
    small_pages();
    empty_texts();
    longest_text();
    longest_line();
    most_lines();
    full_pages();
    last_lines();
    nothing_kept();
    small_stack();
    printf("edges: %u checks passed\n", passed);
    return fflush(stdout) == 0 ? 0 : 1;
}

/*
 * The functions of frames.h on the worked example of document 01. Every answer, every place that is written and every place that
 * must stay as it was is compared with what the document gives; the first difference ends the program with status 1.
 *
 *     cc -Ic c/example.c target/staticlib/libexports.a -o target/example && target/example
 */
#include "frames.h"

#include <inttypes.h>
#include <stdio.h>
#include <stdlib.h>
#include <string.h>

/* The network: T = 48; links 0 and 1 have K 8 and Z 2, and no frame is closed. */
static const uint8_t net[] = {0x30, 0x00, 0x02, 0x03, 0x08, 0x02, 0x03, 0x08, 0x02};

/* The same, but that link 1 has a least hold Y of 0, under bit 3 of its map byte: its switch needs no frame to turn round. */
static const uint8_t no_hold[] = {0x30, 0x00, 0x02, 0x03, 0x08, 0x02, 0x0b, 0x08, 0x02, 0x00};

/* One link of K 16 and Z 4 with Y 5, above Z. */
static const uint8_t above_range[] = {0x30, 0x00, 0x01, 0x08, 0x05};

static const uint8_t calls[] = {
    0x01, 0x05, 0x00, 0x02, 0x00, 0x01, /* set-up 5 over 0 1: frames 7 0 in cycles 0 1, which is a delay of 6 ticks */
    0x01, 0x05, 0x00, 0x02, 0x00, 0x01, /* set-up 5 again: refused with 16 */
    0x03, 0x05, 0x00,                   /* release 5 */
    0x02, 0x01, 0x00,                   /* quote over 0 */
    0x03, 0x05, 0x00,                   /* release 5: refused with 19 */
};

/* So many bytes of the calls leave session 5 live, LIVE_CUT inside the second record; and so many release it. */
enum { LIVE = 6, LIVE_CUT = 8, LIVE_STILL = 12, RELEASED = 15 };

/* Set-ups of 5 and 6 over 0 1. What 5 holds leaves 7 frames of link 0, each with holds 1 and 2 but for frame 6, which has
   hold 1 alone, since frame 0 of link 1 is held: 13 transitions. */
static const uint8_t two[] = {0x01, 0x05, 0x00, 0x02, 0x00, 0x01, 0x01, 0x06, 0x00, 0x02, 0x00, 0x01};

/* Numbers of two bytes and of four; 65,541 has the low 16 bits of 5. */
static const uint8_t mixed[] = {
    0x01, 0x05, 0x00, 0x02, 0x00, 0x01,             /* set-up 5 over 0 1 */
    0x04, 0x05, 0x00, 0x01, 0x00, 0x02, 0x00, 0x01, /* set-up 65,541 over 0 1: as 6 above */
    0x05, 0x05, 0x00, 0x00, 0x00,                   /* release 5 */
    0x03, 0x05, 0x00,                               /* release 5: refused with 19, since 65,541 is another number */
    0x05, 0x05, 0x00, 0x01, 0x00,                   /* release 65,541 */
};

/* So many bytes of these leave both sessions live, and so many 65,541 alone. */
enum { BOTH = 14, ONE = 22 };

/* The buffers that are lent. The places behind are lent to no call, and between two calls every byte is UNTOUCHED. */
enum { BEHIND = 8, UNTOUCHED = 0xa5 };
static uint8_t text[FRAMES_TEXT_MOST + BEHIND];
static uint16_t session[FRAMES_SESSION_MOST + BEHIND];
static uint64_t ways[1 + BEHIND];
static uint8_t image[FRAMES_IMAGE_MOST + BEHIND];

/* The function that is tried, and how many calls of it came out as expected. */
static const char *function;
static int passed;

static void clear(void)
{
    memset(text, UNTOUCHED, sizeof text);
    memset(session, UNTOUCHED, sizeof session);
    memset(ways, UNTOUCHED, sizeof ways);
    memset(image, UNTOUCHED, sizeof image);
}

static void begin(const char *name)
{
    function = name;
    passed = 0;
    clear();
}

static void end(void)
{
    printf("%s: %d calls as expected\n", function, passed);
}

/* ---- What a call must come to ---- */

static void compare_answer(const char *what, uint64_t answer, uint64_t expected)
{
    if (answer != expected) {
        fprintf(stderr, "%s, %s: answered %" PRIu64 ", expected %" PRIu64 "\n", function, what, answer, expected);
        exit(1);
    }
}

/* A buffer has these bytes at its start, and the others are untouched. */
static void compare_buffer(const char *what, const void *buffer, size_t size, const void *written, size_t length)
{
    const uint8_t *got = buffer, *start = written;
    for (size_t i = 0; i < size; i++) {
        int expected = i < length ? start[i] : UNTOUCHED;
        if (got[i] != expected) {
            fprintf(stderr, "%s, %s: byte %zu of the buffer is %02x, expected %02x\n", function, what, i, got[i], expected);
            exit(1);
        }
    }
}

/* All four buffers, by how many of these bytes stand in each. */
static void compare_buffers(const char *what, const void *written, size_t in_text, size_t in_session, size_t in_ways,
                            size_t in_image)
{
    compare_buffer(what, text, sizeof text, written, in_text);
    compare_buffer(what, session, sizeof session, written, in_session);
    compare_buffer(what, ways, sizeof ways, written, in_ways);
    compare_buffer(what, image, sizeof image, written, in_image);
    clear();
    passed++;
}

static void text_is(const char *what, uint64_t answer, const char *expected)
{
    compare_answer(what, answer, strlen(expected));
    compare_buffers(what, expected, strlen(expected), 0, 0, 0);
}

/* A session of two hops. */
static void session_is(const char *what, uint64_t answer, const uint16_t expected[8])
{
    compare_answer(what, answer, 8);
    compare_buffers(what, expected, 0, 8 * sizeof expected[0], 0, 0);
}

/* Session 5 has two hops, a delay of 6 ticks, links 0 1, frames 7 0 and cycles 0 1: on link 1 frame 7 has reference frame 7, and
   with the hold of 1 that is 8, not below K, so that frame 0 lies in the next cycle. */
static void session_5_is_shown(const char *what, uint64_t answer)
{
    static const uint16_t expected[] = {2, 6, 0, 1, 7, 0, 0, 1};
    session_is(what, answer, expected);
}

/* Session 6 has frames 0 1, both in cycle 0: reference frame 0 and hold 1 make 1, which is below K. */
static void session_6_is_shown(const char *what, uint64_t answer)
{
    static const uint16_t expected[] = {2, 6, 0, 1, 0, 1, 0, 0};
    session_is(what, answer, expected);
}

/* Where link 1 has Y 0, session 5 has frames 0 0 and no delay: reference frame 0 and hold 0 make 0, so that both lie in cycle 0. */
static void session_without_hold_is_shown(const char *what, uint64_t answer)
{
    static const uint16_t expected[] = {2, 0, 0, 1, 0, 0, 0, 0};
    session_is(what, answer, expected);
}

/* One number was put. */
static void ways_are(const char *what, uint64_t answer, uint64_t expected)
{
    compare_answer(what, answer, 1);
    compare_buffers(what, &expected, 0, 0, sizeof expected, 0);
}

static void image_is(const char *what, uint64_t answer, const uint8_t *expected, size_t length)
{
    compare_answer(what, answer, length);
    compare_buffers(what, expected, 0, 0, 0, length);
}

static void count_is(const char *what, uint64_t answer, uint64_t expected)
{
    compare_answer(what, answer, expected);
    compare_buffers(what, NULL, 0, 0, 0, 0);
}

static void is_refused(const char *what, uint64_t answer, uint64_t number)
{
    count_is(what, answer, FRAMES_REFUSED + number);
}

/* ---- The calls ---- */

static void try_report(void)
{
    static const uint8_t zeros[FRAMES_CALLS_MOST + 1] = {0};     /* no record is of kind 0 */
    const size_t room = FRAMES_TEXT_BOUND(sizeof calls);         /* 22 + 11 * 21 = 253 */
    const size_t one = 22 + 11 * LIVE, cut = 22 + 11 * LIVE_CUT; /* 88 and 110 */

    begin("frames_report");
    uint64_t length = frames_report(net, sizeof net, calls, sizeof calls, text, room);
    text_is("all calls", length, "1 S ok 6 16 7 0 / 0 1\n2 S no 16\n3 R ok\n4 Q ok 0 0 0 / 0\n5 R no 19\nlive 0\n");
    is_refused("a byte below the bound", frames_report(net, sizeof net, calls, sizeof calls, text, room - 1), 20);
    is_refused("no buffer", frames_report(net, sizeof net, calls, sizeof calls, NULL, 0), 20);
    text_is("one call", frames_report(net, sizeof net, calls, LIVE, text, one), "1 S ok 6 16 7 0 / 0 1\nlive 1\n");
    length = frames_report(net, sizeof net, calls, LIVE_CUT, text, cut);
    text_is("a cut record", length, "1 S ok 6 16 7 0 / 0 1\n2 ? no 11\nlive 1\n");
    length = frames_report(net, sizeof net, two, sizeof two, text, FRAMES_TEXT_BOUND(sizeof two));
    text_is("two sessions", length, "1 S ok 6 16 7 0 / 0 1\n2 S ok 6 13 0 1 / 0 0\nlive 2\n");
    length = frames_report(net, sizeof net, mixed, sizeof mixed, text, FRAMES_TEXT_BOUND(sizeof mixed));
    text_is("numbers of both widths", length,
            "1 S ok 6 16 7 0 / 0 1\n2 S ok 6 13 0 1 / 0 0\n3 R ok\n4 R no 19\n5 R ok\nlive 0\n");
    length = frames_report(net, sizeof net, mixed, BOTH - 1, text, FRAMES_TEXT_BOUND(BOTH - 1));
    text_is("a set-up of kind 4 cut in its route", length, "1 S ok 6 16 7 0 / 0 1\n2 ? no 11\nlive 1\n");
    /* from each of 8 frames there are the holds 0, 1 and 2; the least delay is 0 */
    length = frames_report(no_hold, sizeof no_hold, calls, LIVE, text, one);
    text_is("Y 0 on link 1", length, "1 S ok 0 24 0 0 / 0 0\nlive 1\n");
    text_is("Y above Z", frames_report(above_range, sizeof above_range, calls, LIVE, text, one), "net no 21\n");
    text_is("kind 0", frames_report(net, sizeof net, zeros, sizeof zeros, text, FRAMES_TEXT_MOST), "1 ? no 11\nlive 0\n");
    is_refused("a byte below every bound", frames_report(net, sizeof net, zeros, sizeof zeros, text, FRAMES_TEXT_MOST - 1), 20);
    text_is("no calls", frames_report(net, sizeof net, NULL, 0, text, 22), "live 0\n");
    is_refused("no calls, a byte below the bound", frames_report(net, sizeof net, NULL, 0, text, 21), 20);
    text_is("two bytes of a file", frames_report(net, 2, calls, sizeof calls, text, room), "net no 1\n");
    text_is("no file", frames_report(NULL, 0, calls, sizeof calls, text, room), "net no 1\n");
    is_refused("no file, a byte below the bound", frames_report(NULL, 0, calls, sizeof calls, text, room - 1), 20);
    end();
}

static void try_lookup(void)
{
    begin("frames_lookup");
    uint64_t length = frames_lookup(net, sizeof net, calls, LIVE, 5, session, FRAMES_SESSION_MOST);
    session_5_is_shown("after its set-up", length);
    session_5_is_shown("after a refused set-up", frames_lookup(net, sizeof net, calls, LIVE_STILL, 5, session, 26));
    session_5_is_shown("after a cut record", frames_lookup(net, sizeof net, calls, LIVE_CUT, 5, session, 26));
    session_5_is_shown("beside session 6", frames_lookup(net, sizeof net, two, sizeof two, 5, session, 26));
    session_6_is_shown("after session 5", frames_lookup(net, sizeof net, two, sizeof two, 6, session, 26));
    session_5_is_shown("beside session 65,541", frames_lookup(net, sizeof net, mixed, BOTH, 5, session, 26));
    session_6_is_shown("65,541 has the frames of 6", frames_lookup(net, sizeof net, mixed, BOTH, 65541, session, 26));
    session_6_is_shown("65,541 alone", frames_lookup(net, sizeof net, mixed, ONE, 65541, session, 26));
    is_refused("5 beside 65,541", frames_lookup(net, sizeof net, mixed, ONE, 5, session, 26), 19);
    is_refused("131,077 beside 5", frames_lookup(net, sizeof net, mixed, BOTH, 131077, session, 26), 19);
    is_refused("65,541 after its release", frames_lookup(net, sizeof net, mixed, sizeof mixed, 65541, session, 26), 19);
    session_without_hold_is_shown("Y 0 on link 1", frames_lookup(no_hold, sizeof no_hold, calls, LIVE, 5, session, 26));
    is_refused("Y above Z", frames_lookup(above_range, sizeof above_range, calls, LIVE, 5, session, 26), 21);
    session_5_is_shown("into a buffer of eight", frames_lookup(net, sizeof net, calls, LIVE, 5, session, 8));
    is_refused("into a buffer of seven", frames_lookup(net, sizeof net, calls, LIVE, 5, session, 7), 20);
    is_refused("no buffer", frames_lookup(net, sizeof net, calls, LIVE, 5, NULL, 0), 20);
    is_refused("after its release", frames_lookup(net, sizeof net, calls, RELEASED, 5, session, 26), 19);
    is_refused("another number", frames_lookup(net, sizeof net, calls, LIVE, 6, session, 26), 19);
    is_refused("another number and no buffer", frames_lookup(net, sizeof net, calls, LIVE, 6, NULL, 0), 19);
    is_refused("no calls", frames_lookup(net, sizeof net, NULL, 0, 5, session, 26), 19);
    is_refused("two bytes of a file", frames_lookup(net, 2, calls, LIVE, 5, session, 26), 1);
    is_refused("no file, no calls and no buffer", frames_lookup(NULL, 0, NULL, 0, 5, NULL, 0), 1);
    end();
}

static void try_free_frames(void)
{
    begin("frames_free_frames");
    uint64_t count = frames_free_frames(net, sizeof net, calls, LIVE, 0);
    count_is("frame 7 of link 0 is held", count, 7);
    count_is("frame 0 of link 1 is held", frames_free_frames(net, sizeof net, calls, LIVE, 1), 7);
    count_is("after the release", frames_free_frames(net, sizeof net, calls, RELEASED, 0), 8);
    count_is("a quote holds nothing", frames_free_frames(net, sizeof net, calls, sizeof calls, 0), 8);
    count_is("no calls", frames_free_frames(net, sizeof net, NULL, 0, 1), 8);
    is_refused("Y above Z", frames_free_frames(above_range, sizeof above_range, calls, LIVE, 0), 21);
    is_refused("there is no link 2", frames_free_frames(net, sizeof net, calls, LIVE, 2), 13);
    is_refused("two bytes of a file", frames_free_frames(net, 2, calls, LIVE, 0), 1);
    is_refused("no file, no calls and no link 2", frames_free_frames(NULL, 0, NULL, 0, 2), 1);
    end();
}

/* The links that routes are made of, and a link twice. */
static const uint8_t route[] = {0, 1, 2, 3, 4, 5, 6, 7, 8}, back[] = {1, 0}, twice[] = {0, 0}, twice_and_2[] = {0, 0, 2};

/* Question four's A{3} B{6}, links of K 8 and Z 2 with those frames alone free; D and F, of K 4 and K 6; and eight links of K 64
   and Z 64 in a cycle of 64 ticks. */
static const uint8_t blocked[] = {0x30, 0x00, 0x02, 0x07, 0x08, 0x02, 0xf7, 0, 0, 0, 0, 0, 0, 0,
                                  0x07, 0x08, 0x02, 0xbf, 0, 0, 0, 0, 0, 0, 0};
static const uint8_t unfit[] = {0x30, 0x00, 0x02, 0x03, 0x04, 0x02, 0x03, 0x06, 0x02};
static const uint8_t largest[] = {0x40, 0x00, 0x08, 0x03, 0x40, 0x40, 0x03, 0x40, 0x40, 0x03, 0x40, 0x40, 0x03, 0x40,
                                  0x40, 0x03, 0x40, 0x40, 0x03, 0x40, 0x40, 0x03, 0x40, 0x40, 0x03, 0x40, 0x40};

static void try_ways(void)
{
    begin("frames_ways");
    uint64_t answer = frames_ways(net, sizeof net, calls, LIVE, route, 2, ways, 1);
    /* from each of the frames 0 to 5 of link 0 two holds; from 6 one, since frame 0 of link 1 is held; 7 is held: 6 * 2 + 1 */
    ways_are("after the set-up", answer, 13);
    ways_are("no calls", frames_ways(net, sizeof net, NULL, 0, route, 2, ways, 1), 16);                       /* 8 * 2 */
    ways_are("after the release", frames_ways(net, sizeof net, calls, RELEASED, route, 2, ways, 1), 16);
    ways_are("a quote holds nothing", frames_ways(net, sizeof net, calls, sizeof calls, route, 2, ways, 1), 16);
    /* frames 1 to 7 of link 1, two holds each, but 5 and 6 one each, since frame 7 of link 0 is held: 7 * 2 - 2 */
    ways_are("the way back", frames_ways(net, sizeof net, calls, LIVE, back, 2, ways, 1), 12);
    /* frames 1 to 6 of link 0, two holds each into frames 2 to 7 of link 1, but 6 one: 6 * 2 - 1 */
    ways_are("beside sessions 5 and 6", frames_ways(net, sizeof net, two, sizeof two, route, 2, ways, 1), 11);
    ways_are("one link", frames_ways(net, sizeof net, calls, LIVE, route, 1, ways, 1), 7);
    ways_are("into a longer buffer", frames_ways(net, sizeof net, calls, LIVE, route, 2, ways, 1 + BEHIND), 13);
    ways_are("blocked", frames_ways(blocked, sizeof blocked, NULL, 0, route, 2, ways, 1), 0);
    ways_are("Y 0 on link 1", frames_ways(no_hold, sizeof no_hold, NULL, 0, route, 2, ways, 1), 24); /* 8 * (2 - 0 + 1) */
    ways_are("Y 0 on hop 0", frames_ways(no_hold, sizeof no_hold, NULL, 0, back, 2, ways, 1), 16);   /* 8 * (2 - 1 + 1) */
    ways_are("the largest", frames_ways(largest, sizeof largest, NULL, 0, route, 8, ways, 1), FRAMES_WAYS_MOST);
    is_refused("no links", frames_ways(net, sizeof net, calls, LIVE, NULL, 0, ways, 1), 12);
    is_refused("nine links, of which seven aren't there", frames_ways(net, sizeof net, calls, LIVE, route, 9, ways, 1), 12);
    is_refused("there is no link 2", frames_ways(net, sizeof net, calls, LIVE, route, 3, ways, 1), 13);
    is_refused("a link twice, and there is no link 2", frames_ways(net, sizeof net, calls, LIVE, twice_and_2, 3, ways, 1), 13);
    is_refused("a link twice", frames_ways(net, sizeof net, calls, LIVE, twice, 2, ways, 1), 14);
    is_refused("K 4 and K 6", frames_ways(unfit, sizeof unfit, NULL, 0, route, 2, ways, 1), 15);
    is_refused("a link twice and no buffer", frames_ways(net, sizeof net, calls, LIVE, twice, 2, NULL, 0), 14);
    is_refused("no buffer", frames_ways(net, sizeof net, calls, LIVE, route, 2, NULL, 0), 20);
    is_refused("blocked and no buffer", frames_ways(blocked, sizeof blocked, NULL, 0, route, 2, NULL, 0), 20);
    is_refused("two bytes of a file", frames_ways(net, 2, calls, LIVE, route, 2, ways, 1), 1);
    is_refused("Y above Z and no links", frames_ways(above_range, sizeof above_range, NULL, 0, NULL, 0, ways, 1), 21);
    is_refused("no file, no calls, no links and no buffer", frames_ways(NULL, 0, NULL, 0, NULL, 0, NULL, 0), 1);
    end();
}

/* A file of each refusal. */
static const struct {
    const char *what;
    uint64_t refusal;
    size_t length;
    uint8_t bytes[13];
} refused_files[] = {
    {"two bytes", 1, 2, {0x30, 0x00}},
    {"no links", 2, 3, {0x30, 0x00, 0x00}},
    {"T 0", 3, 4, {0x00, 0x00, 0x01, 0x00}},
    {"no map byte", 4, 3, {0x30, 0x00, 0x01}},
    {"no Y", 4, 4, {0x30, 0x00, 0x01, 0x08}},
    {"bit 4 of a map byte", 5, 4, {0x30, 0x00, 0x01, 0x10}},
    {"K 16 written", 6, 5, {0x30, 0x00, 0x01, 0x01, 0x10}},
    {"Y 1 written", 6, 5, {0x30, 0x00, 0x01, 0x08, 0x01}},
    {"K 5, which does not divide 48", 7, 5, {0x30, 0x00, 0x01, 0x01, 0x05}},
    {"Z 17, above K 16", 8, 5, {0x30, 0x00, 0x01, 0x02, 0x11}},
    {"Z 0, and Y 2 above it", 8, 6, {0x30, 0x00, 0x01, 0x0a, 0x00, 0x02}},
    {"Y 5, above Z 4", 21, 5, {0x30, 0x00, 0x01, 0x08, 0x05}},
    {"Y 0 and Z 16, which is K", 21, 6, {0x30, 0x00, 0x01, 0x0a, 0x10, 0x00}},
    {"Y 5, and frame 16 closed", 21, 13, {0x30, 0x00, 0x01, 0x0c, 0x00, 0x00, 0x01, 0, 0, 0, 0, 0, 0x05}},
    {"frame 16 closed, K 16", 9, 12, {0x30, 0x00, 0x01, 0x04, 0x00, 0x00, 0x01}},
    {"a byte after the last record", 10, 5, {0x30, 0x00, 0x01, 0x00, 0x00}},
};

static void try_image(void)
{
    begin("frames_image");
    uint64_t length = frames_image(net, sizeof net, image, FRAMES_IMAGE_MOST);
    image_is("the file", length, net, sizeof net);
    image_is("into a buffer of nine", frames_image(net, sizeof net, image, 9), net, sizeof net);
    image_is("Y 0 on link 1", frames_image(no_hold, sizeof no_hold, image, 10), no_hold, sizeof no_hold);
    is_refused("into a buffer of eight", frames_image(net, sizeof net, image, 8), 20);
    is_refused("no buffer", frames_image(net, sizeof net, NULL, 0), 20);
    is_refused("no file and no buffer", frames_image(NULL, 0, NULL, 0), 1);
    for (size_t i = 0; i < sizeof refused_files / sizeof refused_files[0]; i++) {
        const uint8_t *file = refused_files[i].bytes;
        length = frames_image(file, refused_files[i].length, image, FRAMES_IMAGE_MOST);
        is_refused(refused_files[i].what, length, refused_files[i].refusal);
    }
    end();
}

/* Values of each refusal, and of its order. */
static const struct {
    const char *what;
    uint64_t refusal;
    uint16_t ticks;
    size_t links;
    uint16_t frames[2], range[2];
    uint64_t closed[2];
    uint16_t least[2];
} refused_values[] = {
    {"no links", 2, 48, 0, {0, 0}, {0, 0}, {0, 0}, {0, 0}},
    {"no links and T 0", 2, 0, 0, {0, 0}, {0, 0}, {0, 0}, {0, 0}},
    {"T 0", 3, 0, 1, {8, 0}, {2, 0}, {0, 0}, {1, 0}},
    {"T 961 and K 0", 3, 961, 1, {0, 0}, {2, 0}, {0, 0}, {1, 0}},
    {"K 0", 7, 48, 1, {0, 0}, {2, 0}, {0, 0}, {1, 0}},
    {"K 65, T 650", 7, 650, 1, {65, 0}, {2, 0}, {0, 0}, {1, 0}},
    {"K 5, which does not divide 48, and Z 0", 7, 48, 1, {5, 0}, {0, 0}, {0, 0}, {1, 0}},
    {"K 5, and Y 3 above Z 2", 7, 48, 1, {5, 0}, {2, 0}, {0, 0}, {3, 0}},
    {"Z 0", 8, 48, 1, {8, 0}, {0, 0}, {0, 0}, {0, 0}},
    {"Z 0, and Y 1 above it", 8, 48, 1, {8, 0}, {0, 0}, {0, 0}, {1, 0}},
    {"Z 9, above K 8, and frame 8 closed", 8, 48, 1, {8, 0}, {9, 0}, {0x100, 0}, {1, 0}},
    {"Y 3, above Z 2", 21, 48, 1, {8, 0}, {2, 0}, {0, 0}, {3, 0}},
    {"Y 257, above Z 2", 21, 48, 1, {8, 0}, {2, 0}, {0, 0}, {257, 0}},
    {"Y 0 and Z 8, which is K", 21, 48, 1, {8, 0}, {8, 0}, {0, 0}, {0, 0}},
    {"Y 0 with K 1", 21, 48, 1, {1, 0}, {1, 0}, {0, 0}, {0, 0}},
    {"Y 3, above Z 2, and frame 8 closed", 21, 48, 1, {8, 0}, {2, 0}, {0x100, 0}, {3, 0}},
    {"frame 8 closed, K 8", 9, 48, 1, {8, 0}, {2, 0}, {0x100, 0}, {2, 0}},
    {"link 0 is refused before link 1", 9, 48, 2, {8, 0}, {2, 0}, {0x100, 0}, {1, 1}},
    {"link 1", 7, 48, 2, {8, 0}, {2, 0}, {0, 0}, {1, 1}},
};

static void try_refused_values(void)
{
    for (size_t i = 0; i < sizeof refused_values / sizeof refused_values[0]; i++) {
        size_t links = refused_values[i].links;
        uint64_t answer = frames_write(refused_values[i].ticks, refused_values[i].frames, links, refused_values[i].range, links,
                                       refused_values[i].closed, links, refused_values[i].least, links, image,
                                       FRAMES_IMAGE_MOST);
        is_refused(refused_values[i].what, answer, refused_values[i].refusal);
    }
}

/* Two links of K 8 and Z 2, of which the second has Y 0; Y behind the closed frames; and the longest file. */
static void try_least_holds(void)
{
    static const uint16_t frames[] = {8, 8}, range[] = {2, 2}, least[] = {1, 0};
    static const uint64_t closed[] = {0, 0}, frame_3[] = {0x08};
    static const uint8_t behind_closed[] = {0x30, 0x00, 0x01, 0x0f, 0x08, 0x02, 0x08, 0, 0, 0, 0, 0, 0, 0, 0x00};
    static uint16_t many_frames[32], many_ranges[32], many_least[32];
    static uint64_t many_closed[32];
    static uint8_t longest[FRAMES_IMAGE_MOST] = {0xc0, 0x03, 0x20};

    uint64_t length = frames_write(48, frames, 2, range, 2, closed, 2, least, 2, image, FRAMES_IMAGE_MOST);
    image_is("Y 0 on link 1", length, no_hold, sizeof no_hold);
    is_refused("a byte too few for Y", frames_write(48, frames, 2, range, 2, closed, 2, least, 2, image, 9), 20);
    length = frames_write(48, frames, 1, range, 1, frame_3, 1, least + 1, 1, image, FRAMES_IMAGE_MOST);
    image_is("Y 0 and frame 3 closed", length, behind_closed, sizeof behind_closed);

    for (size_t i = 0; i < 32; i++) {
        static const uint8_t record[] = {0x0f, 0x40, 0x3f, 0x01, 0, 0, 0, 0, 0, 0, 0, 0x00};
        many_frames[i] = 64;
        many_ranges[i] = 63;
        many_closed[i] = 1;
        memcpy(longest + 3 + i * sizeof record, record, sizeof record);
    }
    length = frames_write(960, many_frames, 32, many_ranges, 32, many_closed, 32, many_least, 32, image, FRAMES_IMAGE_MOST);
    image_is("the longest file", length, longest, sizeof longest);
}

static void try_write(void)
{
    static const uint16_t frames[] = {16, 8}, range[] = {4, 2}, least[] = {1, 1}, many[33] = {0};
    static const uint64_t closed[] = {0, 0}, frame_3[] = {0x08}, none[33] = {0};
    /* link 0 has the absent values alone; link 1 has K 8 and Z 2 */
    static const uint8_t expected[] = {0x30, 0x00, 0x02, 0x00, 0x03, 0x08, 0x02};
    static const uint8_t first_link[] = {0x30, 0x00, 0x01, 0x00};
    static const uint8_t with_closed[] = {0x30, 0x00, 0x01, 0x07, 0x08, 0x02, 0x08, 0, 0, 0, 0, 0, 0, 0};

    begin("frames_write");
    uint64_t length = frames_write(48, frames, 2, range, 2, closed, 2, least, 2, image, FRAMES_IMAGE_MOST);
    image_is("two links", length, expected, sizeof expected);
    length = frames_write(48, frames, 2, range, 2, closed, 2, least, 2, image, 7);
    image_is("into a buffer of seven", length, expected, sizeof expected);
    image_is("the shortest slice counts", frames_write(48, frames, 2, range, 1, closed, 2, least, 2, image, 387), first_link, 4);
    image_is("one Y for two links", frames_write(48, frames, 2, range, 2, closed, 2, least, 1, image, 387), first_link, 4);
    length = frames_write(48, frames + 1, 1, range + 1, 1, frame_3, 1, least, 1, image, 387);
    image_is("frame 3 closed", length, with_closed, sizeof with_closed);
    is_refused("into a buffer of six", frames_write(48, frames, 2, range, 2, closed, 2, least, 2, image, 6), 20);
    is_refused("no buffer", frames_write(48, frames, 2, range, 2, closed, 2, least, 2, NULL, 0), 20);
    is_refused("33 links", frames_write(48, many, 33, many, 33, none, 33, many, 33, image, 387), 2);
    is_refused("K 0 and no buffer", frames_write(48, many, 1, range, 1, closed, 1, least, 1, NULL, 0), 7);
    is_refused("no K", frames_write(48, NULL, 0, range, 2, closed, 2, least, 2, image, 387), 2);
    is_refused("no Z", frames_write(48, frames, 2, NULL, 0, closed, 2, least, 2, image, 387), 2);
    is_refused("no closed frames", frames_write(48, frames, 2, range, 2, NULL, 0, least, 2, image, 387), 2);
    is_refused("no Y", frames_write(48, frames, 2, range, 2, closed, 2, NULL, 0, image, 387), 2);
    try_refused_values();
    try_least_holds();
    end();
}

int main(void)
{
    try_report();
    try_lookup();
    try_free_frames();
    try_ways();
    try_image();
    try_write();
    return 0;
}

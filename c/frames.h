/*
 * Reservation of time frames by the rules of document 01 and of the change requests that have landed, for C and C++: the
 * functions of the static library target/staticlib/libexports.a, which `c/library` builds. A program is linked so:
 *
 *     cc -Ic program.c target/staticlib/libexports.a
 *
 * for x86-64. No function needs more than 72 KiB of stack.
 *
 * A slice is a pointer and then the number of its elements, which for `out` of frames_lookup are numbers of two bytes, and for
 * `out` of frames_ways of eight. Where that number is 0 the pointer may be NULL, at every slice of every function. `out` must
 * not overlap another slice. Nothing is kept from one call to the next, so that several threads may call at the same time, each
 * with an `out` of its own.
 *
 * An answer below FRAMES_REFUSED is a length or a count. Any other is FRAMES_REFUSED and the number of a refusal in document 01,
 * and then every element of `out` is as it was before the call. After an answer that is a length, that many elements stand at
 * the start of `out`, and those behind them are as they were.
 */
#ifndef FRAMES_H
#define FRAMES_H

#include <stddef.h>
#include <stdint.h>

#ifdef __cplusplus
extern "C" {
#endif

/* An answer from here on is a refusal: this and the refusal's number. */
#define FRAMES_REFUSED UINT64_C(1000000)

/* Call bytes that count; those that follow them are ignored. */
#define FRAMES_CALLS_MOST 65536

/* Bytes that frames_report demands for its text on so many call bytes, and those that serve however many there are. The
   argument is evaluated twice. */
#define FRAMES_TEXT_BOUND(calls_len) (22 + 11 * ((calls_len) < FRAMES_CALLS_MOST ? (size_t)(calls_len) : FRAMES_CALLS_MOST))
#define FRAMES_TEXT_MOST 720918

/* Numbers that serve for every session, and bytes that serve for every network file. */
#define FRAMES_SESSION_MOST 26
#define FRAMES_IMAGE_MOST 387

/* The largest number of schedules, 64 to the power 8: over 8 links of K 64 and Z 64 with all frames free, where each Y is 1. */
#define FRAMES_WAYS_MOST UINT64_C(281474976710656)

/*
 * Refusals of a network file, in the order in which they are checked; 4 to 9 and 21 for one record before the next:
 *
 *      1  fewer than three bytes
 *      2  the number of links is 0 or above 32
 *      3  T is 0 or above 960
 *      4  no map byte is left, or fewer bytes than its bits 0 to 3 need
 *      5  a map byte has a bit above bit 3
 *      6  a written field equals its absent value
 *      7  K is 0, above 64 or no divisor of T
 *      8  Z is 0 or above K
 *     21  Y, the least hold, is above Z, or Y is 0 and Z equals K
 *      9  a closed bit stands at K or above
 *     10  bytes follow the last record
 */

/*
 * The run of the program frames: reads the network file, makes the calls of the call records in turn on the fresh network and
 * puts the program's text into `out`, without a zero byte behind it.
 *
 *     file, file_len    the bytes of the network file, net.bin
 *     calls, calls_len  the call records, of which the first FRAMES_CALLS_MOST bytes count
 *     out, out_len      room for the text
 *
 * Answers the length of the text in bytes. A refused file and refused calls show in the text, so that the one refusal is
 *
 *     20  out_len is below FRAMES_TEXT_BOUND(calls_len), however short the text would be; no call is made then
 */
uint64_t frames_report(const uint8_t *file, size_t file_len, const uint8_t *calls, size_t calls_len, uint8_t *out,
                       size_t out_len);

/*
 * Lookup of a session on the state that the calls leave: how many hops it has, its delay in ticks, the link of each hop, the
 * frame of each hop and then the cycle of each hop, which counts from that of hop 0, cycle 0.
 *
 *     file, file_len    the bytes of the network file
 *     calls, calls_len  the call records, of which the first FRAMES_CALLS_MOST bytes count; one that can't be read ends them
 *     number            the session's number
 *     out, out_len      room for 2 + 3 * hops numbers
 *
 * Answers how many numbers it put into `out`. Refusals, in this order:
 *
 *     1 to 10, 21  of the file
 *     19           the number isn't live after the calls
 *     20           out_len is below 2 + 3 * hops
 */
uint64_t frames_lookup(const uint8_t *file, size_t file_len, const uint8_t *calls, size_t calls_len, uint32_t number,
                       uint16_t *out, size_t out_len);

/*
 * Free frames of a link on the state that the calls leave: those that are neither closed nor held by a live session.
 *
 *     file, file_len    the bytes of the network file
 *     calls, calls_len  the call records, of which the first FRAMES_CALLS_MOST bytes count; one that can't be read ends them
 *     link              the link's number, from 0 on
 *
 * Answers how many there are, 0 to 64. Refusals, in this order:
 *
 *     1 to 10, 21  of the file
 *     13           the link's number isn't below the number of links
 */
uint64_t frames_free_frames(const uint8_t *file, size_t file_len, const uint8_t *calls, size_t calls_len, uint8_t link);

/*
 * The number of schedules over a route on the state that the calls leave, in the frames that are free there: 0 where a quote
 * over it would be blocked, up to FRAMES_WAYS_MOST. It goes into `out`, since as an answer it could read as a refusal.
 *
 *     file, file_len    the bytes of the network file
 *     calls, calls_len  the call records, of which the first FRAMES_CALLS_MOST bytes count; one that can't be read ends them
 *     route, route_len  the links of the route, hop 0 first
 *     out, out_len      room for one number
 *
 * Answers 1, which is how many numbers it put into `out`. Nothing is held. Refusals, in this order, each for the whole route
 * before the next:
 *
 *     1 to 10, 21  of the file
 *     12           the route is empty or has over 8 links
 *     13           a link number isn't below the number of links
 *     14           a link appears twice in the route
 *     15           of two adjacent links neither K divides the other
 *     20           out_len is 0
 */
uint64_t frames_ways(const uint8_t *file, size_t file_len, const uint8_t *calls, size_t calls_len, const uint8_t *route,
                     size_t route_len, uint64_t *out, size_t out_len);

/*
 * A network file read, and the network written again. A network has one file, so that the bytes written are those read.
 *
 *     file, file_len  the bytes of the network file
 *     out, out_len    room for the same bytes
 *
 * Answers the length of the file in bytes. Refusals, in this order:
 *
 *     1 to 10, 21  of the file
 *     20           out_len is below file_len
 */
uint64_t frames_image(const uint8_t *file, size_t file_len, uint8_t *out, size_t out_len);

/*
 * The file of a network given as values. There are as many links as the shortest of the four slices has numbers.
 *
 *     ticks               T
 *     frames, frames_len  K of each link
 *     range, range_len    Z of each link
 *     closed, closed_len  the closed frames of each link, bit i for frame i
 *     least, least_len    Y of each link, its least hold; 1 is the value that a file leaves out
 *     out, out_len        room for the file
 *
 * Answers the length of the file in bytes. Refusals, in this order:
 *
 *     2            the number of links is 0 or above 32
 *     3            T is 0 or above 960
 *     7, 8, 21, 9  as of a file, for one link before the next
 *     20           out_len is below the length of the file
 */
uint64_t frames_write(uint16_t ticks, const uint16_t *frames, size_t frames_len, const uint16_t *range, size_t range_len,
                      const uint64_t *closed, size_t closed_len, const uint16_t *least, size_t least_len, uint8_t *out,
                      size_t out_len);

#ifdef __cplusplus
}
#endif

#endif

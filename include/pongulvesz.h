/* Pongulvesz for C: an SNTP client and server (RFC 4330) on plain numbers and octets. C99, and usable from C++.
 *
 * Every call of the archive is proved to meet its contract. docs/C.md has the layouts, what the caller must guarantee,
 * and examples. A call returns 0 or the number of a refusal. A refused call returns its number and writes nothing. Only
 * pongulvesz_reply_block returns a count.
 *
 * A slice is a pointer and its length in octets. Its pointer must be valid for that length and not NULL, even if the
 * length is 0. The slices of one call must not overlap, and nobody else may write them during the call. A pointer to a
 * number must be valid and not NULL. A timestamp is NTP's, of 64 bits: seconds in the upper half, their fraction in the
 * lower. An uptime is in whole seconds, from a clock that nobody sets. */
#ifndef PONGULVESZ_H
#define PONGULVESZ_H

#include <stddef.h>
#include <stdint.h>

#ifdef __cplusplus
extern "C" {
#endif

/* Lengths in octets: of an image, of an answer, and of the packet that an ask or a reply writes. */
#define PONGULVESZ_IMAGE 32
#define PONGULVESZ_ANSWER 24
#define PONGULVESZ_PACKET 48

/* One second, and the 16 seconds after which a reply is refused, in units of 2^-32 s. */
#define PONGULVESZ_SECOND UINT64_C(4294967296)
#define PONGULVESZ_LIMIT UINT64_C(68719476736)

/* The number of fields of a packet, and the index of each (pongulvesz_read_fields). */
#define PONGULVESZ_FIELDS 13
#define PONGULVESZ_LEAP 0
#define PONGULVESZ_VERSION 1
#define PONGULVESZ_MODE 2
#define PONGULVESZ_STRATUM 3
#define PONGULVESZ_POLL 4
#define PONGULVESZ_PRECISION 5
#define PONGULVESZ_ROOT_DELAY 6
#define PONGULVESZ_ROOT_DISPERSION 7
#define PONGULVESZ_IDENTIFIER 8
#define PONGULVESZ_REFERENCE 9
#define PONGULVESZ_ORIGINATE 10
#define PONGULVESZ_RECEIVE 11
#define PONGULVESZ_TRANSMIT 12

/* The kinds of an answer (pongulvesz_answer_kind). */
#define PONGULVESZ_ACCEPTED 1
#define PONGULVESZ_KISS 2

/* The rows of kiss codes (pongulvesz_answer_row). */
#define PONGULVESZ_KISS_OTHER 0
#define PONGULVESZ_KISS_ACST 1
#define PONGULVESZ_KISS_AUTH 2
#define PONGULVESZ_KISS_AUTO 3
#define PONGULVESZ_KISS_BCST 4
#define PONGULVESZ_KISS_CRYP 5
#define PONGULVESZ_KISS_DENY 6
#define PONGULVESZ_KISS_DROP 7
#define PONGULVESZ_KISS_RSTR 8
#define PONGULVESZ_KISS_INIT 9
#define PONGULVESZ_KISS_MCST 10
#define PONGULVESZ_KISS_NKEY 11
#define PONGULVESZ_KISS_RATE 12
#define PONGULVESZ_KISS_RMOT 13
#define PONGULVESZ_KISS_STEP 14

/* The phases of a client (pongulvesz_image_phase). */
#define PONGULVESZ_IDLE 0
#define PONGULVESZ_WAITING 1
#define PONGULVESZ_STOPPED 2

/* The numbers of refusals, as docs/RULES.md lists them. */
#define PONGULVESZ_BUFFER_TOO_SHORT 1
#define PONGULVESZ_VERSION_UNSUPPORTED 2
#define PONGULVESZ_OWN_CLOCK_ZERO 3
#define PONGULVESZ_CLIENT_STOPPED 4
#define PONGULVESZ_ALREADY_WAITING 5
#define PONGULVESZ_ASKED_TOO_SOON 6
#define PONGULVESZ_PACKET_LENGTH_WRONG 7
#define PONGULVESZ_NOT_WAITING 8
#define PONGULVESZ_ORIGINATE_MISMATCH 9
#define PONGULVESZ_REPLY_MODE_WRONG 10
#define PONGULVESZ_VERSION_MISMATCH 11
#define PONGULVESZ_SERVER_UNSYNCHRONISED 12
#define PONGULVESZ_STRATUM_TOO_HIGH 13
#define PONGULVESZ_SERVER_TIMESTAMP_ZERO 14
#define PONGULVESZ_ARRIVED_BEFORE_SENT 15
#define PONGULVESZ_ARRIVED_TOO_LATE 16
#define PONGULVESZ_ANSWERED_BEFORE_RECEIVED 17
#define PONGULVESZ_DELAY_NEGATIVE 18
#define PONGULVESZ_FIRST_BELOW_SECOND 19
#define PONGULVESZ_GAVE_UP_TOO_SOON 20
#define PONGULVESZ_REQUEST_MODE_WRONG 21
#define PONGULVESZ_REQUEST_VERSION_UNSUPPORTED 22
#define PONGULVESZ_SETTINGS_OUT_OF_RANGE 23
#define PONGULVESZ_TIMESTAMP_ZERO 24
#define PONGULVESZ_NO_SUCH_DATE 25
#define PONGULVESZ_OUTSIDE_WINDOW 26
#define PONGULVESZ_FIELD_TOO_LARGE 27
#define PONGULVESZ_TICK_OUT_OF_RANGE 28
#define PONGULVESZ_RECORD_NOT_LEGAL 29
#define PONGULVESZ_ENTRY_TOO_LARGE 30
#define PONGULVESZ_DEBT_TOO_LARGE 31
#define PONGULVESZ_LIMIT_OUT_OF_RANGE 32
#define PONGULVESZ_ROOT_DELAY_OUT_OF_RANGE 33
#define PONGULVESZ_ROOT_DISPERSION_TOO_LARGE 34
#define PONGULVESZ_NOT_IN_LIST 35
#define PONGULVESZ_BROADCAST_MODE_WRONG 36
#define PONGULVESZ_BROADCAST_VERSION_UNSUPPORTED 37
#define PONGULVESZ_BROADCAST_UNSYNCHRONISED 38
#define PONGULVESZ_BROADCAST_STRATUM_WRONG 39
#define PONGULVESZ_BROADCAST_TRANSMIT_ZERO 40
#define PONGULVESZ_POLL_OUT_OF_RANGE 41
#define PONGULVESZ_TOKEN_ZERO 42
#define PONGULVESZ_NO_ORDER 43
#define PONGULVESZ_FIELD_NOT_ADDED 44
#define PONGULVESZ_TIME_LENGTH_WRONG 45
#define PONGULVESZ_IMAGE_NOT_LEGAL 46
#define PONGULVESZ_LINE_MALFORMED 64

/* What a number means, in words. NULL if no call returns the number. */
static inline const char *pongulvesz_words(uint32_t number) {
    switch (number) {
    case 0:
        return "not refused";
    case 1:
        return "buffer under 48 octets";
    case 2:
        return "asked version not 1 to 4";
    case 3:
        return "own clock reading zero";
    case 4:
        return "client stopped";
    case 5:
        return "already waiting";
    case 6:
        return "asked before, and uptime is below that uptime or less than 2^exponent s past it";
    case 7:
        return "shorter than 48 octets, longer than 1024, or a tail that breaks the rules of \"Extension fields\"";
    case 8:
        return "not waiting";
    case 9:
        return "originate differs from the request's token";
    case 10:
        return "mode not 4";
    case 11:
        return "version differs from the request's";
    case 12:
        return "LI 3";
    case 13:
        return "stratum above 15";
    case 14:
        return "receive or transmit zero, in broadcast transmit alone";
    case 15:
        return "T4 - T1 negative";
    case 16:
        return "T4 - T1 above 2^36";
    case 17:
        return "T3 - T2 negative";
    case 18:
        return "d negative";
    case 19:
        return "P below Q";
    case 20:
        return "uptime below the request's, or under 16 s past it";
    case 21:
        return "request mode not 3";
    case 22:
        return "request version, or the version set for a broadcast, not 1 to 4";
    case 23:
        return "set LI not 0 to 2, or set precision not in -32 to 0";
    case 24:
        return "timestamp zero, also one that a date or a Unix time would have";
    case 25:
        return "no such date or time, or nanoseconds of 10^9 or more";
    case 26:
        return "outside 1968-01-20 03:14:08 to 2104-02-26 09:42:23, fractions included";
    case 27:
        return "field to write too large (LI over 3, VN or mode over 7; for C also a number that the 8, 16 or 32 bits of its field do not hold)";
    case 28:
        return "tick zero or above 2^32";
    case 29:
        return "record handed in not legal";
    case 30:
        return "half not 0 or 1, or an entry of 2^41 half units or more in size";
    case 31:
        return "the debt would reach 2^50 half units in size";
    case 32:
        return "limit not 1 to 2^32 half units";
    case 33:
        return "root delay, signed, negative or 65536 or more (one second, with 16 fraction bits)";
    case 34:
        return "root dispersion, unsigned, 65536 or more";
    case 35:
        return "list of records empty or of more than eight, or a record number, the one in use included, not in it";
    case 36:
        return "broadcast packet: mode not 5";
    case 37:
        return "broadcast packet: VN not 1 to 4";
    case 38:
        return "broadcast packet: LI 3";
    case 39:
        return "broadcast packet: stratum not 1 to 15";
    case 40:
        return "broadcast packet: transmit timestamp zero";
    case 41:
        return "set poll not 4 to 14";
    case 42:
        return "token zero";
    case 43:
        return "the difference that is tested next is of two timestamps exactly 2^63 units apart";
    case 44:
        return "extension field not added: an authenticator at the end of the packet, or no room in the buffer or in 1024 octets";
    case 45:
        return "Time Protocol: a length to read other than 4, or a buffer under 4";
    case 46:
        return "C: an image that is not 32 octets or that no legal record has, also one of a list, or an answer slice that is not 24";
    case 64:
        return "replay line malformed";
    default:
        return NULL;
    }
}

/* ---- The client, on one image of 32 octets. */

/* Writes the image of a client that has never asked: 32 octets, all zero. Refusals: 46 if image_length is not 32. */
uint32_t pongulvesz_fresh(uint8_t *image, size_t image_length);

/* Asks: writes the 48 octets of a request into the buffer, for the caller to send. version is 1 to 4. clock is the
 * reading of the client's clock now (T1). token is a number that nobody can guess and that is used once. Refusals, in
 * order: 46, 1, 2, 3, 42, 4, 5, 6. */
uint32_t pongulvesz_ask(uint8_t *image, size_t image_length, uint8_t *buffer, size_t buffer_length, uint32_t version,
                        uint64_t clock, uint64_t token, uint64_t uptime);

/* Takes a packet that has come in. t4 is the reading of the client's clock then. alternate says whether another server
 * can be asked: 0 is no. Writes the 24 octets of the answer, which the pongulvesz_answer functions read. Refusals, in
 * order: 46, 7, 8, 9, 10, 11, and if the packet is no kiss 3, 12, 13, 14, 33, 34, 43, 15, 16, 43, 17, 18, 43, 43,
 * 19. */
uint32_t pongulvesz_arrival(uint8_t *image, size_t image_length, uint8_t *answer, size_t answer_length, uint64_t t4,
                            uint32_t alternate, const uint8_t *packet, size_t packet_length);

/* Gives up waiting for the reply, and backs off. Refusals, in order: 46, 8, 20. */
uint32_t pongulvesz_give_up(uint8_t *image, size_t image_length, uint64_t uptime);

/* ---- When to call next, for a caller that sleeps until then. */

/* The first uptime at which an ask of this image is not refused by 6: 0 if the client has never asked, else the uptime
 * of its last ask plus 2^exponent. Refusals, in order: 46, 4, 5, and 6 if no uptime of 64 bits is late enough. */
uint32_t pongulvesz_ask_due(const uint8_t *image, size_t image_length, uint64_t *uptime);

/* The first uptime at which a give-up of this image is not refused by 20: the uptime of its request plus 16. Refusals,
 * in order: 46, 8, and 20 if no uptime of 64 bits is late enough. */
uint32_t pongulvesz_give_up_due(const uint8_t *image, size_t image_length, uint64_t *uptime);

/* ---- The parts of an answer and of an image. These functions are of this header, and not of the archive. They read
 * any 24 or 32 octets and refuse nothing. */

/* The number that some octets have, big-endian. For the functions below alone. */
static inline uint64_t pongulvesz_internal_number(const uint8_t *octets, size_t width) {
    uint64_t number = 0;
    for (size_t i = 0; i < width; i++)
        number = number << 8 | octets[i];
    return number;
}

/* The signed number of the lowest width bits, in two's complement. For the functions below alone. */
static inline int64_t pongulvesz_internal_signed(uint64_t bits, unsigned width) {
    const uint64_t sign = (uint64_t)1 << (width - 1);
    const int64_t rest = (int64_t)(bits & (sign - 1));
    return (bits & sign) == 0 ? rest : rest - (int64_t)(sign - 1) - 1;
}

/* The kind of an answer: PONGULVESZ_ACCEPTED or PONGULVESZ_KISS. */
static inline uint32_t pongulvesz_answer_kind(const uint8_t answer[PONGULVESZ_ANSWER]) {
    return answer[0];
}

/* The half of an accepted reply, 0 or 1: half a unit of 2^-32 s, to add to the offset. */
static inline uint32_t pongulvesz_answer_half(const uint8_t answer[PONGULVESZ_ANSWER]) {
    return answer[1];
}

/* The row of a kiss: PONGULVESZ_KISS_ACST to PONGULVESZ_KISS_STEP, or PONGULVESZ_KISS_OTHER. */
static inline uint32_t pongulvesz_answer_row(const uint8_t answer[PONGULVESZ_ANSWER]) {
    return answer[2];
}

/* The code of a kiss, four characters, the first in the highest octet: RATE is 0x52415445. */
static inline uint32_t pongulvesz_answer_code(const uint8_t answer[PONGULVESZ_ANSWER]) {
    return (uint32_t)pongulvesz_internal_number(answer + 4, 4);
}

/* The offset of an accepted reply, in units of 2^-32 s: how far the server's clock is ahead. */
static inline int64_t pongulvesz_answer_offset(const uint8_t answer[PONGULVESZ_ANSWER]) {
    return pongulvesz_internal_signed(pongulvesz_internal_number(answer + 8, 8), 64);
}

/* The delay of an accepted reply, in units of 2^-32 s. */
static inline int64_t pongulvesz_answer_delay(const uint8_t answer[PONGULVESZ_ANSWER]) {
    return pongulvesz_internal_signed(pongulvesz_internal_number(answer + 16, 8), 64);
}

/* The phase of an image: PONGULVESZ_IDLE, PONGULVESZ_WAITING or PONGULVESZ_STOPPED. */
static inline uint32_t pongulvesz_image_phase(const uint8_t image[PONGULVESZ_IMAGE]) {
    return image[0];
}

/* The version of the request that the client waits for, else 0. */
static inline uint32_t pongulvesz_image_version(const uint8_t image[PONGULVESZ_IMAGE]) {
    return image[1];
}

/* Whether the client has ever asked: 0 or 1. */
static inline uint32_t pongulvesz_image_asked(const uint8_t image[PONGULVESZ_IMAGE]) {
    return image[2];
}

/* The poll exponent, 6 to 14: 2^exponent seconds must pass from one ask to the next. */
static inline uint32_t pongulvesz_image_exponent(const uint8_t image[PONGULVESZ_IMAGE]) {
    return image[3] + (uint32_t)6;
}

/* T1, the clock reading of the request that the client waits for, else 0. */
static inline uint64_t pongulvesz_image_t1(const uint8_t image[PONGULVESZ_IMAGE]) {
    return pongulvesz_internal_number(image + 8, 8);
}

/* The token of that request, else 0. */
static inline uint64_t pongulvesz_image_token(const uint8_t image[PONGULVESZ_IMAGE]) {
    return pongulvesz_internal_number(image + 16, 8);
}

/* The uptime of the last ask, 0 if the client has never asked. */
static inline uint64_t pongulvesz_image_uptime(const uint8_t image[PONGULVESZ_IMAGE]) {
    return pongulvesz_internal_number(image + 24, 8);
}

/* ---- The server. */

/* Replies: writes the 48 octets of the server's reply to a request into the buffer. synchronised is 0 for no. leap is 0
 * to 2. precision is -32 to 0, an exponent of 2, in seconds. reference is when the server's clock was last set, t2 when
 * the request came in, t3 when the reply is sent. Refusals, in order: 1, 7, 21, 22, 23, and if synchronised 14, 43,
 * 17. */
uint32_t pongulvesz_reply(uint32_t synchronised, uint32_t leap, int32_t precision, uint32_t identifier,
                          uint64_t reference, uint64_t t2, uint64_t t3, uint8_t *buffer, size_t buffer_length,
                          const uint8_t *request, size_t request_length);

/* Replies to requests of 48 octets that stand one after another. times has the t2 and the t3 of each request, and
 * times_length counts these numbers of 64 bits; the other lengths count octets. For each request the call writes what
 * pongulvesz_reply gives: its number, 0 or a refusal's, into one octet of numbers, and its reply into 48 octets of
 * replies, which a refused request leaves as they were. It answers as many requests as all four slices have room for,
 * and returns that count. Everything past it stays as it was. The call itself refuses nothing. */
size_t pongulvesz_reply_block(uint32_t synchronised, uint32_t leap, int32_t precision, uint32_t identifier,
                              uint64_t reference, const uint8_t *requests, size_t requests_length,
                              const uint64_t *times, size_t times_length, uint8_t *replies, size_t replies_length,
                              uint8_t *numbers, size_t numbers_length);

/* ---- A list of servers: 1 to 8 images in order of preference, one after another. Record number i stands from octet
 * 32 * i on. in_use is the number of the record in use. Refusals, in order: 46 if the length is no whole number of
 * images, an image encodes no legal record, or the answer slice is not 24 octets; 35 if there are not 1 to 8 images or a
 * number is not in the list; then those of the call for one image. */

/* Asks for record number at. */
uint32_t pongulvesz_list_ask(uint8_t *list, size_t list_length, size_t at, size_t in_use, uint8_t *buffer,
                             size_t buffer_length, uint32_t version, uint64_t clock, uint64_t token, uint64_t uptime);

/* Takes a packet that has come in for record number at. The list determines whether an alternate exists. After a kiss
 * for the record in use, *in_use becomes the next record that is not stopped, if any. */
uint32_t pongulvesz_list_arrival(uint8_t *list, size_t list_length, size_t at, size_t *in_use, uint8_t *answer,
                                 size_t answer_length, uint64_t t4, const uint8_t *packet, size_t packet_length);

/* Gives up waiting for the reply to record number at. */
uint32_t pongulvesz_list_give_up(uint8_t *list, size_t list_length, size_t at, size_t in_use, uint64_t uptime);

/* ---- The ledger, which pays corrections out slowly. The debt is what is owed, in half units of 2^-33 s. Its size is
 * below 2^50. It begins at 0. */

/* Enters an accepted offset and its half, 0 or 1. Refusals, in order: 29, 30, 31. */
uint32_t pongulvesz_entry(int64_t *debt, int64_t offset, uint32_t half);

/* Pays at most the limit, 1 to 2^32 half units. paid has the debt's sign. Refusals, in order: 29, 32. */
uint32_t pongulvesz_tick(int64_t *debt, uint64_t limit, int64_t *paid);

/* ---- Broadcast. */

/* Writes the 48 octets of a broadcast packet into the buffer. version is 1 to 4. poll is 4 to 14, an exponent of 2, in
 * seconds. The settings are those of a reply. t3 is when the packet is sent. Refusals, in order: 1, 22, 23, 41, and if
 * synchronised 14. */
uint32_t pongulvesz_broadcast(uint32_t synchronised, uint32_t leap, int32_t precision, uint32_t identifier,
                              uint64_t reference, uint32_t version, uint32_t poll, uint64_t t3, uint8_t *buffer,
                              size_t buffer_length);

/* Takes a broadcast packet that has come in when the clock read t4. Gives the difference of the packet's transmit
 * timestamp and t4, in units of 2^-32 s. Refusals, in order: 7, 36, 37, 38, 39, 40, 3, 43. */
uint32_t pongulvesz_broadcast_arrival(uint64_t t4, const uint8_t *packet, size_t packet_length, int64_t *difference);

/* ---- Extension fields (RFC 7822), which stand past a packet's 48th octet. */

/* Sets the cursor to where the first field would begin. Refusals: 7. */
uint32_t pongulvesz_fields(const uint8_t *packet, size_t packet_length, size_t *cursor);

/* Reads the field at the cursor. If there is one, found is 1, field_type is its type, its body is the packet's octets
 * from start to end, end not included, and the cursor moves behind the field. At the end of the fields found is 0, and
 * the others stay. Refusals: 7, which a walk from the cursor of pongulvesz_fields never meets. */
uint32_t pongulvesz_next_field(const uint8_t *packet, size_t packet_length, size_t *cursor, uint32_t *found,
                               uint32_t *field_type, size_t *start, size_t *end);

/* Adds a field at the end of the packet, which is the first *size octets of the buffer. *size becomes the packet's new
 * length. Refusals, in order: 27 if the type is over 65535, 7, 44. */
uint32_t pongulvesz_add_field(uint8_t *buffer, size_t buffer_length, size_t *size, uint32_t field_type,
                              const uint8_t *body, size_t body_length);

/* ---- Timestamps, and the fields of a packet. */

/* The difference x - y in units of 2^-32 s, across the wrap of 2036 too. Refusals: 43 if they are 2^63 units apart. */
uint32_t pongulvesz_difference(uint64_t x, uint64_t y, int64_t *difference);

/* What the four timestamps of an exchange measure: the offset, its half, 0 or 1, and the delay, in units of 2^-32 s.
 * Refusals, in order: 43, 15, 16, 43, 17, 18, 43, 43, 19. */
uint32_t pongulvesz_measure(uint64_t t1, uint64_t t2, uint64_t t3, uint64_t t4, int64_t *offset, uint32_t *half,
                            int64_t *delay);

/* Reads the 13 fields of a packet into an array, in the packet's order. Precision and root delay are signed: the array
 * has their 8 and 32 bits in two's complement, which pongulvesz_field_precision and pongulvesz_field_root_delay read.
 * Refusals: 7. */
uint32_t pongulvesz_read_fields(const uint8_t *packet, size_t packet_length, uint64_t fields[PONGULVESZ_FIELDS]);

/* Writes 13 fields, in the form that pongulvesz_read_fields gives them, into the first 48 octets of the buffer.
 * Refusals, in order: 1, and 27 if a field is too large: the leap indicator over 3, version or mode over 7, or a number
 * over the 8 or 32 bits of its field. */
uint32_t pongulvesz_write_fields(const uint64_t fields[PONGULVESZ_FIELDS], uint8_t *buffer, size_t buffer_length);

/* The precision of these fields, -128 to 127. This function and the next are of this header, and not of the archive. */
static inline int32_t pongulvesz_field_precision(const uint64_t fields[PONGULVESZ_FIELDS]) {
    return (int32_t)pongulvesz_internal_signed(fields[PONGULVESZ_PRECISION], 8);
}

/* The root delay of these fields, in units of 2^-16 s. */
static inline int32_t pongulvesz_field_root_delay(const uint64_t fields[PONGULVESZ_FIELDS]) {
    return (int32_t)pongulvesz_internal_signed(fields[PONGULVESZ_ROOT_DELAY], 32);
}

/* ---- Dates, Unix time, the Time Protocol, and the precision of a clock. */

/* The date of a timestamp, in UTC, 1968 to 2104. The fraction is in units of 2^-32 s. Refusals: 24. */
uint32_t pongulvesz_date(uint64_t timestamp, uint32_t *year, uint32_t *month, uint32_t *day, uint32_t *hour,
                         uint32_t *minute, uint32_t *second, uint32_t *fraction);

/* The timestamp of a date. Refusals, in order: 25, 26, 24. */
uint32_t pongulvesz_timestamp_of_date(uint32_t year, uint32_t month, uint32_t day, uint32_t hour, uint32_t minute,
                                      uint32_t second, uint32_t fraction, uint64_t *timestamp);

/* The Unix time of a timestamp: the seconds since 1970, negative before it, and the nanoseconds since that second,
 * rounded down. Refusals: 24. */
uint32_t pongulvesz_unix_time(uint64_t timestamp, int64_t *seconds, uint32_t *nanoseconds);

/* The timestamp of a Unix time, its fraction rounded up. Refusals, in order: 25, 26, 24. */
uint32_t pongulvesz_timestamp_of_unix_time(int64_t seconds, uint32_t nanoseconds, uint64_t *timestamp);

/* The Time Protocol (RFC 868): writes a count into the first four octets of the buffer, and reads the count of four
 * octets. Refusals: 45. */
uint32_t pongulvesz_write_count(uint32_t count, uint8_t *buffer, size_t buffer_length);
uint32_t pongulvesz_read_count(const uint8_t *octets, size_t octets_length, uint32_t *count);

/* The precision of a clock. tick is the clock's tick, 1 to 2^32 units of 2^-32 s. precision is the exponent of the
 * smallest power of two, in seconds, that is not below the tick. Refusals: 28. */
uint32_t pongulvesz_precision(uint64_t tick, int32_t *precision);

#ifdef __cplusplus
}
#endif

#endif

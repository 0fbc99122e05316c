/* Makes each call of the archive once. tests/instructions counts the instructions of each call under callgrind: CASE(ask, idle, ..) is a function
 * ask_with_idle, which makes the one call. The program fails if a call returns another number than its case says. */
#include <pongulvesz.h>
#include <stdio.h>
#include <string.h>

enum { RECORDS = 8, REQUESTS = 64 };

static const uint64_t SECOND = PONGULVESZ_SECOND, TOKEN = UINT64_C(0x0123456789ABCDEF), T1 = UINT64_C(0xE9A1B2C380000000);
static const uint32_t GPS = 0x47505300, RATE = 0x52415445;

/* What `prepare` writes once. */
static uint8_t idle[PONGULVESZ_IMAGE], waiting[PONGULVESZ_IMAGE];
static uint8_t request[PONGULVESZ_PACKET], reply[PONGULVESZ_PACKET], other[PONGULVESZ_PACKET], kiss[PONGULVESZ_PACKET], broadcast[PONGULVESZ_PACKET];
static uint8_t extended[PONGULVESZ_PACKET + 28];
static uint64_t fields[PONGULVESZ_FIELDS];
static uint8_t requests[REQUESTS * PONGULVESZ_PACKET];
static uint64_t times[2 * REQUESTS];

/* What `reset` writes before each case. */
static uint8_t fresh[PONGULVESZ_IMAGE], asks[PONGULVESZ_IMAGE], waits[PONGULVESZ_IMAGE], list_asks[RECORDS * PONGULVESZ_IMAGE], list_waits[RECORDS * PONGULVESZ_IMAGE];
static uint8_t buffer[PONGULVESZ_PACKET + 28];
static int64_t debt;
static size_t in_use, cursor, size;

/* What a case writes. */
static uint8_t answer[PONGULVESZ_ANSWER], count[4], replies[REQUESTS * PONGULVESZ_PACKET], numbers[REQUESTS];
static uint64_t told[PONGULVESZ_FIELDS], number64;
static uint32_t date[7], half, found, field_type, number32;
static int32_t precision;
static int64_t signed64, delay;
static size_t start, end;
static int failed;

/* Not inlined, so that callgrind sees where a case ends. */
#define CASE(call, input, expected, expression)                                                                        \
    __attribute__((noinline)) static void call##_with_##input(void) {                                                  \
        expect(#call "_with_" #input, (expression), (expected));                                                       \
    }

static void expect(const char *name, uint64_t got, uint64_t expected) {
    if (got != expected) {
        fprintf(stderr, "%s returned %llu, not %llu\n", name, (unsigned long long)got, (unsigned long long)expected);
        failed = 1;
    }
}

static uint32_t arrival_of(const uint8_t *packet) {
    return pongulvesz_arrival(waits, sizeof waits, answer, sizeof answer, T1 + SECOND, 0, packet, PONGULVESZ_PACKET);
}

static uint32_t reply_when(uint32_t synchronised) {
    return pongulvesz_reply(synchronised, 0, -20, GPS, T1 - SECOND, T1 + SECOND / 4, T1 + SECOND / 2, buffer, PONGULVESZ_PACKET, request, sizeof request);
}

CASE(fresh, an_image, 0, pongulvesz_fresh(asks, sizeof asks))
CASE(ask, a_fresh_image, 0, pongulvesz_ask(fresh, sizeof fresh, buffer, PONGULVESZ_PACKET, 4, T1, TOKEN, 1000))
CASE(ask, an_idle_image, 0, pongulvesz_ask(asks, sizeof asks, buffer, PONGULVESZ_PACKET, 4, T1, TOKEN, 1000))
CASE(arrival, a_reply_accepted, 0, arrival_of(reply))
CASE(arrival, a_reply_refused_by_9, PONGULVESZ_ORIGINATE_MISMATCH, arrival_of(other))
CASE(arrival, a_kiss, 0, arrival_of(kiss))
CASE(give_up, a_waiting_image, 0, pongulvesz_give_up(waits, sizeof waits, 1016))
CASE(reply, a_request_synchronised, 0, reply_when(1))
CASE(reply, a_request_not_synchronised, 0, reply_when(0))
CASE(list_ask, eight_images, 0, pongulvesz_list_ask(list_asks, sizeof list_asks, 3, 3, buffer, PONGULVESZ_PACKET, 4, T1, TOKEN, 1000))
CASE(list_arrival, eight_images, 0,
     pongulvesz_list_arrival(list_waits, sizeof list_waits, 3, &in_use, answer, sizeof answer, T1 + SECOND, reply, sizeof reply))
CASE(list_give_up, eight_images, 0, pongulvesz_list_give_up(list_waits, sizeof list_waits, 3, 3, 1016))
CASE(entry, an_offset, 0, pongulvesz_entry(&debt, 1000000, 1))
CASE(tick, a_debt_over_the_limit, 0, pongulvesz_tick(&debt, 5000, &signed64))
CASE(broadcast, a_packet_synchronised, 0, pongulvesz_broadcast(1, 0, -20, GPS, T1 - SECOND, 4, 6, T1, buffer, PONGULVESZ_PACKET))
CASE(broadcast_arrival, a_packet_accepted, 0, pongulvesz_broadcast_arrival(T1 + SECOND, broadcast, sizeof broadcast, &signed64))
CASE(fields, a_packet_with_a_field, 0, pongulvesz_fields(extended, sizeof extended, &cursor))
CASE(next_field, a_field, 0, pongulvesz_next_field(extended, sizeof extended, &cursor, &found, &field_type, &start, &end))
CASE(add_field, sixteen_octets, 0, pongulvesz_add_field(buffer, sizeof buffer, &size, 0x0104, requests, 16))
CASE(difference, two_timestamps, 0, pongulvesz_difference(T1 + SECOND, T1, &signed64))
CASE(measure, four_timestamps, 0, pongulvesz_measure(T1, T1 + SECOND / 4, T1 + SECOND / 2, T1 + SECOND, &signed64, &half, &delay))
CASE(read_fields, a_packet, 0, pongulvesz_read_fields(reply, sizeof reply, told))
CASE(write_fields, thirteen_fields, 0, pongulvesz_write_fields(fields, buffer, PONGULVESZ_PACKET))
CASE(date, a_timestamp, 0, pongulvesz_date(T1, &date[0], &date[1], &date[2], &date[3], &date[4], &date[5], &date[6]))
CASE(timestamp_of_date, a_date, 0, pongulvesz_timestamp_of_date(2024, 2, 29, 12, 30, 45, 7, &number64))
CASE(unix_time, a_timestamp, 0, pongulvesz_unix_time(T1, &signed64, &number32))
CASE(timestamp_of_unix_time, a_unix_time, 0, pongulvesz_timestamp_of_unix_time(1700000000, 123456789, &number64))
CASE(write_count, a_count, 0, pongulvesz_write_count(GPS, count, sizeof count))
CASE(read_count, four_octets, 0, pongulvesz_read_count(reply, 4, &number32))
CASE(precision, a_tick, 0, pongulvesz_precision(4295, &precision))
CASE(ask_due, an_idle_image, 0, pongulvesz_ask_due(asks, sizeof asks, &number64))
CASE(give_up_due, a_waiting_image, 0, pongulvesz_give_up_due(waits, sizeof waits, &number64))
CASE(reply_block, 64_requests, REQUESTS,
     pongulvesz_reply_block(1, 0, -20, GPS, T1 - SECOND, requests, sizeof requests, times, 2 * REQUESTS, replies, sizeof replies, numbers, sizeof numbers))

static void (*const cases[])(void) = {
    fresh_with_an_image,
    ask_with_a_fresh_image,
    ask_with_an_idle_image,
    arrival_with_a_reply_accepted,
    arrival_with_a_reply_refused_by_9,
    arrival_with_a_kiss,
    give_up_with_a_waiting_image,
    ask_due_with_an_idle_image,
    give_up_due_with_a_waiting_image,
    reply_with_a_request_synchronised,
    reply_with_a_request_not_synchronised,
    reply_block_with_64_requests,
    list_ask_with_eight_images,
    list_arrival_with_eight_images,
    list_give_up_with_eight_images,
    entry_with_an_offset,
    tick_with_a_debt_over_the_limit,
    broadcast_with_a_packet_synchronised,
    broadcast_arrival_with_a_packet_accepted,
    fields_with_a_packet_with_a_field,
    next_field_with_a_field,
    add_field_with_sixteen_octets,
    difference_with_two_timestamps,
    measure_with_four_timestamps,
    read_fields_with_a_packet,
    write_fields_with_thirteen_fields,
    date_with_a_timestamp,
    timestamp_of_date_with_a_date,
    unix_time_with_a_timestamp,
    timestamp_of_unix_time_with_a_unix_time,
    write_count_with_a_count,
    read_count_with_four_octets,
    precision_with_a_tick,
};

static void put64(uint8_t *at, uint64_t number) {
    for (int i = 0; i < 8; i++) at[i] = (uint8_t)(number >> (56 - 8 * i));
}

/* A reply of stratum 2 to the request with this token. */
static void put_reply(uint8_t *packet, uint64_t token) {
    memset(packet, 0, PONGULVESZ_PACKET);
    memcpy(packet, (const uint8_t[]){0x24, 2, 6, 0xEC, 0, 0, 1, 0, 0, 0, 2, 0, 192, 0, 2, 1}, 16);
    put64(packet + 16, T1 - SECOND);
    put64(packet + 24, token);
    put64(packet + 32, T1 + SECOND / 4);
    put64(packet + 40, T1 + SECOND / 2);
}

/* The idle image asked at uptime 500, the waiting one at 1000. */
static void put_images(void) {
    memcpy(idle, (const uint8_t[]){0, 0, 1, 1}, 4);
    put64(idle + 24, 500);
    memcpy(waiting, (const uint8_t[]){1, 4, 1, 1}, 4);
    put64(waiting + 8, T1);
    put64(waiting + 16, TOKEN);
    put64(waiting + 24, 1000);
}

static void prepare(void) {
    put_images();
    request[0] = 0x23;
    put64(request + 40, TOKEN);
    put_reply(reply, TOKEN);
    put_reply(other, TOKEN + 1);
    put_reply(kiss, TOKEN);
    kiss[1] = 0;
    for (int i = 0; i < 4; i++) kiss[12 + i] = (uint8_t)(RATE >> (24 - 8 * i));
    put_reply(broadcast, 0);
    broadcast[0] = 0x25;
    memcpy(extended, request, sizeof request);
    memcpy(extended + PONGULVESZ_PACKET, (const uint8_t[]){1, 4, 0, 28}, 4);
    expect("fields of a reply", pongulvesz_read_fields(reply, sizeof reply, fields), 0);
    for (size_t i = 0; i < REQUESTS; i++) {
        memcpy(requests + PONGULVESZ_PACKET * i, request, sizeof request);
        times[2 * i] = T1 + i;
        times[2 * i + 1] = T1 + SECOND + i;
    }
}

static void reset(void) {
    memset(fresh, 0, sizeof fresh);
    memcpy(asks, idle, sizeof idle);
    memcpy(waits, waiting, sizeof waiting);
    for (size_t i = 0; i < RECORDS; i++) {
        memcpy(list_asks + PONGULVESZ_IMAGE * i, idle, sizeof idle);
        memcpy(list_waits + PONGULVESZ_IMAGE * i, waiting, sizeof waiting);
    }
    memcpy(buffer, request, sizeof request);
    debt = 9000;
    in_use = 3;
    cursor = size = PONGULVESZ_PACKET;
}

/* What is counted up to its end belongs to no case. */
__attribute__((noinline)) static void prepare_with_all_inputs(void) {
    prepare();
}

int main(void) {
    prepare_with_all_inputs();
    for (size_t i = 0; i < sizeof cases / sizeof *cases; i++) {
        reset();
        cases[i]();
    }
    return failed;
}

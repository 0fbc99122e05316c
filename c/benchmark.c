/* Makes ten million calls through the archive, and writes the sum of what they gave, modulo 2^32. The first character of standard input says which: D timestamps
 * to dates, T dates to timestamps, M exchanges measured, C arrivals of one reply at an image that waits for it, L the same at a list of eight, R replies to one request.
 * What D, T and M are of is that of reference/src/benchmarks.rs. */
#include <inttypes.h>
#include <pongulvesz.h>
#include <stdio.h>
#include <string.h>

enum { DATES = 128, EXCHANGES = 256, RECORDS = 8 };

static const uint64_t T1 = UINT64_C(0x1000000000), STEP = UINT64_C(1844674407370);
static const uint32_t COUNT = 10000000;

static uint8_t image[PONGULVESZ_IMAGE], list[RECORDS * PONGULVESZ_IMAGE], request[PONGULVESZ_PACKET], packet[PONGULVESZ_PACKET];
static uint32_t dates[DATES][6];
static uint64_t exchanges[EXCHANGES][4];

static uint32_t date_value(uint32_t i) {
    uint32_t year, month, day, hour, minute, second, fraction;
    uint32_t n = pongulvesz_date(i * STEP, &year, &month, &day, &hour, &minute, &second, &fraction);
    return n != 0 ? n : 7 * year + 6 * month + 5 * day + 4 * hour + 3 * minute + 2 * second;
}

static uint32_t timestamp_value(uint32_t i) {
    const uint32_t *d = dates[i % DATES];
    uint64_t timestamp;
    uint32_t n = pongulvesz_timestamp_of_date(d[0], d[1], d[2], d[3], d[4], d[5], 1, &timestamp);
    return n != 0 ? n : (uint32_t)(timestamp >> 32);
}

static uint32_t exchange_value(uint32_t i) {
    const uint64_t *t = exchanges[i % EXCHANGES];
    int64_t offset, delay;
    uint32_t half;
    uint32_t n = pongulvesz_measure(t[0], t[1], t[2], t[3], &offset, &half, &delay);
    return n != 0 ? n : (uint32_t)offset + half + (uint32_t)delay;
}

static uint32_t reply_at(uint64_t t3) {
    return pongulvesz_reply(1, 0, -20, 0x47505300, UINT64_C(4) << 32, T1, t3, packet, sizeof packet, request, sizeof request);
}

/* The last octet of the reply. */
static uint32_t reply_value(uint32_t i) {
    uint32_t n = reply_at(T1 + i);
    return n != 0 ? n : packet[PONGULVESZ_PACKET - 1];
}

/* The lower half of the delay. */
static uint32_t delay(const uint8_t *answer) {
    return (uint32_t)pongulvesz_answer_delay(answer);
}

static uint32_t arrival_value(uint32_t i) {
    uint8_t waiting[PONGULVESZ_IMAGE], answer[PONGULVESZ_ANSWER];
    memcpy(waiting, image, sizeof waiting);
    uint32_t n = pongulvesz_arrival(waiting, sizeof waiting, answer, sizeof answer, T1 + i, 1, packet, sizeof packet);
    return n != 0 ? n : delay(answer);
}

/* The record whose turn it is waits again after each arrival. */
static uint32_t list_value(uint32_t i) {
    uint8_t answer[PONGULVESZ_ANSWER];
    size_t at = i % RECORDS, in_use = 0;
    uint32_t n = pongulvesz_list_arrival(list, sizeof list, at, &in_use, answer, sizeof answer, T1 + i, packet, sizeof packet);
    memcpy(&list[at * PONGULVESZ_IMAGE], image, sizeof image);
    return n != 0 ? n : delay(answer);
}

static void make_inputs(void) {
    for (uint32_t i = 0; i < DATES; i++) {
        uint32_t n = i * 39119;
        const uint32_t date[] = {1968 + n % 137, 1 + n / 137 % 12, 1 + n / 1644 % 31, n % 24, n % 60, n / 60 % 60};
        memcpy(dates[i], date, sizeof date);
    }
    for (uint64_t i = 0; i < EXCHANGES; i++) {
        uint64_t sent = i * UINT64_C(0x1000000007), received = sent + i * UINT64_C(0x3FFFFFFFFFFFFF);
        const uint64_t exchange[] = {sent, received, received + i % 7, sent + i * 79 % 1000};
        memcpy(exchanges[i], exchange, sizeof exchange);
    }
    pongulvesz_ask(image, sizeof image, request, sizeof request, 4, T1, 7, 0);
    reply_at(T1);
    for (size_t i = 0; i < RECORDS; i++)
        memcpy(&list[i * PONGULVESZ_IMAGE], image, sizeof image);
}

static uint32_t value(int what, uint32_t i) {
    switch (what) {
    case 'D': return date_value(i);
    case 'T': return timestamp_value(i);
    case 'M': return exchange_value(i);
    case 'C': return arrival_value(i);
    case 'R': return reply_value(i);
    default: return list_value(i);
    }
}

int main(void) {
    int what = getchar();
    uint32_t sum = 0;
    make_inputs();
    for (uint32_t i = 0; i < COUNT; i++)
        sum += value(what, i);
    printf("%016" PRIX32 "\n", sum);
    return 0;
}

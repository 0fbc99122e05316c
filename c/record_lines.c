#include "record_lines.h"

#include <stdlib.h>
#include <string.h>

/* A line has records, and C their images. */
enum { RECORD = 28, MOST_RECORDS = 9 };

struct list {
    size_t count, in_use, at;
    struct slice images;
};

/* The image of a record. An exponent that is not 6 to 14 has no octet of 0 to 8, and then this is no image, as its record is not legal. */
static void put_image(uint8_t *image, const uint8_t *record) {
    memset(image, 0, PONGULVESZ_IMAGE);
    image[0] = record[0];
    image[1] = record[17];
    image[2] = record[18];
    image[3] = (uint8_t)(record[27] - 6);
    memcpy(image + 8, record + 1, 8);
    memcpy(image + 16, record + 9, 8);
    memcpy(image + 24, record + 19, 8);
}

/* The record of an image, behind what is there. */
static void append_record(struct slice *told, const uint8_t *image) {
    append(told, pongulvesz_image_phase(image), 1);
    append(told, pongulvesz_image_t1(image), 8);
    append(told, pongulvesz_image_token(image), 8);
    append(told, pongulvesz_image_version(image), 1);
    append(told, pongulvesz_image_asked(image), 1);
    append(told, pongulvesz_image_uptime(image), 8);
    append(told, pongulvesz_image_exponent(image), 1);
}

/* The images of the next count records of a line. */
static struct slice take_records(struct rest *rest, size_t count) {
    struct slice images = lend(count * PONGULVESZ_IMAGE);
    for (size_t i = 0; i < count; i++) {
        struct slice record = take(rest, RECORD);
        if (record.length != RECORD || record.octets[0] > 2 || record.octets[18] > 1)
            rest->well_formed = 0;
        else
            put_image(&images.octets[i * PONGULVESZ_IMAGE], record.octets);
        free(record.octets);
    }
    return images;
}

static struct list take_list(struct rest *rest) {
    struct list list = {.count = (size_t)number(rest, 1), .in_use = (size_t)number(rest, 1), .at = (size_t)number(rest, 1)};
    if (list.count > MOST_RECORDS) {
        rest->well_formed = 0;
        list.count = 0;
    }
    list.images = take_records(rest, list.count);
    return list;
}

/* The records, behind what an answer has before them. */
static void append_records(struct slice *told, struct slice images) {
    for (size_t at = 0; at < images.length; at += PONGULVESZ_IMAGE)
        append_record(told, &images.octets[at]);
}

/* The records alone. Frees the images. */
static struct slice records(struct slice images) {
    struct slice told = lend(images.length / PONGULVESZ_IMAGE * RECORD);
    told.length = 0;
    append_records(&told, images);
    free(images.octets);
    return told;
}

/* What an arrival answers past the kind: the number, offset, half, delay, code and row. Behind it there is room for room octets. */
static struct slice arrived(uint32_t refusal, struct slice slice, size_t room) {
    struct slice told = lend(23 + room);
    told.length = 0;
    append(&told, refusal, 1);
    append(&told, (uint64_t)pongulvesz_answer_offset(slice.octets), 8);
    append(&told, pongulvesz_answer_half(slice.octets), 1);
    append(&told, (uint64_t)pongulvesz_answer_delay(slice.octets), 8);
    append(&told, pongulvesz_answer_code(slice.octets), 4);
    append(&told, pongulvesz_answer_row(slice.octets), 1);
    return told;
}

/* An answer slice, all zero. */
static struct slice lend_answer(void) {
    struct slice slice = lend(PONGULVESZ_ANSWER);
    memset(slice.octets, 0, slice.length);
    return slice;
}

/* What 46 is of a record: it is not legal and has no image. */
static uint32_t of_record(uint32_t refusal) {
    return refusal == PONGULVESZ_IMAGE_NOT_LEGAL ? PONGULVESZ_RECORD_NOT_LEGAL : refusal;
}

void record_fresh(struct rest *rest) {
    struct slice image = lend(PONGULVESZ_IMAGE);
    uint32_t refusal = pongulvesz_fresh(image.octets, image.length);
    answer(is_whole(rest), refusal, records(image), none);
}

void record_ask(struct rest *rest) {
    struct slice image = take_records(rest, 1);
    struct slice buffer = take_buffer(rest);
    uint32_t version = (uint32_t)number(rest, 1);
    uint64_t clock = number(rest, 8), token = number(rest, 8), uptime = number(rest, 8);
    int whole = is_whole(rest);
    uint32_t refusal = 0;
    if (whole)
        refusal = pongulvesz_ask(image.octets, image.length, buffer.octets, buffer.length, version, clock, token, uptime);
    answer(whole, of_record(refusal), records(image), buffer);
}

void record_arrival(struct rest *rest) {
    struct slice image = take_records(rest, 1);
    uint64_t t4 = number(rest, 8);
    uint32_t alternate = take_flag(rest);
    struct slice packet = take_packet(rest), slice = lend_answer();
    int whole = is_whole(rest);
    uint32_t refusal = 0;
    if (whole)
        refusal = pongulvesz_arrival(image.octets, image.length, slice.octets, slice.length, t4, alternate, packet.octets,
                                     packet.length);
    struct slice told = arrived(of_record(refusal), slice, RECORD);
    append_records(&told, image);
    uint32_t kind = pongulvesz_answer_kind(slice.octets);
    free(packet.octets);
    free(slice.octets);
    free(image.octets);
    answer(whole, kind, told, none);
}

void record_give_up(struct rest *rest) {
    struct slice image = take_records(rest, 1);
    uint64_t uptime = number(rest, 8);
    int whole = is_whole(rest);
    uint32_t refusal = whole ? pongulvesz_give_up(image.octets, image.length, uptime) : 0;
    answer(whole, of_record(refusal), records(image), none);
}

/* The same of a list, of which 35 comes before it. */
static uint32_t of_list(const struct list *list, uint32_t refusal) {
    int outside = list->count < 1 || list->count > 8 || list->at >= list->count || list->in_use >= list->count;
    return refusal == PONGULVESZ_IMAGE_NOT_LEGAL && outside ? PONGULVESZ_NOT_IN_LIST : of_record(refusal);
}

/* Writes the answer of an ask or a give-up. */
static void answer_list(int whole, uint32_t refusal, struct list *list, struct slice buffer) {
    struct slice told = lend(1 + list->count * RECORD);
    told.length = 0;
    append(&told, list->in_use, 1);
    append_records(&told, list->images);
    free(list->images.octets);
    answer(whole, of_list(list, refusal), told, buffer);
}

void list_ask(struct rest *rest) {
    struct list list = take_list(rest);
    struct slice buffer = take_buffer(rest);
    uint32_t version = (uint32_t)number(rest, 1);
    uint64_t clock = number(rest, 8), token = number(rest, 8), uptime = number(rest, 8);
    int whole = is_whole(rest);
    uint32_t refusal = 0;
    if (whole)
        refusal = pongulvesz_list_ask(list.images.octets, list.images.length, list.at, list.in_use, buffer.octets,
                                      buffer.length, version, clock, token, uptime);
    answer_list(whole, refusal, &list, buffer);
}

void list_arrival(struct rest *rest) {
    struct list list = take_list(rest);
    uint64_t t4 = number(rest, 8);
    struct slice packet = take_packet(rest), slice = lend_answer();
    int whole = is_whole(rest);
    uint32_t refusal = 0;
    if (whole)
        refusal = pongulvesz_list_arrival(list.images.octets, list.images.length, list.at, &list.in_use, slice.octets,
                                          slice.length, t4, packet.octets, packet.length);
    struct slice told = arrived(of_list(&list, refusal), slice, 1 + list.count * RECORD);
    append(&told, list.in_use, 1);
    append_records(&told, list.images);
    uint32_t kind = pongulvesz_answer_kind(slice.octets);
    free(packet.octets);
    free(slice.octets);
    free(list.images.octets);
    answer(whole, kind, told, none);
}

void list_give_up(struct rest *rest) {
    struct list list = take_list(rest);
    uint64_t uptime = number(rest, 8);
    int whole = is_whole(rest);
    uint32_t refusal = 0;
    if (whole)
        refusal = pongulvesz_list_give_up(list.images.octets, list.images.length, list.at, list.in_use, uptime);
    answer_list(whole, refusal, &list, none);
}

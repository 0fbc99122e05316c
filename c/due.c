/* Compares the calls that say when to call next with the ask and the give-up themselves, on copies of images of every phase, exponent and kind of
 * uptime, legal or not. Compares the header's functions with octets that are set by hand, and its names of kiss rows with kisses. Prints how many images
 * and calls it tried. */
#include <inttypes.h>
#include <pongulvesz.h>
#include <stdio.h>
#include <stdlib.h>
#include <string.h>

static const uint64_t UNTOUCHED = UINT64_C(0x1122334455667788);
static unsigned images, calls;

static void put_number(uint8_t *octets, uint64_t number) {
    for (size_t i = 0; i < 8; i++)
        octets[i] = (uint8_t)(number >> (56 - 8 * i));
}

static void fail(const char *what, const uint8_t *image, uint64_t uptime) {
    fprintf(stderr, "due: %s, uptime %" PRIu64 ", image ", what, uptime);
    for (size_t i = 0; i < PONGULVESZ_IMAGE; i++)
        fprintf(stderr, "%02X", image[i]);
    fputc('\n', stderr);
    exit(1);
}

/* What an ask and a give-up of a copy give. */
static uint32_t ask_at(const uint8_t *image, size_t length, uint64_t uptime) {
    uint8_t copy[PONGULVESZ_IMAGE + 1], packet[PONGULVESZ_PACKET];
    memcpy(copy, image, sizeof copy);
    return pongulvesz_ask(copy, length, packet, sizeof packet, 4, 1, 1, uptime);
}

static uint32_t give_up_at(const uint8_t *image, size_t length, uint64_t uptime) {
    uint8_t copy[PONGULVESZ_IMAGE + 1];
    memcpy(copy, image, sizeof copy);
    return pongulvesz_give_up(copy, length, uptime);
}

/* A call that says when, the call that it says it of, and the refusal that ends at that uptime. */
struct pair {
    const char *name;
    uint32_t (*due)(const uint8_t *image, size_t length, uint64_t *uptime);
    uint32_t (*call)(const uint8_t *image, size_t length, uint64_t uptime);
    uint32_t too_soon;
};

static const struct pair pairs[] = {
    {"ask_due", pongulvesz_ask_due, ask_at, PONGULVESZ_ASKED_TOO_SOON},
    {"give_up_due", pongulvesz_give_up_due, give_up_at, PONGULVESZ_GAVE_UP_TOO_SOON},
};

/* The call gives the number at this uptime. */
static void expect(const struct pair *pair, const uint8_t *image, size_t length, uint64_t uptime, uint32_t number) {
    calls++;
    if (pair->call(image, length, uptime) != number)
        fail(pair->name, image, uptime);
}

/* If the first call is not refused, the other is refused as too soon right before the uptime, and is not refused from it on; else the other is refused
 * by the same number at any uptime. */
static void compare(const struct pair *pair, const uint8_t *image, size_t length) {
    uint8_t copy[PONGULVESZ_IMAGE + 1];
    uint64_t due = UNTOUCHED;
    memcpy(copy, image, sizeof copy);
    const uint32_t number = pair->due(copy, length, &due);
    if (memcmp(copy, image, sizeof copy) != 0 || (number != 0 && due != UNTOUCHED))
        fail("a written octet", image, due);
    const uint64_t about = number == 0 ? due : pongulvesz_image_uptime(image);
    const uint64_t uptimes[] = {0, 1, about - 1, about, about + 1, about + 100000, UINT64_MAX - 1, UINT64_MAX};
    for (size_t i = 0; i < sizeof uptimes / sizeof *uptimes; i++)
        if (number != 0)
            expect(pair, image, length, uptimes[i], number);
        else
            expect(pair, image, length, uptimes[i], uptimes[i] < due ? pair->too_soon : 0);
}

static void compare_both(const uint8_t *image, size_t length) {
    images++;
    for (size_t i = 0; i < sizeof pairs / sizeof *pairs; i++)
        compare(&pairs[i], image, length);
}

/* A legal image, the same with each octet before its uptime changed, and the same with another length. */
static void compare_about(const uint8_t *legal) {
    compare_both(legal, PONGULVESZ_IMAGE);
    compare_both(legal, PONGULVESZ_IMAGE - 1);
    compare_both(legal, PONGULVESZ_IMAGE + 1);
    compare_both(legal, 0);
    for (size_t i = 0; i < 24; i++) {
        uint8_t image[PONGULVESZ_IMAGE + 1];
        memcpy(image, legal, sizeof image);
        image[i] = image[i] == 0 ? (uint8_t)(1 + i % 9) : 0;
        compare_both(image, PONGULVESZ_IMAGE);
    }
}

static void compare_phase(uint8_t phase, uint8_t exponent, uint64_t uptime) {
    uint8_t image[PONGULVESZ_IMAGE + 1] = {phase, phase == PONGULVESZ_WAITING ? 4 : 0, 1, (uint8_t)(exponent - 6)};
    image[15] = image[23] = phase == PONGULVESZ_WAITING ? 9 : 0;
    put_number(image + 24, uptime);
    compare_about(image);
}

/* Uptimes about 0, about 2^32, and about the last at which a later one is late enough. */
static void compare_exponent(uint8_t exponent) {
    const uint64_t bases[] = {0, 16, 64, UINT64_C(1) << 32, 0 - (UINT64_C(1) << exponent), UINT64_MAX - 15};
    for (size_t i = 0; i < sizeof bases / sizeof *bases; i++)
        for (uint64_t step = 0; step < 3; step++)
            for (uint8_t phase = PONGULVESZ_IDLE; phase <= PONGULVESZ_STOPPED; phase++)
                compare_phase(phase, exponent, bases[i] + step - 1);
}

/* What a function of the header gives, and what it should give. */
static void equal(const char *what, uint64_t found, uint64_t wanted) {
    if (found == wanted)
        return;
    fprintf(stderr, "due: %s: %" PRIX64 ", not %" PRIX64 "\n", what, found, wanted);
    exit(1);
}

static void compare_answer(void) {
    uint8_t answer[PONGULVESZ_ANSWER] = {0xA0, 0xA1, 0xA2, 0xA3, 'R', 0xC1, 'T', 0xE5, 0x80, 0, 0, 0, 0, 0, 0, 0};
    put_number(answer + 16, UINT64_C(0x0123456789ABCDEF));
    equal("kind", pongulvesz_answer_kind(answer), 0xA0);
    equal("half", pongulvesz_answer_half(answer), 0xA1);
    equal("row", pongulvesz_answer_row(answer), 0xA2);
    equal("code", pongulvesz_answer_code(answer), 0x52C154E5);
    equal("offset -2^63", pongulvesz_answer_offset(answer) == INT64_MIN, 1);
    equal("delay", pongulvesz_answer_delay(answer) == INT64_C(0x0123456789ABCDEF), 1);
    memset(answer + 8, 0xFF, 16);
    equal("offset -1", pongulvesz_answer_offset(answer) == -1, 1);
    answer[16] = 0x7F;
    equal("delay 2^63 - 1", pongulvesz_answer_delay(answer) == INT64_MAX, 1);
    answer[15] = 0;
    equal("offset -256", pongulvesz_answer_offset(answer) == -256, 1);
}

static void compare_image(void) {
    uint8_t image[PONGULVESZ_IMAGE] = {0xB0, 0xB1, 0xB2, 8, 0xB4};
    put_number(image + 8, UINT64_C(0xF1F2F3F4F5F6F7F8));
    put_number(image + 16, UINT64_C(0x0102030405060708));
    put_number(image + 24, UINT64_C(0x8070605040302010));
    equal("phase", pongulvesz_image_phase(image), 0xB0);
    equal("version", pongulvesz_image_version(image), 0xB1);
    equal("asked", pongulvesz_image_asked(image), 0xB2);
    equal("exponent", pongulvesz_image_exponent(image), 14);
    equal("T1", pongulvesz_image_t1(image), UINT64_C(0xF1F2F3F4F5F6F7F8));
    equal("token", pongulvesz_image_token(image), UINT64_C(0x0102030405060708));
    equal("uptime", pongulvesz_image_uptime(image), UINT64_C(0x8070605040302010));
    image[3] = 0xFF;
    equal("exponent of an illegal image", pongulvesz_image_exponent(image), 261);
}

/* Every precision, and a root delay of the same octets. */
static void compare_fields(void) {
    for (int octet = 0; octet < 256; octet++) {
        const uint8_t low = (uint8_t)octet;
        const uint8_t packet[PONGULVESZ_PACKET] = {[3] = low, low, low, low, low};
        const int32_t precision = octet < 128 ? octet : octet - 256;
        uint64_t fields[PONGULVESZ_FIELDS];
        equal("read_fields", pongulvesz_read_fields(packet, sizeof packet, fields), 0);
        equal("precision", pongulvesz_field_precision(fields) == precision, 1);
        equal("root delay", pongulvesz_field_root_delay(fields) == precision * 0x1000000 + octet * 0x10101, 1);
    }
}

/* The answer to a kiss of this code. */
static void kiss(uint64_t code, uint8_t answer[PONGULVESZ_ANSWER]) {
    const uint64_t fields[PONGULVESZ_FIELDS] = {
        [PONGULVESZ_VERSION] = 4, [PONGULVESZ_MODE] = 4, [PONGULVESZ_IDENTIFIER] = code, [PONGULVESZ_ORIGINATE] = 9};
    uint8_t image[PONGULVESZ_IMAGE] = {0}, packet[PONGULVESZ_PACKET];
    equal("ask", pongulvesz_ask(image, sizeof image, packet, sizeof packet, 4, 1, 9, 0), 0);
    equal("write_fields", pongulvesz_write_fields(fields, packet, sizeof packet), 0);
    equal("arrival", pongulvesz_arrival(image, sizeof image, answer, PONGULVESZ_ANSWER, 1, 0, packet, sizeof packet), 0);
}

/* The names of the rows, in the order of docs/RULES.md. */
static void compare_rows(void) {
    static const char codes[] = "ACSTAUTHAUTOBCSTCRYPDENYDROPRSTRINITMCSTNKEYRATERMOTSTEPRATF";
    static const uint32_t rows[] = {PONGULVESZ_KISS_ACST, PONGULVESZ_KISS_AUTH, PONGULVESZ_KISS_AUTO, PONGULVESZ_KISS_BCST,
                                    PONGULVESZ_KISS_CRYP, PONGULVESZ_KISS_DENY, PONGULVESZ_KISS_DROP, PONGULVESZ_KISS_RSTR,
                                    PONGULVESZ_KISS_INIT, PONGULVESZ_KISS_MCST, PONGULVESZ_KISS_NKEY, PONGULVESZ_KISS_RATE,
                                    PONGULVESZ_KISS_RMOT, PONGULVESZ_KISS_STEP, PONGULVESZ_KISS_OTHER};
    for (size_t i = 0; i < sizeof rows / sizeof *rows; i++) {
        const uint8_t *c = (const uint8_t *)codes + 4 * i;
        const uint32_t code = (uint32_t)c[0] << 24 | (uint32_t)c[1] << 16 | (uint32_t)c[2] << 8 | c[3];
        uint8_t answer[PONGULVESZ_ANSWER];
        kiss(code, answer);
        equal("kind of a kiss", pongulvesz_answer_kind(answer), PONGULVESZ_KISS);
        equal("row of a kiss", pongulvesz_answer_row(answer), rows[i]);
        equal("code of a kiss", pongulvesz_answer_code(answer), code);
    }
}

int main(void) {
    static const uint8_t fresh[PONGULVESZ_IMAGE + 1];
    compare_answer();
    compare_image();
    compare_fields();
    compare_rows();
    compare_about(fresh);
    for (uint8_t exponent = 6; exponent <= 14; exponent++)
        compare_exponent(exponent);
    printf("due: %u images, %u calls at the uptimes about those that are said\n", images, calls);
    return 0;
}

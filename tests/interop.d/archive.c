/* Asks the archive, for the tests: reads lines on standard input, and answers each with a line.
 *   arrival T1 TOKEN T4 PACKET   what a fresh client that asked at T1 with TOKEN, in version 4, makes of PACKET without
 *                                an alternate: accepted OFFSET HALF DELAY, kiss CODE, or refused NUMBER
 *   add TYPE BODY PACKET         PACKET with an extension field behind it, or refused NUMBER
 * T1, TOKEN, T4, TYPE, BODY, PACKET and CODE are hexadecimal; BODY is - where it is empty.
 * This program is not proved; what it decides is decided by the proved archive (docs/C.md). */
#include <inttypes.h>
#include <pongulvesz.h>
#include <stdio.h>
#include <stdlib.h>
#include <string.h>

enum { LONGEST = 2048, LINE = 3 * 2 * LONGEST, WORDS = 5 };

/* The octets of hexadecimal digits; returns how many. */
static size_t octets_of(const char *digits, uint8_t octets[LONGEST]) {
    size_t length = 0;
    unsigned octet;
    while (length < LONGEST && sscanf(digits + 2 * length, "%2x", &octet) == 1)
        octets[length++] = (uint8_t)octet;
    return length;
}

static uint64_t number_of(const char *digits) {
    return strtoull(digits, NULL, 16);
}

static void print_answer(const uint8_t answer[PONGULVESZ_ANSWER]) {
    if (pongulvesz_answer_kind(answer) == PONGULVESZ_KISS)
        printf("kiss %08" PRIX32 "\n", pongulvesz_answer_code(answer));
    else
        printf("accepted %" PRId64 " %" PRIu32 " %" PRId64 "\n", pongulvesz_answer_offset(answer),
               pongulvesz_answer_half(answer), pongulvesz_answer_delay(answer));
}

static void arrival(uint64_t t1, uint64_t token, uint64_t t4, const char *packet) {
    uint8_t image[PONGULVESZ_IMAGE], request[PONGULVESZ_PACKET], answer[PONGULVESZ_ANSWER], octets[LONGEST];
    size_t length = octets_of(packet, octets);
    pongulvesz_fresh(image, sizeof image);
    uint32_t number = pongulvesz_ask(image, sizeof image, request, sizeof request, 4, t1, token, 0);
    if (number == 0)
        number = pongulvesz_arrival(image, sizeof image, answer, sizeof answer, t4, 0, octets, length);
    if (number == 0)
        print_answer(answer);
    else
        printf("refused %" PRIu32 "\n", number);
}

static void add(uint64_t type, const char *body, const char *packet) {
    uint8_t buffer[LONGEST], octets[LONGEST];
    size_t body_length = octets_of(body, octets), length = octets_of(packet, buffer);
    uint32_t number = pongulvesz_add_field(buffer, sizeof buffer, &length, (uint32_t)type, octets, body_length);
    if (number != 0) {
        printf("refused %" PRIu32 "\n", number);
        return;
    }
    for (size_t i = 0; i < length; i++)
        printf("%02X", buffer[i]);
    putchar('\n');
}

static void answer_line(char *line) {
    char *words[WORDS] = {0};
    for (int i = 0; i < WORDS; i++)
        words[i] = strtok(i == 0 ? line : NULL, " \n");
    if (words[4] != NULL && strcmp(words[0], "arrival") == 0)
        arrival(number_of(words[1]), number_of(words[2]), number_of(words[3]), words[4]);
    else if (words[3] != NULL && strcmp(words[0], "add") == 0)
        add(number_of(words[1]), words[2], words[3]);
    else
        puts("malformed");
}

int main(void) {
    static char line[LINE];
    while (fgets(line, sizeof line, stdin) != NULL)
        answer_line(line);
    return 0;
}

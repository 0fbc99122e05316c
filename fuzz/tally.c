#include "tally.h"
#include <inttypes.h>
#include <stdio.h>

/* One more than the largest number of a call. */
enum { NUMBERS = 47 };

static uint64_t given[CALL_COUNT][NUMBERS], told[CALL_COUNT][TOLD_COUNT], calls, never_reached;

/* The same of one input, as counters that guide the fuzzer: an input that reaches what no other has reached is kept. */
__attribute__((section("__libfuzzer_extra_counters"))) static uint8_t guide[CALL_COUNT][NUMBERS + TOLD_COUNT];

#define NAME(name, ...) #name,
static const char *const names[] = {CALLS(NAME)};
#undef NAME

/* Each row ends with 0, which every call can give. */
#define ROW(name, ...) {__VA_ARGS__, 0},
static const uint8_t numbers[][24] = {CALLS(ROW)};
#undef ROW

const char *name_of(enum call call) {
    return names[call];
}

int is_there(enum call call) {
#define ADDRESS(name, ...) (void (*)(void))pongulvesz_##name,
    static void (*const addresses[])(void) = {CALLS(ADDRESS)};
#undef ADDRESS
    return addresses[call] != NULL;
}

int can_give(enum call call, uint32_t number) {
    const uint8_t *listed = numbers[call];
    while (*listed != 0 && *listed != number)
        listed++;
    return *listed == number;
}

void count_number(enum call call, uint32_t number) {
    calls++;
    given[call][number]++;
    guide[call][number] = 1;
}

void count_told(enum call call, size_t what) {
    told[call][what]++;
    guide[call][NUMBERS + what] = 1;
}

void count_answer(enum call call, const uint8_t *answer) {
    count_told(call, pongulvesz_answer_kind(answer) == PONGULVESZ_ACCEPTED ? ACCEPTED : pongulvesz_answer_row(answer));
}

static void print_count(uint64_t count) {
    printf(": %" PRIu64, count);
    never_reached += count == 0;
}

static void print_numbers(enum call call) {
    printf("%s: 0", names[call]);
    print_count(given[call][0]);
    for (const uint8_t *number = numbers[call]; *number != 0; number++) {
        printf(", %u", *number);
        print_count(given[call][*number]);
    }
}

static void print_arrivals(enum call call) {
    for (size_t row = 0; row < KISS_ROWS; row++) {
        printf(", kiss of row %zu", row);
        print_count(told[call][row]);
    }
    printf(", accepted");
    print_count(told[call][ACCEPTED]);
}

static void print_least_room(enum call call) {
    static const char *const slices[] = {"requests", "times", "replies", "numbers"};
    for (size_t i = 0; i < 4; i++) {
        printf(", least room in %s", slices[i]);
        print_count(told[call][i]);
    }
}

static void print_told(enum call call) {
    if (call == CALL_arrival || call == CALL_list_arrival)
        print_arrivals(call);
    if (call == CALL_list_arrival) {
        printf(", use went on");
        print_count(told[call][USE_WENT_ON]);
        printf(", use went back");
        print_count(told[call][USE_WENT_BACK]);
    }
    if (call == CALL_reply_block)
        print_least_room(call);
    if (call == CALL_next_field) {
        printf(", none left");
        print_count(told[call][0]);
        printf(", found");
        print_count(told[call][1]);
    }
}

static void print_call(enum call call) {
    if (is_there(call)) {
        print_numbers(call);
        print_told(call);
        putchar('\n');
    } else
        printf("%s: not in the archive\n", names[call]);
}

void print_counts(void) {
    for (enum call call = 0; call < CALL_COUNT; call++)
        print_call(call);
    printf("calls: %" PRIu64 "\nnever reached: %" PRIu64 "\n", calls, never_reached);
}

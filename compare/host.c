/* Calls each function of include/soe.h as a host does, and compares what it returns and every byte of what it was lent.
 * A line for each check; the exit status is 1 where one differs. The expected numbers follow by hand from papers 01 and 02. */
#include <inttypes.h>
#include <stdio.h>
#include <string.h>

#include "soe.h"

/* Paper 01's example. */
static const char INPUT[] =
    "        1        0        0      100\n"
    "    15000   100000\n"
    "    12000    85000\n"
    "    20000    72999\n"
    "    40000    53000\n"
    "    30000    20000\n"
    "     4000        0\n"
    "     5000     6000\n"
    "     1000    21000\n";

static const char TABLE[] =
    " 1    15000   100000    85000    15000        0        0 0 1\n"
    " 2    12000    85000    73000    12000        0        0 0 1\n"
    " 3    20000    73000    53000    20000        0        0 0 0\n"
    " 4    40000    53000    13000    20000        0        0 0 1\n"
    " 5    30000    13000    -2000    20000    15000    20000 1 1\n"
    " 6     4000    -2000     6000    20000    12000    30000 1 1\n"
    " 7     5000     6000    21000    19000    20000    14000 0 1\n"
    " 8     1000    21000    40000     1000    20000        0 0 1\n";

/* Where the example's lines 1 and 2 begin; a number has nine columns. */
#define LINE1 0
#define LINE2 37
#define COLUMNS 9

#define ROOM 500

static int differences = 0;

static void check(const char *what, int64_t got, int64_t expected, int kept) {
    int same = got == expected && kept;
    if (!same)
        differences = 1;
    printf("%-12s %s: returned %" PRId64 ", expected %" PRId64 "; bytes %s\n", same ? "same" : "DIFFERENCE", what, got, expected,
           kept ? "as expected" : "NOT as expected");
}

/* The report of the example with `number` in the nine columns at `at`, on `length` bytes of it and `room` bytes of output. The
 * 190th byte of the input is a blank. */
static void report(const char *what, size_t at, const char *number, size_t length, size_t room, int64_t expected) {
    uint8_t input[SOE_REPORT_INPUT + 1], lent[SOE_REPORT_INPUT + 1], output[ROOM], after[ROOM];
    memcpy(input, INPUT, SOE_REPORT_INPUT);
    input[SOE_REPORT_INPUT] = ' ';
    memcpy(input + at, number, COLUMNS);
    memcpy(lent, input, sizeof lent);
    for (size_t i = 0; i < ROOM; i++)
        output[i] = after[i] = (uint8_t)(i * 7 + 1);
    if (expected == 0)
        memcpy(after, TABLE, SOE_REPORT_OUTPUT);
    int64_t got = soe_report(input, length, output, room);
    check(what, got, expected, memcmp(output, after, ROOM) == 0 && memcmp(input, lent, sizeof lent) == 0);
}

static void terms(const char *what, int64_t expected, uint32_t low_dc, uint32_t low_dm, uint32_t low_dr, uint32_t high_dc,
                  uint32_t high_dm, uint32_t high_dr, int64_t export_limit, int64_t import_limit) {
    check(what, soe_terms(low_dc, low_dm, low_dr, high_dc, high_dm, high_dr, export_limit, import_limit), expected, 1);
}

/* Points of paper 01, in kW, four bytes a number and the lowest first. */
static const uint32_t FOUR[] = {0, 0, 10000, 9000, 50000, 25000, 100000, 40000};
static const uint32_t THREE[] = {0, 0, 30000, 20000, 100000, 60000};

/* A quantity with a MIL of -100 MW and a MEL of 100 MW, and `length` bytes of the points. */
static void contracted(const char *what, int64_t expected, uint32_t direction, uint32_t available, uint32_t offer, uint32_t bid,
                       int64_t sil, int64_t sel, int64_t ol, const uint32_t *points, size_t length, uint32_t limit) {
    uint8_t bytes[48] = {0}, lent[48];
    for (size_t i = 0; i < length; i++)
        bytes[i] = (uint8_t)(points[i / 4] >> 8 * (i % 4));
    memcpy(lent, bytes, sizeof lent);
    int64_t got = soe_quantity(direction, available, offer, bid, -100000, sil, sel, 100000, ol, bytes, length, limit);
    check(what, got, expected, memcmp(bytes, lent, sizeof lent) == 0);
}

/* That of an available unit with 1 kWh for offers and 1 kWh for bids. */
static void quantity(const char *what, int64_t expected, uint32_t direction, int64_t sil, int64_t sel, int64_t ol,
                     const uint32_t *points, size_t length, uint32_t limit) {
    contracted(what, expected, direction, 1, 1, 1, sil, sel, ol, points, length, limit);
}

/* That of a unit with 30 MW of headroom, where the four points give 17 MW, and 170 MW of footroom, where they give 61. */
static void energies(const char *what, int64_t expected, uint32_t direction, uint32_t available, uint32_t offer, uint32_t bid,
                     uint32_t limit) {
    contracted(what, expected, direction, available, offer, bid, 0, 0, 70000, FOUR, 32, limit);
}

/* The machine of one direction, which the checks of instructions hand on from one to the next, between bytes that no call is
 * lent. */
#define BESIDE 8
static uint8_t around[BESIDE + SOE_MACHINE + BESIDE];

/* A field of the machine, the lowest byte first. */
static void put(uint8_t *at, size_t width, uint64_t number) {
    for (size_t i = 0; i < width; i++)
        at[i] = (uint8_t)(number >> 8 * i);
}

static void put_machine(uint32_t state, uint32_t accepted, uint64_t last, uint64_t issue, uint64_t at) {
    uint8_t *machine = around + BESIDE;
    put(machine, 4, state);
    put(machine + 4, 4, accepted);
    put(machine + 8, 8, last);
    put(machine + 16, 8, issue);
    put(machine + 24, 8, at);
}

/* An event that is carried out: of a unit that is available and armed, with a limit of 25 MW and 10,000,000 kWh. After `at`
 * stands the machine that it leaves. */
static void carried_out(const char *what, uint32_t event, uint64_t time, uint64_t at, uint32_t state, uint32_t accepted,
                        uint64_t last, uint64_t issue, uint64_t instructed) {
    uint8_t found[sizeof around];
    memcpy(found, around, sizeof around);
    put_machine(state, accepted, last, issue, instructed);
    int64_t got = soe_instruction(found + BESIDE, SOE_MACHINE, event, time, at, 25000, 1, 1, 10000000);
    check(what, got, 0, memcmp(found, around, sizeof around) == 0);
}

/* An event that is refused, on `length` bytes: the machine stays, and what was due is not done. */
static void refused_with(const char *what, int64_t expected, size_t length, uint32_t event, uint64_t time, uint64_t at,
                         uint32_t limit, uint32_t available, uint32_t armed, uint32_t energy) {
    uint8_t found[sizeof around];
    memcpy(found, around, sizeof around);
    int64_t got = soe_instruction(found + BESIDE, length, event, time, at, limit, available, armed, energy);
    check(what, got, expected, memcmp(found, around, sizeof around) == 0);
}

/* The same with an energy of 1 kWh. */
static void refused(const char *what, int64_t expected, size_t length, uint32_t event, uint64_t time, uint64_t at,
                    uint32_t limit, uint32_t available, uint32_t armed) {
    refused_with(what, expected, length, event, time, at, limit, available, armed, 1);
}

static void instructions(void) {
    const uint64_t last = UINT64_MAX;
    memset(around, 0xa5, sizeof around);
    memset(around + BESIDE, 0, SOE_MACHINE);

    refused("instruction, start 119 after issue", -16, 32, SOE_START, 1000, 1119, 25000, 1, 1);
    refused("instruction, start with limit 0", -17, 32, SOE_START, 1000, 1120, 0, 1, 1);
    refused("instruction, start of a unit not available", -17, 32, SOE_START, 1000, 1120, 25000, 0, 1);
    refused("instruction, start of a unit not armed", -17, 32, SOE_START, 1000, 1120, 25000, 1, 0);
    refused_with("instruction, start with no energy", -17, 32, SOE_START, 1000, 1120, 25000, 1, 1, 0);
    refused_with("instruction, start with 10,000,001 kWh", -17, 32, SOE_START, 1000, 1120, 25000, 1, 1, 10000001);
    refused_with("instruction, start with -1 kWh as C converts it", -17, 32, SOE_START, 1000, 1120, 25000, 1, 1, (uint32_t)-1);
    refused("instruction, 16 before 17", -16, 32, SOE_START, 1000, 1119, 0, 0, 0);
    refused_with("instruction, 16 before 17 for no energy", -16, 32, SOE_START, 1000, 1119, 25000, 1, 1, 0);
    refused("instruction, available 2", -13, 32, SOE_START, 1000, 1119, 25000, 2, 1);
    refused("instruction, armed -1 as C converts it", -13, 32, SOE_START, 1000, 1120, 25000, 1, (uint32_t)-1);
    refused("instruction, cease of an idle direction", -17, 32, SOE_CEASE, 1000, 1120, 0, 0, 0);
    refused("instruction, answer to nothing", -17, 32, SOE_ACCEPT, 1000, 0, 0, 0, 0);
    refused("instruction, event 0", -13, 32, 0, 1000, 1120, 25000, 1, 1);
    refused("instruction, event 6", -13, 32, 6, 1000, 1120, 25000, 1, 1);
    refused("instruction, event -1 as C converts it", -13, 32, (uint32_t)-1, 1000, 1120, 25000, 1, 1);
    refused("instruction, 31 bytes", -13, 31, SOE_TICK, 1000, 0, 0, 0, 0);
    refused("instruction, 33 bytes", -13, 33, SOE_TICK, 1000, 0, 0, 0, 0);
    refused("instruction, no bytes", -13, 0, SOE_TICK, 1000, 0, 0, 0, 0);

    /* A start and a cease that are accepted. */
    carried_out("instruction, start", SOE_START, 1000, 1300, SOE_START_PENDING, 0, 1000, 1000, 1300);
    refused("instruction, start while one is pending", -17, 32, SOE_START, 1001, 1300, 25000, 1, 1);
    refused("instruction, 15 before 16", -15, 32, SOE_START, 999, 999, 25000, 1, 1);
    carried_out("instruction, accepted 119 after issue", SOE_ACCEPT, 1119, 0, SOE_START_PENDING, 1, 1119, 1000, 1300);
    refused("instruction, a second answer", -17, 32, SOE_REJECT, 1120, 0, 0, 0, 0);
    carried_out("instruction, a second early", SOE_TICK, 1299, 0, SOE_START_PENDING, 1, 1299, 1000, 1300);
    refused("instruction, start as it delivers", -17, 32, SOE_START, 1300, 1500, 25000, 1, 1);
    carried_out("instruction, delivers from its start time", SOE_TICK, 1300, 0, SOE_DELIVERING, 0, 1300, 0, 0);
    refused("instruction, cease 119 after issue", -16, 32, SOE_CEASE, 1300, 1419, 0, 0, 0);
    carried_out("instruction, cease", SOE_CEASE, 1300, 1420, SOE_CEASE_PENDING, 0, 1300, 1300, 1420);
    carried_out("instruction, accepted at once", SOE_ACCEPT, 1300, 0, SOE_CEASE_PENDING, 1, 1300, 1300, 1420);
    carried_out("instruction, idle at its cease time", SOE_TICK, 1420, 0, SOE_IDLE, 0, 1420, 0, 0);

    /* Answers 120 and 121 after issue. */
    carried_out("instruction, start 120 after issue", SOE_START, 2000, 2120, SOE_START_PENDING, 0, 2000, 2000, 2120);
    carried_out("instruction, accepted 120 after issue, delivers", SOE_ACCEPT, 2120, 0, SOE_DELIVERING, 0, 2120, 0, 0);
    carried_out("instruction, cease", SOE_CEASE, 3000, 3500, SOE_CEASE_PENDING, 0, 3000, 3000, 3500);
    carried_out("instruction, still unanswered at 120", SOE_TICK, 3120, 0, SOE_CEASE_PENDING, 0, 3120, 3000, 3500);
    refused("instruction, accepted 121 after issue", -17, 32, SOE_ACCEPT, 3121, 0, 0, 0, 0);
    carried_out("instruction, unanswered cease delivers on", SOE_TICK, 3121, 0, SOE_DELIVERING, 0, 3121, 0, 0);
    carried_out("instruction, cease", SOE_CEASE, 4000, 4120, SOE_CEASE_PENDING, 0, 4000, 4000, 4120);
    carried_out("instruction, rejected cease delivers on", SOE_REJECT, 4120, 0, SOE_DELIVERING, 0, 4120, 0, 0);
    carried_out("instruction, cease", SOE_CEASE, 5000, 5120, SOE_CEASE_PENDING, 0, 5000, 5000, 5120);
    carried_out("instruction, accepted 120 after issue, idle", SOE_ACCEPT, 5120, 0, SOE_IDLE, 0, 5120, 0, 0);
    carried_out("instruction, start", SOE_START, 6000, 9000, SOE_START_PENDING, 0, 6000, 6000, 9000);
    carried_out("instruction, start after an unanswered one", SOE_START, 6121, 9000, SOE_START_PENDING, 0, 6121, 6121, 9000);
    carried_out("instruction, rejected start is idle", SOE_REJECT, 6121, 0, SOE_IDLE, 0, 6121, 0, 0);

    /* The largest times, and bytes that are no machine. */
    refused("instruction, the last time 119 after issue", -16, 32, SOE_START, last - 119, last, 25000, 1, 1);
    carried_out("instruction, the last time 120 after issue", SOE_START, last - 120, last, SOE_START_PENDING, 0, last - 120,
                last - 120, last);
    carried_out("instruction, accepted at the last time", SOE_ACCEPT, last, 0, SOE_DELIVERING, 0, last, 0, 0);
    put_machine(4, 0, 0, 0, 0);
    refused("instruction, state 4", -13, 32, SOE_TICK, 1000, 0, 0, 0, 0);
    put_machine(SOE_START_PENDING, 2, 1000, 1000, 1120);
    refused("instruction, accepted 2", -13, 32, SOE_TICK, 999, 0, 0, 0, 0);
    put_machine(SOE_IDLE, 0, 1000, 1000, 0);
    refused("instruction, issue of an idle machine", -13, 32, SOE_TICK, 1000, 0, 0, 0, 0);
}

/* The pieces of a payment, and what stood at its amount before the call. */
static uint32_t pieces[2 * 65];
static const int64_t BEFORE = -7777777777;

/* `count` pieces alike. */
static void put_pieces(size_t count, uint32_t quantity, uint32_t duration) {
    for (size_t i = 0; i < count; i++) {
        pieces[2 * i] = quantity;
        pieces[2 * i + 1] = duration;
    }
}

/* The payment on `length` bytes of the pieces: 0 and `amount`, or a refusal and the amount as it was. */
static void payment(const char *what, int64_t expected, int64_t amount, uint32_t price, uint32_t adjustment, uint32_t k, uint32_t f,
                    size_t length) {
    uint8_t bytes[sizeof pieces], lent[sizeof pieces];
    for (size_t i = 0; i < sizeof bytes; i++)
        bytes[i] = lent[i] = (uint8_t)(pieces[i / 4] >> 8 * (i % 4));
    int64_t amounts[3] = {BEFORE, BEFORE, BEFORE};
    int64_t got = soe_payment(price, adjustment, k, f, lent, length, amounts + 1);
    int kept = amounts[0] == BEFORE && amounts[2] == BEFORE && memcmp(bytes, lent, sizeof bytes) == 0;
    check(what, got, expected, kept && amounts[1] == (expected == 0 ? amount : BEFORE));
}

static void payments(void) {
    put_pieces(1, 10000, 1800);
    payment("payment, K and F 1,000", 0, 2500, 500, 0, 1000, 1000, 8);
    payment("payment, the greater price the adjustment price, K 900", 0, 2000, 500, 1000, 900, 1000, 8);
    payment("payment, the greater price the price, K 900", 0, 2250, 500, 499, 900, 1000, 8);
    payment("payment, K and F 500", 0, -1250, 500, 1000, 500, 500, 8);
    payment("payment, no pieces", 0, 0, 500, 1000, 900, 1000, 0);
    payment("payment, price 10,000", 0, 50000, 10000, 10000, 1000, 1000, 8);
    payment("payment, price 10,001", -20, 0, 10001, 10000, 1000, 1000, 8);
    payment("payment, adjustment price 10,001", -20, 0, 10000, 10001, 1000, 1000, 8);
    payment("payment, K 1,001", -20, 0, 500, 1000, 1001, 1000, 8);
    payment("payment, F 1,001", -20, 0, 500, 1000, 1000, 1001, 8);
    payment("payment, price -1 as C converts it", -20, 0, (uint32_t)-1, 1000, 1000, 1000, 8);
    payment("payment, F of the least int32_t as C converts it", -20, 0, 500, 1000, 1000, (uint32_t)INT32_MIN, 8);
    payment("payment, a byte too few", -13, 0, 500, 1000, 900, 1000, 7);
    payment("payment, a byte too many before the price", -13, 0, 10001, 1000, 900, 1000, 9);

    /* A kW for 1,800 seconds at 1,000 is half a penny; for 1,799 it is less by one part in 3,600. */
    put_pieces(2, 1, 900);
    payment("payment, half a penny in two pieces", 0, 1, 1000, 0, 1000, 1000, 16);
    payment("payment, half a penny owed", 0, 0, 0, 1000, 0, 1000, 16);
    payment("payment, one and a half owed", 0, -1, 0, 3000, 1000, 0, 16);
    put_pieces(1, 1, 1799);
    payment("payment, just under half a penny", 0, 0, 1000, 0, 1000, 1000, 8);
    payment("payment, just under one and a half owed", 0, -1, 0, 3000, 0, 0, 8);
    put_pieces(1, 3, 601);
    payment("payment, just over half a penny", 0, 1, 1000, 0, 1000, 1000, 8);
    payment("payment, just over half a penny owed", 0, -1, 0, 1000, 0, 1000, 8);

    /* The limits of the pieces. */
    put_pieces(65, 1000000, 28);
    payment("payment, 64 pieces of 1,000 MW for 1,792 seconds", 0, 4977778, 10000, 10000, 1000, 1000, 512);
    payment("payment, 65 pieces", -20, 0, 10000, 10000, 1000, 1000, 520);
    pieces[1] = 36;
    payment("payment, 64 pieces of 1,800 seconds together", 0, 5000000, 10000, 10000, 1000, 1000, 512);
    payment("payment, the same owed", 0, -5000000, 0, 10000, 0, 0, 512);
    payment("payment, nothing of it earned", 0, 0, 10000, 0, 0, 1000, 512);
    pieces[127] = 29;
    payment("payment, 1,801 seconds together", -20, 0, 10000, 10000, 1000, 1000, 512);
    pieces[127] = 28;
    pieces[126] = 1000001;
    payment("payment, a quantity of 1,000,001", -20, 0, 10000, 10000, 1000, 1000, 512);
    put_pieces(1, (uint32_t)-1, 1);
    payment("payment, a quantity of -1 as C converts it", -20, 0, 10000, 10000, 1000, 1000, 8);
    put_pieces(1, 1, (uint32_t)INT32_MIN);
    payment("payment, a duration of the least int32_t as C converts it", -20, 0, 10000, 10000, 1000, 1000, 8);
    put_pieces(64, 0, 67108864);
    payment("payment, durations of 2^32 together", -20, 0, 10000, 10000, 1000, 1000, 512);
}

/* A test day's readings and last seed from seeds whose steps are easy by hand: 0 becomes 12,345, which is less than 65,536. From 1 the
 * C standard's example of rand gives 16,838, 5,758 and 10,113, which are 822, 753 and 103 by 1,001. The readings beside the buffer and,
 * on a refusal, in it are as they were. */
static void test_day(const char *what, int64_t expected, uint32_t seed, size_t count, uint16_t first, uint16_t second, uint16_t third) {
    const uint16_t readings[] = {first, second, third};
    uint16_t buffer[5] = {7, 77, 777, 7777, 17777}, after[5];
    memcpy(after, buffer, sizeof after);
    if (expected >= 0)
        memcpy(after + 1, readings, count * sizeof *readings);
    int64_t got = soe_test_day(seed, buffer + 1, count);
    check(what, got, expected, memcmp(buffer, after, sizeof after) == 0);
}

static void test_days(void) {
    test_day("test day, no reading", 0, 0, 0, 0, 0, 0);
    test_day("test day, no reading from the greatest seed", 2147483647, 2147483647, 0, 0, 0, 0);
    test_day("test day, one reading from 0", 12345, 0, 1, 49500, 0, 0);
    test_day("test day, one reading from 1", 1103527590, 1, 1, 50322, 0, 0);
    test_day("test day, three readings from 1", 662824084, 1, 3, 50322, 50253, 49603);
    test_day("test day, the two after the first of these", 662824084, 1103527590, 2, 50253, 49603, 0);
    test_day("test day, seed 2,147,483,648", -21, 2147483648u, 3, 0, 0, 0);
    test_day("test day, seed 2,147,483,648 for no reading", -21, 2147483648u, 0, 0, 0, 0);
    test_day("test day, seed -1 as C converts it", -21, (uint32_t)-1, 3, 0, 0, 0);
    test_day("test day, a refusal as the next seed", -21, (uint32_t)-21, 3, 0, 0, 0);
}

int main(void) {
    report("report, the paper's example", LINE1, "        1", 189, 488, 0);
    report("report, bytes past 488 are kept", LINE1, "        1", 189, ROOM, 0);
    report("report, direction 2", LINE1, "        2", 189, ROOM, 0);
    report("report, direction 3", LINE1, "        3", 189, ROOM, -13);
    report("report, leading zero", LINE2, "   015000", 189, ROOM, -13);
    report("report, sign", LINE2, "   +15000", 189, ROOM, -13);
    report("report, 188 bytes", LINE1, "        1", 188, ROOM, -13);
    report("report, 190 bytes", LINE1, "        1", 190, ROOM, -13);
    report("report, no bytes and no room", LINE1, "        1", 0, 0, -13);
    report("report, quantity 0", LINE1 + 3 * COLUMNS, "        0", 189, ROOM, -1);
    report("report, quantity 1,001 MW", LINE1 + 3 * COLUMNS, "     1001", 189, ROOM, -1);
    report("report, quantity 0 before room", LINE1 + 3 * COLUMNS, "        0", 189, 487, -1);
    report("report, bound 50,001", LINE2, "    50001", 189, ROOM, -7);
    report("report, reported 10,000,001", LINE2 + COLUMNS, " 10000001", 189, ROOM, -11);
    report("report, room for 487 bytes", LINE1, "        1", 189, 487, -14);

    /* 7 MW low with 2,100 kW reserved, 56 MW high with 16,800 kW reserved. */
    terms("terms, limits just met", 0, 1, 2, 4, 8, 16, 32, 23800, 58100);
    terms("terms, export limit a kW short", -2, 1, 2, 4, 8, 16, 32, 23799, 58100);
    terms("terms, import limit a kW short", -2, 1, 2, 4, 8, 16, 32, 23800, 58099);
    terms("terms, 40 MW DM each way, limits just met", 0, 0, 40, 0, 0, 40, 0, 48000, 48000);
    terms("terms, 40 MW DM each way, import limit a kW short", -2, 0, 40, 0, 0, 40, 0, 48000, 47999);
    terms("terms, limit below 0", -2, 0, 0, 0, 0, 0, 0, -1, 0);
    terms("terms, limit of 2,000,000", 0, 0, 0, 0, 0, 0, 0, 2000000, 2000000);
    terms("terms, limit of 2,000,001", -2, 0, 0, 0, 0, 0, 0, 2000001, 2000000);
    terms("terms, 1,000 MW of low", 0, 600, 400, 0, 0, 0, 0, 2000000, 2000000);
    terms("terms, 1,001 MW of low before the limits", -1, 600, 400, 1, 0, 0, 0, -1, -1);
    terms("terms, 1,001 MW of high", -1, 0, 0, 0, 1, 0, 1000, 2000000, 2000000);
    terms("terms, -1 MW as C converts it", -1, (uint32_t)-1, 0, 0, 0, 0, 0, 2000000, 2000000);
    terms("terms, the least int32_t as C converts it", -1, 0, 0, 0, 0, 0, (uint32_t)INT32_MIN, 2000000, 2000000);

    quantity("quantity, headroom 30 MW", 17000, 1, 0, 0, 70000, FOUR, 32, 4000000);
    quantity("quantity, headroom 150 MW, past the last point", 55000, 1, 0, 0, -50000, FOUR, 32, 4000000);
    quantity("quantity, headroom 40 MW by SIL", 21000, 1, -10000, 10000, -50000, FOUR, 32, 4000000);
    quantity("quantity, between SIL and SEL", 0, 1, -10000, 10000, 0, FOUR, 32, 4000000);
    quantity("quantity, footroom 170 MW", 100000, 2, 0, 0, 70000, THREE, 24, 4000000);
    quantity("quantity, footroom 30 MW by SEL", 20000, 2, 0, 10000, 40000, THREE, 24, 4000000);
    quantity("quantity, the limit is smaller", 16999, 1, 0, 0, 70000, FOUR, 32, 16999);
    quantity("quantity, limit 4,000,001", -12, 1, 0, 0, 70000, FOUR, 32, 4000001);
    quantity("quantity, limit -1 as C converts it", -12, 1, 0, 0, 70000, FOUR, 32, (uint32_t)-1);
    quantity("quantity, limit of the least int32_t as C converts it", -12, 1, 0, 0, 70000, FOUR, 32, (uint32_t)INT32_MIN);
    quantity("quantity, direction -1 as C converts it", -12, (uint32_t)-1, 0, 0, 70000, FOUR, 32, 4000000);
    quantity("quantity, direction 3", -12, 3, 0, 0, 70000, FOUR, 32, 4000000);
    quantity("quantity, level above MEL", -12, 1, 0, 0, 100001, FOUR, 32, 4000000);
    quantity("quantity, one point", -12, 1, 0, 0, 70000, FOUR, 8, 4000000);
    quantity("quantity, a byte too few", -12, 1, 0, 0, 70000, FOUR, 31, 4000000);

    energies("quantity, low with energy for offers alone", 17000, 1, 1, 1, 0, 4000000);
    energies("quantity, low without energy for offers", 0, 1, 1, 0, 10000000, 4000000);
    energies("quantity, high with energy for bids alone", 61000, 2, 1, 0, 1, 4000000);
    energies("quantity, high without energy for bids", 0, 2, 1, 10000000, 0, 4000000);
    energies("quantity, both energies at their limit", 17000, 1, 1, 10000000, 10000000, 4000000);
    energies("quantity, a unit not available, low", 0, 1, 0, 1, 1, 4000000);
    energies("quantity, a unit not available, high", 0, 2, 0, 1, 1, 4000000);
    energies("quantity, offer energy 10,000,001", -18, 1, 1, 10000001, 1, 4000000);
    energies("quantity, offer energy 10,000,001, high", -18, 2, 1, 10000001, 1, 4000000);
    energies("quantity, bid energy 10,000,001, low", -18, 1, 1, 1, 10000001, 4000000);
    energies("quantity, bid energy 10,000,001 of a unit not available", -18, 2, 0, 0, 10000001, 4000000);
    energies("quantity, offer energy -1 as C converts it", -18, 1, 1, (uint32_t)-1, 1, 4000000);
    energies("quantity, available 2", -12, 1, 2, 1, 1, 4000000);
    energies("quantity, available -1 as C converts it", -12, 1, (uint32_t)-1, 1, 1, 4000000);
    energies("quantity, available 2 before an energy", -12, 1, 2, 10000001, 1, 4000000);
    energies("quantity, direction 0 before an energy", -12, 0, 1, 10000001, 1, 4000000);
    energies("quantity, limit 4,000,001 before an energy", -12, 1, 1, 1, 10000001, 4000001);
    contracted("quantity, a byte too few before an energy", -12, 1, 1, 10000001, 1, 0, 0, 70000, FOUR, 31, 4000000);

    instructions();
    payments();
    test_days();
    return differences;
}

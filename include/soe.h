/* State of energy: the functions that a host written in C calls. They are in target/staticlib/libhost.a, which `tools/build host`
 * makes; each has a proved contract in crates/host/src/lib.rt.
 *
 * Returned number, the same for every function: 0 or more is the answer, -n is refusal n. The refusals are checked in the order
 * in which they stand below, and the first whose cause holds is returned.
 *
 * Pointers: each is the caller's before and after the call, nothing is kept, allocated or freed, and only what is named as
 * output is written. The caller sees to it that a pointer is not null, also where its length or count is 0, that it leads to as
 * many bytes as its length says, to as many uint16_t as its count says, or to an int64_t, and that an output overlaps no other
 * argument. Every other argument may have any value.
 *
 * Unsigned numbers: quantities, direction, energies, submitted limit, event, available, armed, prices, K, F and seed are uint32_t,
 * and times uint64_t, so that none below 0 can be handed in. A host that holds one in a signed or wider type compares it with 0 and
 * the greatest number of the parameter's type before the call and refuses it itself, since C converts it without a warning. An
 * int32_t below 0 becomes a number above 2,147,483,647: soe_terms refuses that as a quantity with -1; soe_quantity as a direction,
 * available or limit with -12 and as an energy with -18; soe_instruction as an event or a start's available or armed with -13 and as
 * a start's energy with -17, while its limit may be any number; soe_payment as a price, K or F, or in a piece, with -20; and
 * soe_test_day as a seed with -21. An int64_t below 0 becomes a time far ahead, and every event after it would be refused with -15. */
#ifndef SOE_H
#define SOE_H

#include <stddef.h>
#include <stdint.h>

#ifdef __cplusplus
extern "C" {
#endif

/* The bytes of a report's input and of the table. */
#define SOE_REPORT_INPUT 189
#define SOE_REPORT_OUTPUT 488

/* The report of one direction. The input is nine lines ended by a line feed, 189 bytes; each number is decimal digits,
 * right-justified in nine columns, no sign, no leading zero, zero is one 0. Line 1: direction (1 low, 2 high), quantities in MW
 * for DC, DM and DR. Lines 2 to 9, a line for each period: bound and reported energy, in kWh.
 *
 * 0: the table was written to the first 488 bytes of output, and the bytes past them are as they were. It has a line for each
 * period: period in two columns; bound, start, end, sched, back and left in nine columns each; flag (1: unavailability is
 * allowed) and verdict (1: the period passes) in two columns each.
 *
 * Refusals, all of the output being as it was:
 *   -13  the text is malformed, has another length, or names another direction
 *    -1  the quantity is 0 or above 1,000 MW
 *    -7  a bound is above 500 times the quantity
 *   -11  a reported energy is above 10,000,000
 *   -14  the output has fewer than 488 bytes */
int64_t soe_report(const uint8_t *input, size_t input_length, uint8_t *output, size_t output_length);

/* The terms check: quantities in MW for each direction and service, power limits in kW. Low means export, high import.
 *
 * 0: the terms are good.
 *
 * Refusals:
 *    -1  a direction's quantity, the sum of its three, is above 1,000 MW
 *    -2  a limit is outside 0 to 2,000,000; or the low quantity in kW plus the power reserved for high, which is 100, 200 and
 *        400 kW for each MW of DC, DM and DR, is above the export limit; or the same of high, low and the import limit */
int64_t soe_terms(uint32_t low_dc, uint32_t low_dm, uint32_t low_dr,
                  uint32_t high_dc, uint32_t high_dm, uint32_t high_dr,
                  int64_t export_limit, int64_t import_limit);

/* The contracted quantity of a unit in one direction (1 low, by headroom; 2 high, by footroom), in kW. It is zero where the unit
 * is not available (1 yes, 0 no), in the low direction where its remaining deliverable energy for offers is 0, and in the high one
 * where that for bids is 0, both in kWh; otherwise it is the smaller of its response capability and the submitted limit. MIL, SIL,
 * SEL and MEL are the maximum and stable import limits and the stable and maximum export limits, OL is the operating level.
 * `points` holds 2 to 5 points, each its room and its capability as two little-endian unsigned 32-bit numbers: 16, 24, 32 or 40
 * bytes.
 *
 * 0 to 4,000,000: the quantity.
 *
 * Refusals:
 *   -12  the direction is neither 1 nor 2; available is neither 0 nor 1; MIL <= SIL <= 0 <= SEL <= MEL or MIL <= OL <= MEL does not
 *        hold; one of the five is outside -2,000,000 to 2,000,000; the points have another length, a number above 4,000,000, a
 *        first room other than 0, rooms that do not rise or capabilities that fall; or the limit is above 4,000,000
 *   -18  the offer energy or the bid energy is above 10,000,000, whatever the direction */
int64_t soe_quantity(uint32_t direction, uint32_t available, uint32_t offer, uint32_t bid,
                     int64_t mil, int64_t sil, int64_t sel, int64_t mel, int64_t ol,
                     const uint8_t *points, size_t points_length, uint32_t limit);

/* The bytes of a machine that follows one direction's start and cease instructions, and its states. */
#define SOE_MACHINE 32
#define SOE_IDLE 0
#define SOE_START_PENDING 1
#define SOE_DELIVERING 2
#define SOE_CEASE_PENDING 3

/* The events. */
#define SOE_START 1
#define SOE_CEASE 2
#define SOE_ACCEPT 3
#define SOE_REJECT 4
#define SOE_TICK 5

/* Follows an event of one direction's start and cease instructions. The host keeps the machine, 32 bytes, between the calls: 32
 * zero bytes are a fresh one. Its fields are little-endian unsigned numbers: from byte 0 the state and from byte 4 accepted (0 or
 * 1), of 32 bits; from byte 8 the time of the last event, from byte 16 the issue and from byte 24 the start or cease time of the
 * pending instruction, of 64 bits. While nothing is pending, accepted, issue and start or cease time are 0.
 *
 * Times are whole seconds, any number. `time` is that of the event, which for a start or cease is its issue; `at` is the start or
 * cease time; a start has the submitted limit, whether the unit is available and armed (1 yes, 0 no), and its remaining deliverable
 * energy in kWh, for offers in the low direction and for bids in the high one. What an event does not have is not looked at: hand
 * in 0. The machine does not keep the energy.
 *
 * Before the event, and again after it, what is due by its time happens: an instruction unanswered more than 120 after its issue
 * is rejected, which is idle for a start and delivering for a cease; an accepted start delivers from its start time, and an
 * accepted cease turns idle at its cease time. A host that wants the state at a time hands in a tick.
 *
 * 0: the event was carried out, and the bytes are the machine afterwards.
 *
 * Refusals, all 32 bytes being as they were, and nothing that was due being done:
 *   -13  the machine has another length than 32 or its bytes are no machine; the event is not 1 to 5; or a start's available or
 *        armed is neither 0 nor 1
 *   -15  the event is earlier than the last one
 *   -16  the start or cease time is under 120 after its issue
 *   -17  a start of a direction that is not idle, or with limit 0, or of a unit that is not available or not armed, or with an
 *        energy of 0 or above 10,000,000; a cease of a direction that is not delivering; or an answer where no instruction is
 *        unanswered */
int64_t soe_instruction(uint8_t *machine, size_t machine_length, uint32_t event, uint64_t time, uint64_t at,
                        uint32_t limit, uint32_t available, uint32_t armed, uint32_t energy);

/* The real-time payment of a settlement period, in pence. The price and the Minimum Adjustment Price are in pence per MW and hour, K
 * and F in thousandths. `pieces` holds up to 64 pieces, each its quantity in kW and its duration in seconds as two little-endian
 * unsigned 32-bit numbers, 8 bytes.
 *
 * A piece earns price times quantity and time. From that goes the greater of the two prices times the same, times the part by which K
 * times F falls short of 1. The amount is the exact sum over the pieces, rounded once to whole pence, a half upward: 1.5 to 2, and
 * -1.5 to -1. No pieces pay 0.
 *
 * 0: the amount, which may be below 0, is in *amount.
 *
 * Refusals, *amount being as it was:
 *   -13  the pieces' length is not a multiple of 8
 *   -20  the price or the adjustment price is above 10,000; K or F is above 1,000; there are more than 64 pieces; a quantity is above
 *        1,000,000; or the durations are above 1,800 seconds together */
int64_t soe_payment(uint32_t price, uint32_t adjustment, uint32_t k, uint32_t f,
                    const uint8_t *pieces, size_t pieces_length, int64_t *amount);

/* A test day: frequency readings in mHz that anyone can repeat from a seed of 0 to 2,147,483,647. Each step makes the next seed,
 * 1,103,515,245 times the old, plus 12,345, modulo 2,147,483,648, and a reading of it: 49,500 plus the remainder of (new seed divided
 * by 65,536, rounded down) by 1,001. So each reading is 49,500 to 50,500.
 *
 * 0 to 2,147,483,647: `count` readings, any number, were written to the buffer, and this is the last seed; for a count of 0 the given
 * one. To fill a first part and then, from the returned seed, the rest is to fill the whole.
 *
 * Refusal, the whole buffer being as it was:
 *   -21  the seed is above 2,147,483,647; so is a returned -21 where it is handed in as the next seed */
int64_t soe_test_day(uint32_t seed, uint16_t *buffer, size_t count);

#ifdef __cplusplus
}
#endif

#endif

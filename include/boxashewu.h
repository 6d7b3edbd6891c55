/* Opening call auctions: the calls of Boxashewu for programs in C, C++ and, by boxashewu.rs beside this file, Rust.
 *
 * The static library is libboxashewu.a, for Linux on a processor of x86-64-v2 or later. In the project's folder, with
 * Rattle's command rt, it is built and linked by
 *
 *     (cd crates/boxashewu && rt lib)
 *     cc -Wall -Wextra -Wconversion -Wsign-conversion -Werror -Iinclude program.c crates/boxashewu/out/libboxashewu.a
 *
 * Of every call it is proved that it ends and answers what the rules say, for every list of words and all numbers: the
 * promises are in crates/boxashewu/src/lib.rt, the calls one by one in docs/CALLS.md, the rules in docs/RULES.md, and what
 * its terms mean in docs/READING.md.
 *
 * Numbers. A price counts tens of hellers, tenths of a crown; the grid is the prices from 1 to 1,000,000. A band is
 * two prices of the grid, the lower bound D below the upper bound H, and both belong to it. An order has a quantity of 1
 * to 1,000,000 pieces; orders are numbered from 0, as they stand on the sheet. Fees are in hellers, a hundred to a crown.
 *
 * Words. A word is 32 bits: its kind in the upper 4, its value in the lower 28. A sheet is 5 + 3n words, for n orders from
 * none to 120, or 6 + 3n with a step word, which stands behind the first five; nothing but the length tells whether it is
 * there. A result is the words of its rounds one after the other, 4 + n each, and a last word.
 *
 *     sheet   kind 1    D
 *                  2    H
 *                  3    last purchase price, in the band or not
 *                  4    I, the indicative price, above D and below H
 *                  5    n
 *                  0    the step, in the unit of prices, 1 to 1,000: in a sheet of 6 + 3n words; in one of 5 + 3n it is 1
 *     order   kind 6    a buy, or 7 a sell: the lower 24 bits its limit, in the band or not, or 0 for none, which counts
 *                       as H for a buy and D for a sell; the 4 bits above them its disposition: 0 basic, 1 all-or-none,
 *                       2 Stepper, which always has a limit
 *                  8    its quantity
 *                  9    the pieces of rivals that a Stepper ignores, at most 1,000,000; 0 for all others
 *     round   kind 10   situation: 0 where demand and supply meet at some price; where they do not, by what the band has:
 *                       1 supply alone, 2 demand alone, 3 both, 4 neither
 *                  11   auction price, in the band or not; in situations 1 to 4 it is one at which nothing trades
 *                  12   purchase price, at which the fills of this round trade: the auction price, or the nearer bound
 *                       where that is outside the band; 0 if nothing trades
 *                  13   total of this round, bought and sold alike
 *                  14   for each order its fill in this round
 *     last    kind 15   65,536 times the ending, plus the number of rounds, those without a trade too. Ending 0: the last
 *                       round has situation 1 to 4. Ending 2: it has situation 0 and an auction price outside the band,
 *                       whether pieces trade or not, and waiting begins. Ending 1: neither, and all-or-none orders let
 *                       nothing trade
 *
 * A waiting list has any number of words, none too. One after the other they say seconds of the day, and where rounds were
 * priced:
 *
 *     list    kind 1    the second of the day, 0 to 86,399, not lower than the one before it: 0x10007e90 is 09:00:00
 *                  2    a round whose auction price is above the band, with value 0: 0x20000000
 *                  3    one below it: 0x30000000
 *                  4    one inside it: 0x40000000
 *
 * A Stepper goes by the best price at which its rivals, the other orders of its side, have more pieces than it ignores: a buy
 * to that price plus the step, but not below D, a sell to that price less the step, but not above H. Where they nowhere have,
 * a buy goes to D and a sell to H. None goes past its own limit. Where it comes to stand is its limit in force.
 *
 * Answers. Every record begins with `refusal`: 0 where the call answers, else the number of the refusal. Then all numbers
 * of the record that the call would give are 0, and lent lists keep what they held. For refusals 5 to 8 `order` is the
 * number of the order at fault; else it is 0 and means nothing. The record of the waiting clock has `place` instead: for
 * refusals 11, 13 and 14 which word of the list is at fault, counted from 0; else it is 0 and means nothing.
 *
 *      1  a sheet of fewer than 5 words
 *      2  a word of a wrong kind among the first 5
 *      3  a price of the heading that is off the grid, the last purchase price too
 *      4  more than 120 orders, or neither 5 + 3n words nor 6 + 3n
 *      5  a word of a wrong kind in an order
 *      6  a disposition above 2, a limit off the grid, a Stepper without limit
 *      7  a quantity of 0 or above 1,000,000
 *      8  an ignored quantity above 1,000,000, or not 0 in an order that is no Stepper
 *      9  an argument that is not allowed
 *     10  too few words in the lent space, or too few places in the lent fee list; which of the two is not said
 *     11  a band that cannot be had
 *     13  a word of a waiting list that has none of the kinds 1 to 4, or a value that its kind may not have
 *     14  a second of a waiting list that is lower than the one before it
 *     15  D not below I, or I not below H, in a heading whose prices are all on the grid
 *     16  a rate above 10,000, a least or greatest fee above 100,000,000, a least fee above the greatest
 *     17  in a sheet of 6 + 3n words, also for n above 120, a sixth word that is not of kind 0 with a value of 1 to 1,000. So it
 *         is where a word too many follows the last order of a sheet that was meant to have no step word
 *
 * That a stored result differs is no refusal: its records have `different` for it, and all their other numbers but `place` are
 * 0 then.
 *
 * The first fault is the answer. They are judged in this order: of the heading 1, 2, 3, 15, 17, 4, each over all its words
 * before the next; then of each order in turn 5 to 8, likewise; then 9 or 16; then of each word of a waiting list in turn
 * 13, 14, 11; last 10, or 11 where a band is all that is asked for. Those of heading and orders, 1 to 8, 15 and 17, are
 * the refusals of a sheet. (12 is of the programs alone, for bytes that are no list of words.)
 *
 * What a caller owes. No call can check these, and if one of them fails, nothing is promised:
 *
 * - `words` and `sheet` point to `count` words, `stored` to `length` words and `space` to `room` words, all aligned to 4 bytes,
 *   and `fees` to `places` numbers of 64 bits, aligned to 8. None is ever null: for a list of nothing, too, any aligned pointer will do that is not null.
 * - `words`, `space` and `fees` do not overlap; `sheet` and `stored` may.
 * - While a call runs no other thread writes `words`, `sheet` or `stored`, and none reads or writes `space` or `fees`. Apart from that calls may
 *   run in any number of threads at once: the library keeps nothing between two calls.
 * - There are AUCTION_STACK_BYTES of stack left for the call.
 * - Numbers arrive as they were meant: C and C++ turn one that is too wide or negative into another without a word. Compile
 *   with -Wconversion and -Wsign-conversion, and refuse a number that is too large for its parameter yourself.
 *
 * The library takes no memory from the system and reads and writes nothing but what it is lent. Of the C library it
 * needs memcpy and memset. Between the numbers of a record are bytes of no meaning: compare records number by number. */
#ifndef BOXASHEWU_H
#define BOXASHEWU_H

#include <stddef.h>
#include <stdint.h>

#ifdef __cplusplus
extern "C" {
#endif

/* Words that are always enough, as they are those for 120 orders. With n orders a sheet has 5 + 3n words, or 6 + 3n, a first
 * round asks for a space of 4 + n, and an opening for one of (n + 1) x (n + 4) + 1, even where it then writes fewer. */
#define AUCTION_SHEET_WORDS 366
#define AUCTION_ROUND_WORDS 124
#define AUCTION_OPENING_WORDS 15005

/* Places of a fee list that are always enough: an opening with fees asks for one for each order. */
#define AUCTION_FEE_PLACES 120

/* What a call may take of the stack. The most that was measured is a third of it. */
#define AUCTION_STACK_BYTES 262144

struct auction_sheet {
    uint32_t refusal;
    size_t order;
};

struct auction_price {
    uint32_t refusal;
    size_t order;
    uint32_t price;
};

struct auction_curves {
    uint32_t refusal;
    size_t order;
    uint64_t demand;
    uint64_t supply;
    uint64_t volume;
};

struct auction_space {
    uint32_t refusal;
    size_t order;
    size_t count;
};

struct auction_band {
    uint32_t refusal;
    size_t order;
    uint32_t lower;
    uint32_t upper;
};

struct auction_waiting {
    uint32_t refusal;
    size_t place;
    uint32_t phase;
    uint32_t start;
    uint32_t side;
    uint32_t lower;
    uint32_t upper;
    uint32_t due;
};

struct auction_stored {
    uint32_t refusal;
    size_t order;
    uint32_t different;
    size_t place;
};

struct auction_round {
    uint32_t refusal;
    size_t order;
    uint32_t different;
    size_t place;
    uint32_t situation;
    uint32_t price;
    uint32_t purchase;
    uint32_t total;
    size_t fills;
    size_t count;
};

/* Checks a sheet. Refusals: those of a sheet. */
struct auction_sheet auction_check(const uint32_t *words, size_t count);

/* In the first round: the limit in force of an order that is a Stepper, by its number. Refusals: those of a sheet; 9 if there
 * is no such order, or it is no Stepper. */
struct auction_price auction_stepper_limit(const uint32_t *words, size_t count, size_t order);

/* In the first round: demand, supply and volume at a price. Refusals: those of a sheet; 9 if the price is off the grid. */
struct auction_curves auction_curves_at(const uint32_t *words, size_t count, uint32_t price);

/* The first round alone, without a last word, and the whole opening. The words of the result are written from the start of
 * `space`, and the record counts them; all other words of the space, and after a refusal all of them, keep what they held.
 * Refusals: those of a sheet; 10 if `room` is less than the words asked for. */
struct auction_space auction_first_round(const uint32_t *words, size_t count, uint32_t *space, size_t room);
struct auction_space auction_opening(const uint32_t *words, size_t count, uint32_t *space, size_t room);

/* The whole opening, as auction_opening writes and answers it, and what each order pays by a tariff, which holds for all
 * orders: buyer and seller each pay their own fee. The fees, in hellers, are written from the start of `fees`, n of them, n
 * being the value of the sheet's word of kind 5: the fee of order k stands at place k. All other places, and after a refusal
 * all of them, keep what they held. The record counts the words alone.
 *
 * `rate` is in ten-thousandths: 35 is 0.35 percent, 10,000 the whole worth. In each round an order's fill of one piece or more
 * is worth pieces x purchase price x 10 hellers; the price is in the round's word of kind 12, not in that of kind 11. The fee of
 * that fill is (worth x rate + 5,000) / 10,000, rounded down, then raised to `least` or cut to `greatest`. A fill of 0 costs
 * nothing, also where `least` is above 0. An order pays the sum over all rounds, each rounded and bounded by itself. Whoever
 * works this out again needs 64 bits: a worth is at most 10^13 and worth x rate 10^17, and an order pays at most
 * 12,100,000,000, the greatest fee in each of 121 rounds.
 *
 * Refusals: those of a sheet; 16 if `rate` is above 10,000, `least` or `greatest` above 100,000,000, or `least` above
 * `greatest`; 10 if `room` is less than an opening asks for or `places` is less than n. */
struct auction_space auction_opening_fees(const uint32_t *words, size_t count, uint32_t rate, uint32_t least,
                                          uint32_t greatest, uint32_t *space, size_t room, uint64_t *fees, size_t places);

/* Whether a stored result opens beside its sheet: only if the `length` words at `stored` are exactly those that
 * auction_opening writes for this sheet. It opens where `refusal` and `different` are both 0. Where `different` is 1, which is no
 * refusal, `place` is where they first differ, counted from 0, or the length of the shorter list if it is the beginning of the
 * other; else `place` is 0 and means nothing. `stored` may be any list of words, of any length. Refusals: those of a sheet,
 * before the stored words are looked at. */
struct auction_stored auction_stored_opens(const uint32_t *sheet, size_t count, const uint32_t *stored, size_t length);

/* One round of a stored result, by its number, counted from 0, where the result opens beside its sheet: situation, auction
 * price, purchase price and total, as the words of this round say them; then `fills`, the place in `stored` of its first fill
 * word, and `count`, how many fill words it has, one for each order: the fill of order k is in the lower 28 bits of
 * stored[fills + k]. Where the result does not open `different` and `place` are as above. Refusals: those of a sheet; 9, where
 * the result opens, if the number is past the last round. Each call runs the opening again; whoever has seen by
 * auction_stored_opens that a result opens can read it without: round r begins at stored[r x (n + 4)], and the lower 16 bits
 * of the last word count the rounds. */
struct auction_round auction_stored_round(const uint32_t *sheet, size_t count, const uint32_t *stored, size_t length,
                                          size_t round);

/* The indicative price. If any pieces were traded it is the closing purchase price as it is; else the last auction price,
 * moved to the nearer bound if it is outside the band. 9 if the bounds are no band, or the price that is used is off the grid
 * before it is moved; the other price may be any number. */
struct auction_price auction_indicative_price(uint32_t lower, uint32_t upper, uint64_t traded, uint32_t closing,
                                              uint32_t auction);

/* The next band around an indicative price: 20 percent to each side for shares (code 0), 25 for certificates (code 1),
 * rounded towards the price but always off it. 9 for another code or a price off the grid; 11 for a price of 1, or an upper
 * bound that would be off the grid. */
struct auction_band auction_next_band(uint32_t code, uint32_t indicative);

/* The band after waiting: the upper bound (side 0) or the lower (side 1) moved out by a tenth of itself, rounded towards
 * where it was, but by 1 at least, so that a bound below 10 moves by 1; only a lower bound of 1 stays. The other bound is
 * given as it was. 9 for another side, or if the bounds are no band; 11 if the upper bound, so moved, would be off the
 * grid. */
struct auction_band auction_widened_band(uint32_t lower, uint32_t upper, uint32_t side);

/* The waiting clock: what the words of a waiting list lead to, from a starting band on. `phase` is 1 during a waiting
 * phase, else 0; `start` is the second at which it started and `side` that of its latest round, 0 above and 1 below,
 * both 0 outside a phase; then the band; and `due`, how many openings became due over the whole list.
 *
 * A round above or below the band sets the side. If no phase is on it starts one, at the latest second said, or at
 * second 0 if none was; else the start stays. A round inside the band ends a phase. A second that is 600 or more after
 * the start ends it too, and nothing but a second does so by time, however late rounds come: then the band is widened on
 * the phase's side, as auction_widened_band does it, and one more opening is due, also if a lower bound of 1 stays. One
 * such second widens once, however late it is. No word takes an opening off again; more than 143 cannot be due, as a 144th
 * would need second 86,400.
 *
 * So begin a list with a second, say one before each round, and the present one last. Nothing is kept between two calls:
 * to go on, hand in the whole list again with the starting band. After a refusal at a word, the call with `place` for
 * `count` gives the clock as it stood before that word.
 *
 * 9 if the bounds are no band, before any word is looked at. Then of each word in turn 13, 14, and 11 if it is a second
 * at which the time of a phase is up and the upper bound, widened, would be off the grid. */
struct auction_waiting auction_waiting_clock(uint32_t lower, uint32_t upper, const uint32_t *words, size_t count);

#ifdef __cplusplus
}
#endif
#endif

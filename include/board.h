/* The posting board for C and C++: what each function takes, gives and answers, and the layout of all that crosses.
   Rests on crates/exports, whose functions these are; tests/interface holds declarations and numbers to its source. */
#ifndef BOARD_H
#define BOARD_H

#include <stdbool.h>
#include <stddef.h>
#include <stdint.h>

#ifdef __cplusplus
extern "C" {
#endif

/* SLICES. A slice crosses as a pointer and a length, which counts elements and not bytes: `out` and `out_length`.
   The pointer is to that many elements and aligned for them; it is not null, even where the length is 0. A slice
   without `const` is lent to be written, and overlaps no other slice of the call. No pointer is kept. Nothing is kept
   between calls either, so threads may call at the same time, each with slices of its own.

   Every function takes any numbers and any bytes. What it does not do it refuses by its answer, and leaves every slice
   as it was. Where it writes to the first elements of a slice, those beyond stay. Only the three slices that
   board_audit_records is lent to work in hold anything after the call.

   STACK. board_call_changed takes some 1.6 MB of the caller's stack, board_run_by_value 1.3 MB and board_lookup_changed
   1 MB; every other function takes less than 150 kB. Nothing is allocated.

   A POSTING has an owner (the site that offered it), a kind, accounts a and b, and an amount. Accounts are 0 to 15.

     kind 0, TRADE   a and b differ, amount 1 to 1,000,000,000 cents
     kind 1, RATE    b is a, amount 0 to 10,000, a rate per 10,000
     kind 2, CALL    b is a, amount 0
     kind 3, NET     b is a, amount 0; or a and b are both BOARD_EVERY_ACCOUNT, amount 0, and every account is netted

   This is the field rule. A NET of every account touches all accounts, so it shares one with every posting; any other
   posting touches a and b. A table has at most BOARD_POSTINGS postings; the number of a posting is its place in the table,
   from 0 on.

   A MATRIX says for which kinds two postings conflict when they share an account: yes for kinds i and j is bit 4i + j,
   the lowest bit being bit 0. The fixed pairs 0-2, 0-3, 1-1, 1-2 and 2-3, both ways round, are 0x5B6C.

   A RUN FILE is a header of BOARD_HEADER bytes, then at most BOARD_EVENTS events of BOARD_EVENT bytes each. Wide fields
   have their highest byte first.

     byte 0 to 2   the letters RUN
     byte 3, 4     version, 1
     byte 5        n, the number of sites: 3 to 7
     byte 6        f, the crashes allowed: 2f is below n
     byte 7, 8     the matrix: symmetric, with the fixed pairs

   An EVENT is ten bytes: a code, eight bytes, of which those not named here are 0, and a cut byte. The cut byte is 255
   for a step that is done whole, else the number of sends after which the step is cut; of codes 3 and 5 it is 255.

     code 1, offer     byte 1 the site, 2 the kind, 3 and 4 the accounts a and b, 5 to 8 the amount
     code 2, receive   byte 1 the form (0 FIRST, 1 SECOND, 2 THIRD, 3 DELIVER), 2 the posting, 3 from, 4 to
     code 3, order     byte 1 the posting
     code 4, read      byte 1 the site
     code 5, crash     byte 1 the site

   A table's ROW is BOARD_ROW bytes: the owner, the kind, a, b, and the amount in four bytes, the highest first. Row m is
   that of posting m. The owner is not looked at by the functions below.

   A RECORD is a byte for each posting delivered, its number, in order. RECORDS OF SITES are BOARD_RECORD bytes for each
   site, site 0 first: how many postings its record has, in BOARD_RECORD_COUNT bytes, the highest first;
   then BOARD_POSTINGS bytes, of which the first so many are the record and the others are not looked at.

   BOOKS of a record are BOARD_FIGURES numbers, four for each account: of account k the position at 4k, the rate at
   4k + 1, called at 4k + 2, settled at 4k + 3. Position, called and settled are in cents, the rate is per 10,000. In the
   books of all sites those of site s begin at BOARD_FIGURES times s. They begin at 0, and each posting of the record
   changes those of the accounts that it touches:

     TRADE   the position of a rises by the amount, that of b falls by it
     RATE    the rate becomes the amount
     CALL    where the position is above zero, called rises by position times rate, divided by 10,000 and rounded up;
             where it is zero or below, nothing changes
     NET     settled rises by the position, with its sign, and the position becomes 0

   PAIRS, of a look-up, are two bytes each: a site and an account. An odd last byte is no pair and is not looked at. A pair's
   LINE is BOARD_LINE numbers: position, rate, called and settled of that account in the books of that site.

   RECORDS HANDED OVER, for an audit, come from another service. There are at most BOARD_AUDIT_POSTINGS posting numbers,
   from 0 on, and the fields of number x are at place x of four slices of one length: `kinds`, `firsts` (account a),
   `seconds` (account b) and `amounts`. A kind of BOARD_NO_KIND means that no posting has the number. `lines` has the
   records of all sites, one behind the other, a posting number for each line; site p's record ends at `ends[p]`, and the
   last end is the number of all lines.

   A SET OF POSTINGS is BOARD_WORDS words of 64 bits: posting m is bit m % 64 of word m / 64.

   A BOARD AS A ROW OF NUMBERS is BOARD_NUMBERS numbers of 64 bits; docs/FORMATS.md has the place of each. */

#define BOARD_SITES 7
#define BOARD_POSTINGS 256
#define BOARD_WORDS 4
#define BOARD_EVERY_ACCOUNT 255
#define BOARD_FIGURES 64
#define BOARD_HEADER 9
#define BOARD_EVENT 10
#define BOARD_EVENTS 4096
#define BOARD_ROW 8
#define BOARD_RECORD_COUNT 2
#define BOARD_RECORD (BOARD_RECORD_COUNT + BOARD_POSTINGS)
#define BOARD_NUMBERS 25764
#define BOARD_PAIRS 256
#define BOARD_LINE 4
#define BOARD_AUDIT_POSTINGS 65536
#define BOARD_NO_KIND 255
#define BOARD_AUDIT_NUMBERS 8

/* ANSWERS. Of a function that answers `uint8_t`: done, or refused. */
#define BOARD_DONE 0
#define BOARD_REFUSED 255

/* In place of a count or of the number of a refusal, in place of the size of a call, and in place of an audit's answer. */
#define BOARD_NO_COUNT UINT64_C(18446744073709551615)
#define BOARD_NO_SIZE UINT64_C(18446744073709551615)
#define BOARD_NO_ANSWER UINT64_C(18446744073709551615)

/* The NUMBER OF A REFUSAL, as `board` prints it and as board_run_events and board_call_changed give it. 0 is accepted.

      1  the run file is malformed
      2  n is outside 3 to 7
      3  2f is not below n
      4  the matrix is not symmetric
      5  the matrix lacks a fixed pair
      6  the board is unsound
      7  a site number is n or more
      8  the acting site is down
      9  a posting is outside the field rule
     10  as many postings as a table has room for have been offered
     11  the message to receive is not in flight
     12  the posting to order is not in the pool
     13  the site has read the log to its end
     14  one crash more would exceed f
     15  a cut names more sends than the step has
     16  the slice for books is too short
     18  a look-up has more than BOARD_PAIRS pairs, an account above 15, or a slice of fewer than BOARD_LINE numbers a pair

   Where several apply it is the lowest. A run file itself is refused with 1 to 5, an event of it with 7 to 15, a look-up
   with 6, 7 and 18. */

/* The CODE OF AN AUDIT. The numbers of its refusals are its own. Where several apply it is the lowest, at the first site
   and its first line.

      0  the records agree
      1  no record, or more than BOARD_SITES
      2  the matrix is not symmetric, or lacks a fixed pair
      3  sizes: more than BOARD_AUDIT_POSTINGS numbers, slices of fields with different lengths, ends that fall or do not
         come to the number of lines, a slice that is too short
      5  a posting is outside the field rule
      7  a record names a number that has no posting
      9  a record names a posting twice

     10  crossed: site `here` has `first` ahead of `second`, site `there` has `second` ahead of `first`
     11  missing: site `here` has `second` without `first`, which site `there` has ahead of `second`
     12  apart: site `here` has `first`, site `there` has `second`, and no site has both

   10 to 12 are found where records do not agree: two postings that conflict, `first` and `second`, show it. */
#define BOARD_CROSSED 10
#define BOARD_MISSING 11
#define BOARD_APART 12

/* A drain with this limit ends quiet on every board that a run file leaves. */
#define BOARD_DRAIN_LIMIT 27136

/* No run file makes `board` print more bytes than this. */
#define BOARD_TEXT 65536

/* ---- run files */

/* Runs the file `input` and writes what the program `board` prints for it to the first bytes of `out`. Of a refused file
   that is the line `F` and the number of the refusal.
   Answers how many bytes they are; BOARD_NO_COUNT if `out` is shorter than that. */
uint64_t board_run_file(const uint8_t *input, size_t input_length, uint8_t *out, size_t out_length);

/* Runs the file, then does events until the board is quiet or `limit` events are done, and writes the books of all its n
   sites to the first BOARD_FIGURES times n numbers of `out`.
   Answers how many events the drain did; BOARD_NO_COUNT if the file is refused or `out` is shorter than that. */
uint64_t board_run_drain(const uint8_t *input, size_t input_length, uint64_t limit, int64_t *out, size_t out_length);

/* Runs the file and writes for each event the number of its refusal, 0 if it was accepted, to the first bytes of
   `numbers`.
   Answers how many events the file has; BOARD_NO_COUNT if the file is refused or `numbers` is shorter than that. */
uint64_t board_run_events(const uint8_t *input, size_t input_length, uint8_t *numbers, size_t numbers_length);

/* Gives and answers what board_run_drain does, by way of the calls that take a board by value: slower, for comparison. */
uint64_t board_run_by_value(const uint8_t *input, size_t input_length, uint64_t limit, int64_t *out, size_t out_length);

/* For tests: what one call does on any board, an unsound one too. The board is the one that the file leaves, with the
   number at `place` of its row replaced by `value`, modulo the width of its field; with a place of BOARD_NUMBERS or more
   nothing is replaced. `event` is the ten bytes of an event; or its first byte is 0 for a drain with `limit`, or 255 for
   the books of all sites, and the other nine are not looked at.
   Writes the board handed back and two values to the first BOARD_NUMBERS + 2 numbers of `board`. Of an accepted offer the
   first value is the posting's number. Of a drain that is not refused the first is 0 if it ended quiet and 1 if its limit
   was used up, the second how many events it did. Else they are 0. Books that are not refused are written to `figures`,
   which stays as it was for every other call.
   Answers the number of the refusal, 0 if the call was accepted; BOARD_NO_COUNT if the file is refused, `event` is not
   ten bytes long or asks for nothing, or `board` is too short. */
uint64_t board_call_changed(const uint8_t *input, size_t input_length, uint64_t place, uint64_t value,
                            const uint8_t *event, size_t event_length, uint64_t limit, int64_t *figures,
                            size_t figures_length, uint64_t *board, size_t board_length);

/* ---- balances looked up */

/* Runs the file, then looks up the pairs on its board, whatever is in flight: writes the line of each pair, in the order
   given, to the first BOARD_LINE numbers a pair of `out`. A site that is down is looked up like any other. The record of
   each site named is gone through once, the others not at all.
   Answers how many places of records were visited, the lengths of the records of the sites named added up. Where the file
   or the look-up is refused it answers 2^64 less the number of the refusal, which is above any count: the number is 0 less
   the answer, as a uint64_t. */
uint64_t board_run_lookup(const uint8_t *input, size_t input_length, const uint8_t *pairs, size_t pairs_length,
                          int64_t *out, size_t out_length);

/* For tests: looks up the pairs on any board, an unsound one too, by way of the call that takes a board by value. The board
   is the one that the file leaves, with the number at `place` of its row replaced by `value`, as in board_call_changed.
   Writes and answers as board_run_lookup does. */
uint64_t board_lookup_changed(const uint8_t *input, size_t input_length, uint64_t place, uint64_t value,
                              const uint8_t *pairs, size_t pairs_length, int64_t *out, size_t out_length);

/* ---- postings and the matrix */

/* Whether the fields of a posting are within the field rule. */
bool board_fields_ok(uint8_t kind, uint8_t a, uint8_t b, uint32_t amount);

/* Whether the matrix is symmetric. */
bool board_symmetric(uint16_t matrix);

/* Whether the matrix says yes for the fixed pairs. */
bool board_has_fixed_pairs(uint16_t matrix);

/* Whether two postings conflict: their numbers m and x differ, they share an account (a or b of the one, c or d of the
   other, of 0 to 15; or the one nets every account and the other touches any), and the matrix says yes for their kinds i
   and j. A kind above 3 conflicts with nothing. */
bool board_conflicting(uint16_t matrix, size_t m, uint8_t i, uint8_t a, uint8_t b, size_t x, uint8_t j, uint8_t c,
                       uint8_t d);

/* Writes the set of posting m and of all that conflict with it, in the table with these rows, to the first BOARD_WORDS
   words of `out`.
   Answers BOARD_DONE; BOARD_REFUSED if `rows` are no whole rows or more than BOARD_POSTINGS, m is none of them, or `out`
   is too short. */
uint8_t board_conflict_set(uint16_t matrix, const uint8_t *rows, size_t rows_length, size_t m, uint64_t *out,
                           size_t out_length);

/* ---- effects and books */

/* Answers what a CALL adds to called: where the position is above zero, the size of position times rate, divided by 10,000
   and rounded up; 0 where it is zero or below. BOARD_NO_SIZE if position times rate, or its negative, is no int64_t,
   whatever the position's sign. */
uint64_t board_size_of_call(int64_t position, int64_t rate);

/* A posting has its effect on the four figures of one account, the first numbers of `figures`: position, rate, called,
   settled. If it does not touch the account they stay.
   Answers BOARD_DONE; BOARD_REFUSED if the posting is outside the field rule, there are fewer than four figures, or they
   have no room for one posting more: a position beyond 200,000,000,000,000 either way, a rate beyond 10,000, called or
   settled beyond 4,000,000,000,000,000,000. */
uint8_t board_effect(uint8_t kind, uint8_t a, uint8_t b, uint32_t amount, uint8_t account, int64_t *figures,
                     size_t figures_length);

/* Writes the books of the record `delivered` of postings in the table with these rows, posted one by one from zeros, to
   the first BOARD_FIGURES numbers of `out`.
   Answers BOARD_DONE; BOARD_REFUSED if `rows` are no whole rows, more than BOARD_POSTINGS, or one is outside the field
   rule; if the record is longer than BOARD_POSTINGS or names a number that is no row; or if `out` is too short. */
uint8_t board_books(const uint8_t *rows, size_t rows_length, const uint8_t *delivered, size_t delivered_length,
                    int64_t *out, size_t out_length);

/* The same for several sites: `delivered` are records of sites, and the books of site s are written from BOARD_FIGURES
   times s on.
   Answers as board_books does, and BOARD_REFUSED too if the records are not whole or more than BOARD_SITES. */
uint8_t board_books_all(const uint8_t *rows, size_t rows_length, const uint8_t *delivered, size_t delivered_length,
                        int64_t *out, size_t out_length);

/* ---- records handed over */

/* Audits records: whether there is one order of all postings from which every record comes by exchanging neighbours that
   do not conflict, and of which it has all that conflicts with, and stands ahead of, what it has; two records that agree
   in this way and hold the same postings stand for the same books. Answers with the code of the audit, and writes to the
   first BOARD_AUDIT_NUMBERS numbers of `out`: site, line, posting, above, first, second, here, there.

     code 0 to 3     all are 0
     code 5          posting is the lowest number whose posting is outside the field rule, the others are 0
     code 7, 9       the site, the line of its record, from 0 on, and the number there; above is the first line of the
                     record that has the same number, if it is named twice, else 0
     code 10 to 12   the first line that departs from the lines read before it: its site and line; posting is the lowest
                     number that shows it. What comes before this line agrees. first and second are this posting and the
                     one at the line, in the order of the code's sentence; here and there are its sites

   `marks`, `places` and `ahead` are lent to work in, and have at least 1, 1 and 8 numbers for each posting number.
   Answers BOARD_NO_ANSWER, and writes nothing, if `out` is shorter than BOARD_AUDIT_NUMBERS. */
uint64_t board_audit_records(uint16_t matrix, const uint8_t *kinds, size_t kinds_length, const uint8_t *firsts,
                             size_t firsts_length, const uint8_t *seconds, size_t seconds_length,
                             const uint32_t *amounts, size_t amounts_length, const uint16_t *lines,
                             size_t lines_length, const size_t *ends, size_t ends_length, uint8_t *marks,
                             size_t marks_length, uint32_t *places, size_t places_length, uint32_t *ahead,
                             size_t ahead_length, uint64_t *out, size_t out_length);

/* Writes the books of one record handed over, of at most BOARD_AUDIT_POSTINGS lines, to the first BOARD_FIGURES numbers of
   `out`. Answers 0, or with the lowest of the audit's refusals 3, 5 and 7 that applies. */
uint8_t board_audit_figures(const uint8_t *kinds, size_t kinds_length, const uint8_t *firsts, size_t firsts_length,
                            const uint8_t *seconds, size_t seconds_length, const uint32_t *amounts,
                            size_t amounts_length, const uint16_t *lines, size_t lines_length, int64_t *out,
                            size_t out_length);

#ifdef __cplusplus
}
#endif

#endif

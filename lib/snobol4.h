/* SNOBOL4 as a library: the functions that the proved crate snobol4_c exports.

   Texts are bytes, with no 0 byte behind them, and their sizes are in bytes. A call waits for nothing, opens no file, and writes
   nowhere but to `out`, `line`, `told` and a matcher; it keeps nothing but the listing of a matcher. Several threads may call at
   once. What a call takes for itself comes from malloc and is given back before it returns, and a listing by
   snobol4_matcher_free. A deep program takes as much of the caller's stack as it takes of the program's: 8 MB are enough
   wherever they are for `snobol4`.

   What a caller owes, and no function tests: each pointer stands for as many bytes as its size says (at most 2^63 - 1), and is
   not NULL, also where its size is 0; `out`, `line`, `told` and a matcher overlap neither one another nor a text; `anchored` is
   0 or 1; a matcher is {0} or as the last call has left it, is not copied, and is used by one thread alone. */
#ifndef SNOBOL4_H
#define SNOBOL4_H
#include <stdbool.h>
#include <stddef.h>
#include <stdint.h>

#ifdef __cplusplus
extern "C" {
#endif

/* How a call ended.
   status   as the status of the program `snobol4`, whose job it did:
              0   well
              1   an error of the program, by its number in `line`
              2   the program, or the pattern, is refused
              4   the limit of statements (error 20)
              5   the limit of steps of a match (error 21)
              6   no memory
              7   what it wrote didn't fit into `out` (or there was no memory to hold it)
              64  a number out of its range, or a pattern or subject that isn't UTF-8: nothing was done, and both rooms are as
                  they were (written and told are 0)
   written  how many bytes were written to the beginning of `out`: all, or at status 7 as many as it has room for; those behind
            them are as they were
   told     how many bytes of `line` were written: the line that the program writes to standard error, with its line feed, or
            as much of it as has room; 0 where there is none. 256 bytes hold every line */
struct snobol4_told { uint32_t status; size_t written, told; };

/* The ways in which a pattern matches a subject, as `snobol4 ways` writes them.
   pattern, subject  UTF-8
   anchored          matches begin at the subject's beginning only
   steps             the most steps of the search: 0 to 1,000,000,000. Where they are used up the last line is `limit` in place
                     of `exhausted`, and the status 0 */
void snobol4_ways(const uint8_t *pattern, size_t pattern_size, const uint8_t *subject, size_t subject_size, bool anchored,
    uint32_t steps, uint8_t *out, size_t out_size, uint8_t *line, size_t line_size, struct snobol4_told *told);

/* A listing that stays from call to call, or none: {0} holds none, and `held` tells. The struct is the caller's, and what it
   holds is the library's until snobol4_matcher_free. */
struct snobol4_matcher { void *search; bool held; };

/* Begins a listing, of the lines that snobol4_ways writes of the same pattern, subject, `anchored` and `steps`. What the matcher
   held before is let go. Nothing is searched by this call, and written is 0.
   status 0   the matcher holds the listing
   another    it holds none: 2, the pattern is refused; 1, the subject is longer than 1,000,000 bytes (error 8); 6, no memory; 64,
              as for snobol4_ways */
void snobol4_matcher_new(const uint8_t *pattern, size_t pattern_size, const uint8_t *subject, size_t subject_size, bool anchored,
    uint32_t steps, struct snobol4_matcher *matcher, uint8_t *line, size_t line_size, struct snobol4_told *told);

/* Gives the next line of a listing, with its line feed, and behind it what that line's assignment writes (one to OUTPUT). No more
   is searched than the line needs, and nothing twice.
   status 0, written > 0   the line; more may come
   status 0, written 0     the end: all lines were given, and each later call tells so again
   status 7                the line is longer than `out`: nothing is written, and it waits for a call with more room
   status 64               the matcher holds no listing: nothing was done
   another                 the listing has ended in an error, or since memory was refused (6); `out` has what was written before,
                           and each later call tells the status again and writes nothing */
void snobol4_matcher_next(struct snobol4_matcher *matcher, uint8_t *out, size_t out_size, uint8_t *line, size_t line_size,
    struct snobol4_told *told);

/* Lets a listing go, at its end or before; the matcher then holds none. Where it holds none already nothing is done. */
void snobol4_matcher_free(struct snobol4_matcher *matcher);

/* Runs a program on an input, as `snobol4 run`: `out` gets what it writes.
   program, input  any bytes (a program that isn't text is refused)
   statements      the most statements that are performed: 1 to 1,000,000,000,000
   match_steps     the most steps of a match: 0 to 1,000,000,000 */
void snobol4_run(const uint8_t *program, size_t program_size, const uint8_t *input, size_t input_size, uint64_t statements,
    uint32_t match_steps, uint8_t *out, size_t out_size, uint8_t *line, size_t line_size, struct snobol4_told *told);

/* Reads a program without running it, as `snobol4 check`: status 0, or 2 with the first thing wrong in `line`, or 6.
   It writes no output: written is 0. */
void snobol4_check(const uint8_t *program, size_t program_size, uint8_t *line, size_t line_size, struct snobol4_told *told);

/* Lists a program with the numbers of its statements and with warnings, as the program `snobol4-list` writes it.
   number  0: the whole program; 1 to 100,000: this statement alone; above: status 64
   A program that is refused has status 2, and its listing in `out` says why; `line` stays empty. A statement that isn't there
   has status 64 and "snobol4-list: no statement N" in `line`. */
void snobol4_list(const uint8_t *program, size_t program_size, uint32_t number, uint8_t *out, size_t out_size,
    uint8_t *line, size_t line_size, struct snobol4_told *told);

#ifdef __cplusplus
}
#endif
#endif

/*
 * Mirzhelo: whether the fourteen rules of TLS generate a recorded trace, and what the spy knows after it.
 *
 * Three questions over lent bytes. Each is one call that reads the file, writes at most the lent buffer, returns one
 * number, and keeps nothing: there is no state, no heap, no input or output, and no pointer is held after the return.
 * The archive is target/staticlib/libcabi.a (`tools/archive`), for x86-64 Linux; of the C library it needs memset alone.
 *
 * The file is laid out byte by byte in docs/FORMAT.md: 20 bytes of contents, 8 bytes for each row, 8 bytes for each
 * event; at most 1,024 rows and 512 events, so at most 12,308 bytes. Every byte string of every length is a valid
 * question: one that is no trace file is refused, never misread.
 *
 * What the caller owes, since no code can check it:
 *   - file points to file_len bytes that can be read, and nobody writes them during the call;
 *   - rules (marks) points to rules_len (marks_len) bytes that can be read and written, and nobody else reads or writes
 *     them during the call;
 *   - the buffer and the file share no byte;
 *   - a length is at most PTRDIFF_MAX. A pointer with length 0 is never followed;
 *   - the stack has room: no proof bounds it; docs/PERFORMANCE.md, "Stack", has what was measured on the deepest file.
 * All else is proved for every file, every buffer and every n (crates/cabi): a call ends, stays within the bytes lent to
 * it, and returns the one number that its contract allows.
 */
#ifndef MIRZHELO_H
#define MIRZHELO_H

#include <stddef.h>
#include <stdint.h>

#ifdef __cplusplus
extern "C" {
#endif

/*
 * The numbers returned by mz_verdict and mz_knowledge. The upper four bits tell the kind:
 *
 *   0x0000NNNN   mz_verdict: accepted, N events (0 to 512). mz_knowledge: 0, the marks are written.
 *   0x1000NNNN   mz_verdict only: illegal, the longest accepted beginning has N events (0 to 511).
 *   0x20CCPPPP   refused: C is the number (1 to 9) and P the place.
 *
 *    C   given exactly when                                                                place P
 *    1   fewer than 20 bytes                                                               0
 *    2   version not 1, or bytes 2-3 not zero                                              0
 *    3   the Spy (agent 0) not compromised, or the authority (agent 1) compromised         0
 *    4   more than 1,024 rows or 512 events, a wrong offset, or a length that does not fit 0
 *    5   a row breaks its kind's line                                                      the lowest such row
 *    6   a row equals an earlier one                                                       the lowest such later row
 *    7   an event breaks its line, or its row does not exist                               the lowest such event
 *    8   the lent buffer has fewer bytes than events (mz_verdict) or rows (mz_knowledge)   0
 *    9   n is above the number of events (mz_knowledge only)                               0
 *
 * The lowest number applies. A refused call changes no byte.
 */
#define MZ_ILLEGAL UINT32_C(0x10000000)
#define MZ_REFUSED UINT32_C(0x20000000)

/* The kind: 0, MZ_ILLEGAL or MZ_REFUSED. */
#define MZ_KIND(reply) ((uint32_t)(reply) & UINT32_C(0xF0000000))

/* N of an accepted or an illegal trace. */
#define MZ_LENGTH(reply) ((uint32_t)(reply) & UINT32_C(0xFFFF))

/* C and P of a refusal. */
#define MZ_CAUSE(reply) (((uint32_t)(reply) >> 16) & UINT32_C(0xFF))
#define MZ_PLACE(reply) ((uint32_t)(reply) & UINT32_C(0xFFFF))

/*
 * The verdict.
 *
 * Reads: the file_len bytes of the file.
 * Writes, unless refused: rules[0] to rules[E - 1], one byte for each of the file's E events. rules[i] is the rule number,
 * 1 to 14, of event i if that event is in the longest accepted beginning, and 0 if it comes after it. The number is the
 * lowest of the rules that fit, but 6 for both events of rule 6. Bytes from rules[E] on keep their content.
 * Returns: accepted, illegal or refused, as above (refusals 1 to 8). Room for 512 bytes is room for every file.
 */
uint32_t mz_verdict(const uint8_t *file, size_t file_len, uint8_t *rules, size_t rules_len);

/*
 * The spy's knowledge after the first n events, legal or not.
 *
 * Reads: the file_len bytes of the file.
 * Writes, unless refused: marks[0] to marks[R - 1], one byte for each of the file's R rows. marks[r] is 2 if the spy's
 * analysed knowledge holds row r, else 1 if the spy can make it, else 0. Bytes from marks[R] on keep their content.
 * Returns: 0, or refused as above (refusals 1 to 9). Room for 1,024 bytes is room for every file.
 */
uint32_t mz_knowledge(const uint8_t *file, size_t file_len, size_t n, uint8_t *marks, size_t marks_len);

/*
 * The part of the file that is at fault: the row or the event of refusals 5 to 7, or, of a file that is not refused, the
 * event that follows the longest accepted beginning.
 *
 * Reads: the file_len bytes of the file. Writes nothing.
 * Returns: 0x0008SSSS, eight bytes that start at file[S], S at most 12,300; or 0, no part.
 */
uint32_t mz_fault(const uint8_t *file, size_t file_len);

/* Where the part starts, and its length: 8, or 0 for none. */
#define MZ_START(part) ((uint32_t)(part) & UINT32_C(0xFFFF))
#define MZ_SIZE(part) ((uint32_t)(part) >> 16)

#ifdef __cplusplus
}
#endif

#endif

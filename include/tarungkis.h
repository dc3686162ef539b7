/* Tarungkis: a proved race predictor. The six questions, the writer and the report, for C and for whatever calls C.
 *
 * Build the library with `rt lib` in crates/tarungkis (it is out/libtarungkis.a there) and link it: cc program.c libtarungkis.a.
 * examples/report.c is a whole program. docs/FORMAT.md has the format of a recording, and all refusals and faults by their numbers.
 *
 * What holds for every function:
 * - It answers every call. Any bytes, numbers and lengths will do, in any order of calls; no function presumes that another was called before.
 * - It holds no state and keeps no pointer, so threads may call it at once. It allocates nothing and makes no system call.
 * - A pointer and the length behind it, in elements, are one place. It is read or written within that length only. Where the length is 0 the
 *   pointer is not looked at, and NULL will do. A pointer to uint16_t or uint32_t must be aligned for it.
 * - Places that are `const` may overlap each other. A place that is not must overlap no other place of the call.
 * - While the call goes on, no other thread may write to a place that is `const`, nor read or write one that is not.
 * - What is left in a place is said with each function. A refusal changes nothing.
 * - Stack: TARUNGKIS_STACK_BYTES are enough for any call. The report takes most; bench/stack measures what it needs, some 139,000 bytes with the
 *   example's own arrays.
 */
#ifndef TARUNGKIS_H
#define TARUNGKIS_H

#include <stddef.h>
#include <stdint.h>

#ifdef __cplusplus
extern "C" {
#endif

/* ---- limits */

#define TARUNGKIS_MAX_BYTES 16384   /* of a recording */
#define TARUNGKIS_MAX_EVENTS 1000   /* of a recording */
#define TARUNGKIS_MAX_THREAD 15     /* the highest number of a thread */
#define TARUNGKIS_MAX_OBJECT 1023   /* the highest number of a cell or lock */
#define TARUNGKIS_AREA_BYTES 65536  /* of a work area */
#define TARUNGKIS_LINE_BYTES (25 + 6 * TARUNGKIS_MAX_EVENTS) /* of a buffer for the report, at least */
#define TARUNGKIS_MAX_RACES (TARUNGKIS_MAX_EVENTS * TARUNGKIS_MAX_EVENTS) /* no recording has more */
#define TARUNGKIS_STACK_BYTES 524288

/* ---- answers
 *
 * Each answer but the report's is one number: its case, and up to two numbers that go with it. A refusal's case is its number in the paper; the
 * first number is then that of the event it speaks of, or 0. Every other case has a name below, with its numbers in brackets.
 */

#define TARUNGKIS_CASE(answer) ((unsigned)((answer) & 0xFF))
#define TARUNGKIS_FIRST(answer) ((unsigned)((answer) >> 8 & 0xFFFF))
#define TARUNGKIS_SECOND(answer) ((unsigned long)((answer) >> 24))
#define TARUNGKIS_IS_REFUSAL(answer) (TARUNGKIS_CASE(answer) < TARUNGKIS_GOOD)

enum tarungkis_case {
  TARUNGKIS_FILE_SIZE = 1,        /* fewer than 8 bytes, or more than TARUNGKIS_MAX_BYTES */
  TARUNGKIS_MARK = 2,             /* the last two bytes are not 50 4C hex */
  TARUNGKIS_EVENT_COUNT = 3,      /* more than TARUNGKIS_MAX_EVENTS */
  TARUNGKIS_DISTANCE = 4,         /* the distance is not that of the first event */
  TARUNGKIS_KIND = 5,             /* an event's kind is not 1 to 6 [event] */
  TARUNGKIS_THREAD = 6,           /* an event's thread is above TARUNGKIS_MAX_THREAD [event] */
  TARUNGKIS_OBJECT = 7,           /* an event's cell or lock is above TARUNGKIS_MAX_OBJECT, or the thread of a fork or join above TARUNGKIS_MAX_THREAD [event] */
  TARUNGKIS_LOCK_HELD = 8,        /* an acquire of a lock that another thread holds [event] */
  TARUNGKIS_NOT_HOLDER = 9,       /* a release of a lock that its thread does not hold [event] */
  TARUNGKIS_LIST_SHORT = 10,      /* the lent list or buffer is too short; the writer: or the lists have different lengths */
  TARUNGKIS_NOT_CONFLICTING = 11, /* a and b are not two conflicting accesses, the lower first */
  TARUNGKIS_AREA_SHORT = 12,      /* the work area has fewer than TARUNGKIS_AREA_BYTES */
  TARUNGKIS_PREAMBLE = 13,        /* the preamble has a byte that is neither 0A nor 20 to 7E hex */
  TARUNGKIS_SELF_OR_SECOND = 15,  /* a fork or join of the event's own thread, or a second fork of one thread [event] */
  TARUNGKIS_ALREADY_BEGUN = 16,   /* a fork of a thread that already has an event [event] */
  TARUNGKIS_ALREADY_JOINED = 17,  /* an event of a joined thread [event] */

  TARUNGKIS_GOOD = 100,             /* question 1 [events, threads] */
  TARUNGKIS_WRITE = 101,            /* question 2: the write that the event sees [event] */
  TARUNGKIS_START = 102,            /* question 2: it sees what the cell held at the start */
  TARUNGKIS_NOT_A_READ = 103,       /* question 2: it is not a read, or no event */
  TARUNGKIS_GIVEN = 104,            /* question 2, all at once: the entries of 0 to this number are given [events] */
  TARUNGKIS_REPORTED = 105,         /* question 3: a race [entries of the witness] */
  TARUNGKIS_NOT_REPORTED = 106,     /* question 3: none */
  TARUNGKIS_RACE = 107,             /* question 4 [lower event, higher event] */
  TARUNGKIS_NO_RACE = 108,          /* question 4: none after that pair */
  TARUNGKIS_YES = 109,              /* question 5: a correct reordering that brings both next */
  TARUNGKIS_NO = 110,               /* question 5: it is not [fault, 21 to 27] */
  TARUNGKIS_NOTE_IN_FILE = 111,     /* question 6: the note is the file's first bytes [bytes]; 0 for a refused file */
  TARUNGKIS_NOTE_OF_OPERATOR = 112, /* question 6: the file has none, so the operator's own note is it */
  TARUNGKIS_WRITTEN = 113           /* the writer [bytes] */
};

/* The faults of question 5, which go with TARUNGKIS_NO: the first that the list has, by place. */
enum tarungkis_fault {
  TARUNGKIS_NO_EVENT = 21,           /* an entry is no event's number */
  TARUNGKIS_NOT_NEXT = 22,           /* an entry is not the next event of its thread, or stands twice */
  TARUNGKIS_SEES_OTHERWISE = 23,     /* a read does not see what it saw in the recording */
  TARUNGKIS_HELD_BY_ANOTHER = 24,    /* an acquire of a lock that another thread holds then */
  TARUNGKIS_LOWER_NOT_ENABLED = 25,  /* behind the list a is not the next event of its thread, or its thread's fork is not in it */
  TARUNGKIS_HIGHER_NOT_ENABLED = 26, /* b is not, or that of its thread */
  TARUNGKIS_NOT_READY = 27           /* an event stands before its thread's fork, or a join before an event of the joined thread */
};

/* The entry of tarungkis_observed_writes for what is not a read. An entry 0 is the start; any other is the number of the write. */
#define TARUNGKIS_ENTRY_NOT_A_READ 65535

/* ---- the questions. `file` is a recording's bytes; events are numbered from 1. */

/* Question 1: is it good? TARUNGKIS_GOOD, or refusals 1 to 9, 13 and 15 to 17, which every question gives first. */
uint64_t tarungkis_judge(const uint8_t *file, size_t file_bytes);

/* Question 2: which write does event k see? TARUNGKIS_WRITE, TARUNGKIS_START or TARUNGKIS_NOT_A_READ, for any k. */
uint64_t tarungkis_observed_write(const uint8_t *file, size_t file_bytes, uint16_t k);

/* Question 2 for all events at once: TARUNGKIS_GIVEN, or refusal 10. With n events, entry k of the list is the answer for k, from 0 to n, so the
 * list needs n + 1 entries (TARUNGKIS_MAX_EVENTS + 1 are always enough); those behind them are left as they were. */
uint64_t tarungkis_observed_writes(const uint8_t *file, size_t file_bytes, uint16_t *list, size_t list_entries);

/* Question 3: could a and b have met? TARUNGKIS_REPORTED, TARUNGKIS_NOT_REPORTED, or refusals 11, 10, 12. The list needs as many entries as there
 * are events (TARUNGKIS_MAX_EVENTS are always enough). A race leaves its witness in the list's front; the entries behind it are left as they were,
 * and all where it is not reported. The work area needs TARUNGKIS_AREA_BYTES, whatever they hold; these are zero then, and those behind them are left
 * as they were. */
uint64_t tarungkis_verdict(const uint8_t *file, size_t file_bytes, uint16_t a, uint16_t b, uint16_t *list, size_t list_entries, uint8_t *area,
                           size_t area_bytes);

/* Question 4: the first race after (a, b), by the lower event, then by the higher; (0, 0) asks for the first of all. TARUNGKIS_RACE,
 * TARUNGKIS_NO_RACE, or refusal 12. The work area as for question 3. */
uint64_t tarungkis_next_race(const uint8_t *file, size_t file_bytes, uint16_t a, uint16_t b, uint8_t *area, size_t area_bytes);

/* Question 5: is the list a correct reordering that brings both a and b next? TARUNGKIS_YES, TARUNGKIS_NO, or refusal 11. Any list will do. */
uint64_t tarungkis_check_reordering(const uint8_t *file, size_t file_bytes, uint16_t a, uint16_t b, const uint16_t *list, size_t list_entries);

/* Question 6: where is the recording's note? TARUNGKIS_NOTE_IN_FILE, the front of the file, or TARUNGKIS_NOTE_OF_OPERATOR. */
uint64_t tarungkis_note(const uint8_t *file, size_t file_bytes);

/* ---- the writer: the recording of a preamble and of events, whose threads, kinds and objects (cells, locks or threads) are in three lists of one length.
 * TARUNGKIS_WRITTEN, and the recording is in the buffer's front; the bytes behind it are left as they were. Or refusal 10 where the lists differ in
 * length, then what reading the recording would give, then 10 where the buffer is shorter than it (TARUNGKIS_MAX_BYTES are always enough). */
uint64_t tarungkis_write_file(const uint8_t *preamble, size_t preamble_bytes, const uint8_t *threads, size_t thread_entries, const uint8_t *kinds,
                              size_t kind_entries, const uint16_t *objects, size_t object_entries, uint8_t *buffer, size_t buffer_bytes);

/* ---- the report, block by block: the next lines of a recording's report in the front of `out`; gives how many bytes they are. After each line a
 * further one is written only while TARUNGKIS_LINE_BYTES are free, in which any line fits. `place` points to four words that say where to go on, and
 * these are moved behind what was written; four zeros are the start. So this writes a whole report, whatever its length:
 *
 *     uint32_t place[4] = {0};
 *     while ((n = tarungkis_report(file, file_bytes, place, out, sizeof out)) > 0) fwrite(out, 1, n, stdout);
 *
 * It gives 0, and changes nothing, where nothing is left to write (place[0] is 2 then), where `out` has fewer than TARUNGKIS_LINE_BYTES bytes, and
 * where the words are no place in a report: place[0] above 1, place[1] or place[2] above 65,535, or place[3] above TARUNGKIS_MAX_RACES.
 * The words are what comes next (0 the first line, 1 a race or the last line), the pair after which the next race comes, and how many races were
 * written. Of a refused file the one line is written at any place. (From a place that no start leads to, the count may grow beyond that; then it is
 * no place any more.) The bytes of `out` behind those written are left as they were. */
size_t tarungkis_report(const uint8_t *file, size_t file_bytes, uint32_t place[4], uint8_t *out, size_t out_bytes);

#ifdef __cplusplus
}
#endif

#endif

/* The slot planner's entry for hosts written in C.
 *
 * Plans measurement jobs for a logger: each job takes one of up to eight links
 * for one slot, and an overfull table leaves the right jobs out.
 *
 * A sheet is a row of records: a tag of one byte, a length of two bytes, and
 * the value. Numbers of several bytes have the high byte first.
 *
 *   tag  length        value
 *   1    1             the kind of weights: 1 points, 2 classed, 3 share
 *   2    0 to 1,024    the calendar: a mask for each slot from slot 0 on, in
 *                      which bit k set means that link k is open
 *   3    6 and weight  a job: number (1 to 65,535), ready slot r, deadline d,
 *                      two bytes each, r < d <= 1,024, then its weight. The
 *                      job may sit in the slots r to d - 1.
 *
 * The kind comes first, then the calendar, then 0 to 256 jobs in any order, no
 * two with the same number. The weight takes
 *
 *   points    4 bytes   1 to 4,294,967,295
 *   classed   3 bytes   a class, 0 to 4 for QM, A, B, C, D (D is the heaviest),
 *                       then points, 1 to 65,535; the class counts first
 *   share     4 bytes   n over m, two bytes each, 1 to 65,535
 *
 * The text is ASCII, a line a job, the heaviest first and the lower number
 * first among equals, each line ended by the byte 10; no zero byte follows:
 *
 *   NUMBER SLOT LINK        a job that is kept, and its place
 *   NUMBER - FIRST END      a job that is dropped: in the slots FIRST to
 *                           END - 1 each open place has gone to a job no
 *                           lighter
 *
 * A sheet without jobs has an empty text. The text of a sheet at fault is the
 * one line
 *
 *   refused FAULT at BYTE
 *
 * with the byte of the tag of the first record at fault (a record that is
 * missing is at the sheet's length), and the fault
 *
 *    1   the sheet ends inside the record
 *    2   unknown tag
 *    3   record out of order, or missing
 *    4   unknown kind
 *    5   wrong length for the tag
 *    7   no weight of the kind
 *    8   job number 0
 *    9   no window: r >= d, or d > 1,024
 *   10   a number that an earlier job has
 *   11   the 257th job
 */
#ifndef SLOT_PLANNER_H
#define SLOT_PLANNER_H

#include <stddef.h>
#include <stdint.h>

#ifdef __cplusplus
extern "C" {
#endif

/* A buffer of this many bytes takes the text of every sheet: 256 lines of at
 * most 20 bytes. */
#define SLOT_PLANNER_TEXT_MAX 5120

/* The answer where the text is longer than the buffer. */
#define SLOT_PLANNER_TOO_SHORT (-15)

/* Plans the sheet of sheet_len bytes and puts its text at the front of the
 * buffer of out_len bytes. Answers the text's length, and leaves the bytes
 * behind it as they were; or SLOT_PLANNER_TOO_SHORT, and leaves the whole
 * buffer as it was.
 *
 * Each byte string is a sheet to it, whatever the bytes are. Neither pointer
 * may be null, and the buffer may not overlap the sheet. It allocates nothing,
 * keeps nothing between calls and may be called by several threads at once. */
int64_t plan_sheet(const uint8_t *sheet, size_t sheet_len, uint8_t *out, size_t out_len);

#ifdef __cplusplus
}
#endif

#endif

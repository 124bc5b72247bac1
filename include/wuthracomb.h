/* wuthracomb.h - the C face of Wuthracomb

   A yard of box-shaped carriers run in steps of 20,000 microseconds, a log of
   lever records, late records by going back, and replay of a log; beside them
   the merging of two logs, the hanging load and the rope ends of document 02.
   Documents 01 and 02 decide what every call does; this file says how C calls
   it.

   Every function ends for any numbers and any bytes, and keeps nothing between
   calls: all that lasts is in the slices that the caller lends.

   Slices.  A slice is a pointer and the number of its elements.  The pointer
   is aligned for its type and stands for that many elements; where the length
   is 0 nothing is read or written through it, and it may be null: {NULL, 0} is
   an empty slice like any other.  A slice that is written shares no byte with
   another slice of the same call.  In every call the lent slices stand in this
   order:

     cells    const uint8_t   W*H       one byte for each cell, row by row
     boxes    const int32_t   4*B       x, y, w, h of each carrier at the start
     state    int32_t         5*B       x, y, u, v, lever of each carrier
     rows     int32_t         320*B     64 saved states; row t mod 64 is the
                                        state before step t
     log      uint8_t         16384     the held records, then zeros
     session  uint64_t        9         see WUTHRACOMB_SESSION_W and on

   Answers.  Every function returns a uint32_t: a number of document 01 or 02,
   or WUTHRACOMB_DONE for an accepted call other than a delivery; only
   wuthracomb_log_sound answers otherwise.  The numbers from 2 on are refusals.
   A refusal changes no byte and no word of any slice.  Below, "refusals, in
   order" means that the first that applies is given.

   Threads.  There is no state but what is lent, so any number of sessions may
   run at once, each in one thread at a time.  Slices that are only read may be
   shared.

   Stack.  Nothing is allocated and no function recurs.  A call takes at most
   776 bytes of stack beside its arguments (read off the machine code along
   the deepest chain of calls, memset of the C library not counted).

   Machine.  x86-64, System V calling convention.

   Floats.  The caller's floating-point mode is the default one: round to
   nearest, subnormal numbers kept (wuthracomb_shown, wuthracomb_rope_step).

   A record is 8 bytes: at a step, a carrier's lever moves to a position.

     bytes 0 to 3  step, unsigned, the least byte first; 0 to 179,999
     byte  4       carrier, 0 to B-1
     byte  5       lever, 0 to 9
     bytes 6, 7    zero

   Its place is (step, carrier).  A log is records one after the other, strictly
   ascending by step, then carrier; no header, at most 2,048 records.

   Levers.  In a step each speed grows by the lever's push and is cut to the
   range -200 to 200; lever 9 is the brake, which takes 10 off each speed, toward
   zero and never past it.  A lever stays where it is until another record moves
   it.

     lever     0    1    2    3    4    5    6    7    8
     along x   0   12    8    0   -8  -12   -8    0    8
     along y   0    0    8   12    8    0   -8  -12   -8

   docs/RULES.md has all rules, with examples worked out by hand.
*/

#ifndef WUTHRACOMB_H
#define WUTHRACOMB_H

#include <stddef.h>
#include <stdint.h>

#ifdef __cplusplus
extern "C" {
#endif

/* The numbers of document 01. */

#define WUTHRACOMB_TAKEN      0u  /* the record is now held */
#define WUTHRACOMB_HELD       1u  /* the same 8 bytes are already held */
#define WUTHRACOMB_MALFORMED  2u  /* not 8 bytes, or one of the last two isn't 0 */
#define WUTHRACOMB_CARRIER    3u  /* carrier number is B or more */
#define WUTHRACOMB_LEVER      4u  /* lever above 9 */
#define WUTHRACOMB_STEP       5u  /* record step of 180,000 or more; replay of more steps */
#define WUTHRACOMB_CONFLICT   6u  /* another lever is held at that place, or in the other log */
#define WUTHRACOMB_LATE       7u  /* record step + 64 is below the steps made */
#define WUTHRACOMB_FULL       8u  /* 2,048 records are held, or two logs have more together */
#define WUTHRACOMB_WORLD      9u  /* W, H or B, a cell, a size or a start */
#define WUTHRACOMB_ROOM      10u  /* a lent length, at opening or replay or with no session */
#define WUTHRACOMB_BACKWARD  11u  /* reading below the last reading */
#define WUTHRACOMB_END       12u  /* steps made plus the steps due would pass 180,000 */
#define WUTHRACOMB_LOG       13u  /* a log to be read isn't sound */
#define WUTHRACOMB_FAULT     14u  /* what is handed back after opening isn't sound */

/* The numbers of document 02. */

#define WUTHRACOMB_LOAD      17u  /* a load, its stiffness or its step is out of range */
#define WUTHRACOMB_ROPE      18u  /* a rope end, its forces or its step can't be used */

/* An accepted call other than a delivery. */
#define WUTHRACOMB_DONE     255u

/* Limits and sizes. */

#define WUTHRACOMB_UNITS             256  /* units of one cell */
#define WUTHRACOMB_MAX_CELLS          64  /* W and H are 1 to this */
#define WUTHRACOMB_MAX_CARRIERS       32  /* B is 1 to this */
#define WUTHRACOMB_MAX_SIZE         1024  /* a carrier's width and height are 1 to this */
#define WUTHRACOMB_MAX_SPEED         200  /* speeds stay within this, either way */
#define WUTHRACOMB_BRAKE               9  /* the last lever position */
#define WUTHRACOMB_MAX_STEPS      180000  /* steps of a session */
#define WUTHRACOMB_STEP_MICROS     20000  /* microseconds of a step */
#define WUTHRACOMB_MAX_GAP        250000  /* what a gap has above this is cut */
#define WUTHRACOMB_BOX_WORDS           4  /* boxes: words for each carrier */
#define WUTHRACOMB_STATE_WORDS         5  /* state: words for each carrier */
#define WUTHRACOMB_ROWS               64  /* saved states */
#define WUTHRACOMB_ROW_WORDS         320  /* rows: words for each carrier */
#define WUTHRACOMB_RECORD_BYTES        8
#define WUTHRACOMB_MAX_RECORDS      2048
#define WUTHRACOMB_LOG_BYTES       16384
#define WUTHRACOMB_SESSION_WORDS       9
#define WUTHRACOMB_LOAD_WORDS          2  /* x, v */
#define WUTHRACOMB_MAX_LOAD        32767  /* x and v stay within this, either way */
#define WUTHRACOMB_MAX_STIFFNESS    1024  /* a stiffness is 1 to this */
#define WUTHRACOMB_MAX_FORCES          8  /* forces on a rope end */
#define WUTHRACOMB_POINT_NUMBERS       2  /* point: place, speed */

/* The kinds of forces on a rope end, and the two numbers of each. */

#define WUTHRACOMB_PULL    0u  /* size; the second isn't used */
#define WUTHRACOMB_SPRING  1u  /* stiffness, rest place */
#define WUTHRACOMB_DRAG    2u  /* factor; the second isn't used */

/* The words of a session, each compared whole as 64 bits. */

#define WUTHRACOMB_SESSION_W          0  /* W */
#define WUTHRACOMB_SESSION_H          1  /* H */
#define WUTHRACOMB_SESSION_B          2  /* B */
#define WUTHRACOMB_SESSION_FIRST      3  /* first reading */
#define WUTHRACOMB_SESSION_LAST       4  /* last reading */
#define WUTHRACOMB_SESSION_REMAINDER  5  /* below 20,000 */
#define WUTHRACOMB_SESSION_CUT        6  /* cut time */
#define WUTHRACOMB_SESSION_STEPS      7  /* steps made */
#define WUTHRACOMB_SESSION_HELD       8  /* records held */


/* Opens a session with its first reading.

   Refusals, in order:
     WORLD  W, H or B is out of range;
     ROOM   a lent length isn't exactly that of the table above;
     WORLD  a cell byte is above 1, a size is out of range, or a start isn't
            free.

   DONE: state holds the starts with speeds and levers 0; rows and log are
   zeros; session holds W, H, B, the reading twice, then zeros.  What these
   four held before plays no part.
*/
uint32_t wuthracomb_open(uint32_t w, uint32_t h, uint32_t b, uint64_t reading,
                         const uint8_t *cells, size_t cells_len,
                         const int32_t *boxes, size_t boxes_len,
                         int32_t *state, size_t state_len,
                         int32_t *rows, size_t rows_len,
                         uint8_t *log, size_t log_len,
                         uint64_t *session, size_t session_len);

/* Gives the session a clock reading, in microseconds, and makes the steps due.

   Refusals, in order:
     FAULT     the session or what is lent isn't sound, wrong lengths included;
     BACKWARD  the reading is below the last reading;
     END       steps made plus the steps due would pass 180,000 (no step of
               this reading is made, and its time does not count).

   DONE: at most 13 steps are made in state, each step t saving the state
   before it in row t mod 64; the clock's words of session are the new ones.
   An equal reading is accepted and makes no step.  log is never changed.
*/
uint32_t wuthracomb_reading(uint64_t reading,
                            const uint8_t *cells, size_t cells_len,
                            const int32_t *boxes, size_t boxes_len,
                            int32_t *state, size_t state_len,
                            int32_t *rows, size_t rows_len,
                            const uint8_t *log, size_t log_len,
                            uint64_t *session, size_t session_len);

/* Delivers the record in bytes, in any order and any number of times.

   TAKEN  the record is now held: put into log, the held count of session one
          more.  If its step t is below the steps made, the state before step t
          is brought back from its row and the steps from t on are made again
          in state and rows.
   HELD   the same 8 bytes are already held; nothing is changed.

   Refusals, in order (HELD stands where CONFLICT does):
     FAULT      the session or what is lent isn't sound, wrong lengths included;
     MALFORMED  the record isn't 8 bytes, or one of the last two isn't 0;
     CARRIER    its carrier is B or more;
     LEVER      its lever is above 9;
     STEP       its step is 180,000 or more;
     CONFLICT   another lever is held at that place;
     LATE       its step + 64 is below the steps made;
     FULL       2,048 records are held;
     FAULT      the row to be brought back isn't a sound state.
*/
uint32_t wuthracomb_deliver(const uint8_t *bytes, size_t bytes_len,
                            const uint8_t *cells, size_t cells_len,
                            const int32_t *boxes, size_t boxes_len,
                            int32_t *state, size_t state_len,
                            int32_t *rows, size_t rows_len,
                            uint8_t *log, size_t log_len,
                            uint64_t *session, size_t session_len);

/* Replays a log from the start to the state after the given number of steps.
   Only the held part of a log buffer is given: its length alone decides.

   Refusals, in order:
     WORLD  W, H or B is out of range;
     ROOM   the length of cells, boxes or state is wrong;
     WORLD  a cell byte is above 1, a size is out of range, or a start isn't
            free;
     LOG    log isn't sound for B carriers;
     STEP   steps is above 180,000.

   DONE: state holds the state after that many steps, whatever it held before.
   Records for that step or later must be sound but move nothing.
*/
uint32_t wuthracomb_replay(uint32_t w, uint32_t h, uint32_t b, uint32_t steps,
                           const uint8_t *cells, size_t cells_len,
                           const int32_t *boxes, size_t boxes_len,
                           int32_t *state, size_t state_len,
                           const uint8_t *log, size_t log_len);

/* Writes the FNV-1a digest of the steps made and the state words to out[0].

   Refusals, in order:
     FAULT  out_len isn't 1;
     FAULT  the session or what is lent isn't sound, wrong lengths included.

   DONE: out[0] is written, nothing else.
*/
uint32_t wuthracomb_digest(const uint8_t *cells, size_t cells_len,
                           const int32_t *boxes, size_t boxes_len,
                           const int32_t *state, size_t state_len,
                           const int32_t *rows, size_t rows_len,
                           const uint8_t *log, size_t log_len,
                           const uint64_t *session, size_t session_len,
                           uint32_t *out, size_t out_len);

/* Writes the place at which to show a carrier, between its previous and its
   present place, to out[0] (along x) and out[1] (along y).

   Refusals, in order:
     FAULT    out_len isn't 2;
     FAULT    the session or what is lent isn't sound, wrong lengths included;
     CARRIER  carrier is B or more;
     FAULT    a step has been made and the row before it isn't a sound state.

   DONE: out is written, nothing else.
*/
uint32_t wuthracomb_shown(uint32_t carrier,
                          const uint8_t *cells, size_t cells_len,
                          const int32_t *boxes, size_t boxes_len,
                          const int32_t *state, size_t state_len,
                          const int32_t *rows, size_t rows_len,
                          const uint8_t *log, size_t log_len,
                          const uint64_t *session, size_t session_len,
                          double *out, size_t out_len);

/* Reads the record in bytes: its step, carrier and lever go to out[0], out[1]
   and out[2].

   Refusals, in order:
     MALFORMED  the record isn't 8 bytes, or one of the last two isn't 0;
     CARRIER    its carrier is 32 or more;
     LEVER      its lever is above 9;
     STEP       its step is 180,000 or more;
     ROOM       out_len isn't 3.

   DONE: out is written, nothing else.
*/
uint32_t wuthracomb_read_record(const uint8_t *bytes, size_t bytes_len,
                                uint32_t *out, size_t out_len);

/* Writes the eight bytes of a record to out.

   Refusals, in order:
     CARRIER  carrier is 32 or more;
     LEVER    lever is above 9;
     STEP     step is 180,000 or more;
     ROOM     out_len isn't 8.

   DONE: out is written, nothing else.
*/
uint32_t wuthracomb_write_record(uint32_t step, uint32_t carrier, uint32_t lever,
                                 uint8_t *out, size_t out_len);

/* Answers 1 if the bytes are a sound log (a whole number of records, at most
   2,048, each one readable by wuthracomb_read_record, strictly ascending by
   step, then carrier), 0 if not.  No other answer is given.
*/
uint32_t wuthracomb_log_sound(const uint8_t *log, size_t log_len);

/* Finds the records of one step: they are the bytes of log from out[0] up to,
   not including, out[1].  If the step has none the part is empty and stands
   before the first record of a later step, at the end of log if there is
   none.  If log isn't sound it is the empty part 0, 0.

   Refusals:
     ROOM  out_len isn't 2.

   DONE: out is written, nothing else.
*/
uint32_t wuthracomb_step_records(const uint8_t *log, size_t log_len, uint32_t step,
                                 uint64_t *out, size_t out_len);

/* Merges two logs of a yard of B carriers: out then begins with a log that has
   exactly the records of both, a record of both once; zeros follow.  A log's
   length alone decides how many records it has, so only the held part of a log
   buffer is given.  one and two may change places: the outcome is the same.

   Refusals, in order:
     WORLD     B is out of range;
     ROOM      out_len isn't 16384, or count_len isn't 1;
     LOG       one or two isn't sound for B carriers;
     CONFLICT  one and two have different levers at one place;
     FULL      the log would have more than 2,048 records.

   DONE: count[0] is the number of records, so the log is the first 8*count[0]
   bytes of out.  What out and count held before plays no part.
*/
uint32_t wuthracomb_merge(uint32_t b,
                          const uint8_t *one, size_t one_len,
                          const uint8_t *two, size_t two_len,
                          uint8_t *out, size_t out_len,
                          uint64_t *count, size_t count_len);

/* Makes one step of a hanging load with a stiffness p: load is its offset x
   and its speed v.  v becomes v minus p*x/1024 rounded down (also below 0),
   then x becomes x plus the new v.  A load is no part of a session.

   Refusals, in order:
     ROOM  load_len isn't 2;
     LOAD  stiffness isn't 1 to 1024, or x or v isn't within 32767 either way,
           or one of them would not be after the step.

   DONE: load holds the new x and v.
*/
uint32_t wuthracomb_load_step(uint32_t stiffness, int32_t *load, size_t load_len);

/* Moves a rope end by one step, only for show: point is its place and its
   speed along one axis.  Force i is of the kind kinds[i], with the numbers
   numbers[2*i] and numbers[2*i + 1].  Nothing of it reaches a session.

   A pull is its size; a spring is stiffness times (rest minus place); a drag
   is minus (factor times speed).  The forces are added in the order given,
   starting from 0.0; then speed becomes speed + force*0.02, then place becomes
   place + speed*0.02 with the new speed.  Each operation is rounded once to an
   f64, and none is fused with another.

   Refusals, in order:
     ROOM  numbers_len isn't 2*kinds_len, or point_len isn't 2;
     ROPE  kinds_len is above 8, a kind is above 2, a number of the point or
           a number that a force uses isn't finite, or the place or the speed
           after the whole sum and move isn't finite.

   DONE: point is written, nothing else.
*/
uint32_t wuthracomb_rope_step(const uint32_t *kinds, size_t kinds_len,
                              const double *numbers, size_t numbers_len,
                              double *point, size_t point_len);

#ifdef __cplusplus
}
#endif

#endif /* WUTHRACOMB_H */

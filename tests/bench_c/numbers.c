/* numbers.c: the numbers of document 01, each with the name that the header gives it. It is compiled and not run. */
#include "bench_margin.h"

#define NUMBER(name, number) _Static_assert((name) == (number), #name)

/* "Operations and refusals" */
NUMBER(PATTERN_ACCEPTED, 0);
NUMBER(CALL_DONE, 0);
NUMBER(TEXT_TOO_LONG, 1);          /* over 8,192 bytes */
NUMBER(TEXT_BROKEN, 2);            /* the form is broken */
NUMBER(PATTERN_OUT_OF_RANGE, 3);   /* a number outside its range */
NUMBER(PATTERN_TOO_MANY, 4);       /* a place, edge, test or guard too many */
NUMBER(PATTERN_UNKNOWN_INDEX, 5);  /* an index that the pattern lacks */
NUMBER(REPORTS_TOO_SHORT, 6);      /* a report slice shorter than the duration */
NUMBER(PATTERN_UNSOUND, 7);        /* unsound pattern value */
NUMBER(RECORD_BROKEN, 8);          /* record breaks its rules, or the lent slices disagree in length */
NUMBER(RUN_BROKEN, 9);             /* edge list and stay list differ in length */
NUMBER(RUN_IMPOSSIBLE, 10);        /* they are not a run */
NUMBER(TABLE_TOO_SHORT, 11);       /* a table shorter than the cells needed */
NUMBER(STATE_BROKEN, 12);          /* a state with ticks over 2,147,483,647 */
NUMBER(TOO_MANY_TICKS, 13);        /* total ticks would pass 2,147,483,647 */
NUMBER(CELL_BROKEN, 14);           /* a needed cell neither the mark nor within its bounds */

/* sizes and bounds */
NUMBER(PATTERN_TEXT_MAX, 8192);
NUMBER(PATTERN_CHANNELS_MAX, 8);
NUMBER(MONITOR_STATE_LENGTH, 1 + 8); /* ticks so far and the last values */
NUMBER(PIECE_TICKS_MAX, 65535);
NUMBER(TICKS_MAX, 2147483647);
NUMBER(RECORD_PIECES_MAX, 4096);
NUMBER(RUN_STEPS_MAX, 4095);
NUMBER(VALUE_MAX, 1000000);
NUMBER(CELL_MAX, 32760000000);
NUMBER(CELL_MARK, -9223372036854775807 - 1);
NUMBER(SCORE_WITHOUT_TESTS, 2000001);

/*
 * emorizugu.h: the settlement desk's entries for a host program in C.
 *
 * Link libemorizugu.a, which `./install PREFIX` puts in place with this header (before that, `rt lib` in crates/host writes
 * it to crates/host/out/libhost.a). The header is C99, and C++ may include it.
 *
 * What a host may rely on, for every function here:
 * - Any numbers and any bytes get an answer; there is no input for which a call is undefined or does not return.
 * - Bytes are only read, and only during the call; numbers behind a pointer that is not const are read and written, and
 *   only during the call. No pointer is kept, and no memory is allocated.
 * - There is no state: the answer depends on the arguments alone, so equal arguments get equal answers, and any
 *   threads may call at once, as long as nobody else writes to what they were given.
 *
 * What a host owes: a pointer to so many bytes or numbers as the length says, no two of them overlapping where one is
 * written, and EMORIZUGU_STACK bytes of stack. NULL is allowed where the length is 0: nothing is then read or written.
 */
#ifndef EMORIZUGU_H
#define EMORIZUGU_H

#include <stddef.h>
#include <stdint.h>

#ifdef __cplusplus
extern "C" {
#endif

/* The version of these entries. It rises with every change that a host notices; emorizugu_version() is the library's. */
#define EMORIZUGU_VERSION 9

/* Answers: accepted, and the causes of a refusal in the order in which they are checked. docs/CAUSES.md has them in words. */
#define EMORIZUGU_ACCEPTED         0
#define EMORIZUGU_NOT_OPEN         1   /* the desk is not open */
#define EMORIZUGU_WRONG_LENGTH     2   /* a store or slice of another length */
#define EMORIZUGU_BAD_FIELD        3   /* a field outside its range */
#define EMORIZUGU_OPEN_AGAIN       6   /* the desk is open already */
#define EMORIZUGU_BAD_OPENING      4   /* quarter hours, deadlines, groups or lengths not allowed */
#define EMORIZUGU_PAST_DAY         5   /* the day lies before the desk's day */
#define EMORIZUGU_AFTER_CORRECTION 11  /* the day lies behind the correction deadline */
#define EMORIZUGU_TOO_LATE         26  /* assign: the day lies behind the correction deadline; lodge: behind the clearing deadline */
#define EMORIZUGU_POINT_ACTIVE     21  /* activate: the point is active */
#define EMORIZUGU_SAME_SERIES      22  /* activate: an active point has the same series */
#define EMORIZUGU_NOT_ACTIVE       12  /* the point is not active */
#define EMORIZUGU_HAS_VERSION      23  /* deactivate: the point has a version */
#define EMORIZUGU_TOO_EARLY        13  /* submit: less than two days after the activation */
#define EMORIZUGU_VERSION_PRESENT  14  /* submit: the point has this version */
#define EMORIZUGU_VERSION_BELOW    15  /* submit: the version lies below the point's highest */
#define EMORIZUGU_NO_VERSION       24  /* notice: the point has no such version */
#define EMORIZUGU_NOTICE_BELOW     37  /* notice: the version lies below the point's highest */
#define EMORIZUGU_NOT_CHECK_DATA   25  /* notice: the version is no check data */
#define EMORIZUGU_NO_ROW           16  /* submit: no row of values left, or 512 versions held */
#define EMORIZUGU_NO_LOG_ROW       17  /* no log row left */
#define EMORIZUGU_CLOSE_TOO_EARLY  27  /* close: the day does not lie behind the run's deadline */
#define EMORIZUGU_ALREADY_CLOSED   28  /* close: the run is closed */
#define EMORIZUGU_FIRST_RUN_OPEN   29  /* close of run 2: run 1 is not closed */
#define EMORIZUGU_NOT_CLOSED       38  /* issue: the run is not closed */
#define EMORIZUGU_ALREADY_ISSUED   39  /* issue: the run is issued */
#define EMORIZUGU_CUT              31  /* file: it ends inside a call */
#define EMORIZUGU_NOT_SHORTEST     32  /* file: a number is not in its shortest form */
#define EMORIZUGU_BAD_KIND         33  /* file: a call's kind is not 1 to 8 */
#define EMORIZUGU_TOO_LARGE        34  /* file: more than 2,980 energies; write: a number that a file cannot carry */
#define EMORIZUGU_NO_ROOM          35  /* file: a lent buffer, output or answers too short */
#define EMORIZUGU_NO_DATE          36  /* calendar: no such month or date of 2020 to 2059, or no number from 0 to 400 */

/* Ranges: quarter hours of a month, runs, balance groups, each counted from 1; bytes a quarter hour of a book, of schedules. */
#define EMORIZUGU_QUARTERS 2980
#define EMORIZUGU_RUNS 2
#define EMORIZUGU_GROUPS 64
#define EMORIZUGU_BOOK_BYTES 1296
#define EMORIZUGU_SCHEDULE_BYTES 512

/* Figures of a book a quarter hour; deltas: that of the transmission operator (T), those of areas 1 to 16; the versions that a
 * desk holds at most, and its points. */
#define EMORIZUGU_BOOK_ROWS 162
#define EMORIZUGU_DELTAS 17
#define EMORIZUGU_VERSIONS 512
#define EMORIZUGU_POINTS 256

/*
 * The kinds of calls that a message file carries, and of each the places of its fields in the file's order, from 0: behind
 * EMORIZUGU_FIELDS where emorizugu_read gives them, from the start where emorizugu_write takes them. The last name of each
 * says how many they are. A submission has its energies behind them, in the series. docs/FORMAT.md has the bytes.
 */
enum {
    EMORIZUGU_OPEN = 1,
    EMORIZUGU_ACTIVATE,
    EMORIZUGU_DEACTIVATE,
    EMORIZUGU_SUBMIT,
    EMORIZUGU_NOTICE,
    EMORIZUGU_ASSIGN,
    EMORIZUGU_CLOSE,
    EMORIZUGU_ISSUE
};
enum {
    EMORIZUGU_OPEN_QUARTERS,
    EMORIZUGU_OPEN_FIRST, /* the deadlines: first delivery, clearing, correction */
    EMORIZUGU_OPEN_CLEARING,
    EMORIZUGU_OPEN_CORRECTION,
    EMORIZUGU_OPEN_GROUPS, /* the delta groups, 17 places: that of T, then those of areas 1 to 16 */
    EMORIZUGU_OPEN_FIELDS = EMORIZUGU_OPEN_GROUPS + EMORIZUGU_DELTAS
};
enum {
    EMORIZUGU_ACTIVATE_POINT,
    EMORIZUGU_ACTIVATE_KIND,
    EMORIZUGU_ACTIVATE_AREA,
    EMORIZUGU_ACTIVATE_PARTNER,
    EMORIZUGU_ACTIVATE_DAY,
    EMORIZUGU_ACTIVATE_FIELDS
};
enum { EMORIZUGU_DEACTIVATE_POINT, EMORIZUGU_DEACTIVATE_DAY, EMORIZUGU_DEACTIVATE_FIELDS };
enum { EMORIZUGU_SUBMIT_POINT, EMORIZUGU_SUBMIT_VERSION, EMORIZUGU_SUBMIT_DAY, EMORIZUGU_SUBMIT_FIELDS };
enum {
    EMORIZUGU_NOTICE_POINT,
    EMORIZUGU_NOTICE_VERSION,
    EMORIZUGU_NOTICE_VERDICT, /* 1 positive, 0 negative */
    EMORIZUGU_NOTICE_DAY,
    EMORIZUGU_NOTICE_FIELDS
};
enum { EMORIZUGU_ASSIGN_AREA /* 0 for T */, EMORIZUGU_ASSIGN_GROUP, EMORIZUGU_ASSIGN_DAY, EMORIZUGU_ASSIGN_FIELDS };
enum { EMORIZUGU_CLOSE_RUN, EMORIZUGU_CLOSE_DAY, EMORIZUGU_CLOSE_FIELDS };
enum { EMORIZUGU_ISSUE_RUN, EMORIZUGU_ISSUE_DAY, EMORIZUGU_ISSUE_FIELDS };

/*
 * Numbers to lend for a month of so many quarter hours and versions: nothing is then refused for want of room. The log
 * has at most two rows a version. A call of a file takes at least three bytes, so length / 3 + 1 answers are enough.
 */
#define EMORIZUGU_VALUES_LENGTH(quarters, versions) ((size_t)(quarters) * (size_t)(versions))
#define EMORIZUGU_BOOK_LENGTH(quarters) (EMORIZUGU_BOOK_ROWS * (size_t)(quarters))
#define EMORIZUGU_LOG_LENGTH(versions) (8 * (size_t)(versions))
#define EMORIZUGU_SCHEDULES_LENGTH(quarters) (EMORIZUGU_GROUPS * (size_t)(quarters))
#define EMORIZUGU_SERIES_LENGTH EMORIZUGU_QUARTERS
#define EMORIZUGU_ANSWERS_LENGTH(file_length) ((file_length) / 3 + 1)

/*
 * The stack that a call needs, in bytes, with room to spare. A replay needs most, the same for every file: it was measured to
 * use 60,440 bytes, from the frame that calls it down to the lowest byte that it writes; the tests hold it below the half of
 * this. Every other entry uses less than 4,096. What is lent is not in these, and need not be on the stack:
 * struct emorizugu_lent alone has 35,296 bytes.
 */
#define EMORIZUGU_STACK 131072

/*
 * The places of a replay's summary. By them two replays that end with 35 (EMORIZUGU_NO_ROOM) are told apart: where as many
 * calls are answered as there are answers, the answers are full; where fewer are, the series is too short for the submission
 * at EMORIZUGU_OFFSET. A file by itself has no 35, so emorizugu_file_refusal and emorizugu_file_offset know of neither.
 */
enum {
    EMORIZUGU_ANSWERED,  /* calls answered */
    EMORIZUGU_OFFSET,    /* of the call that the reader refuses (31 to 35); the file's length where all of it was run; 0 where
                            the answers are full */
    EMORIZUGU_OPENED,    /* quarter hours of the opening; 0 where no call opened the desk */
    EMORIZUGU_LOGGED,    /* log rows used */
    EMORIZUGU_HELD,      /* versions held */
    EMORIZUGU_REFUSED,   /* calls refused */
    EMORIZUGU_FIRST,     /* the number of the first refused call, counted from 1; 0 where there is none */
    EMORIZUGU_DAY,       /* the desk's day */
    EMORIZUGU_CLOSED_1,  /* 1 where run 1 is closed, else 0 */
    EMORIZUGU_CLOSED_2,  /* 1 where run 2 is closed, else 0 */
    EMORIZUGU_ISSUED_1,  /* 1 where run 1 is issued, so that what it selects is settled, else 0 */
    EMORIZUGU_ISSUED_2,  /* 1 where run 2 is issued, so that what it has of its own is settled, else 0 */
    /* The delta groups of run 1 and of run 2, each in 17 places: that of T, then those of areas 1 to 16; 0 where no call opened
       the desk. They are the same until an assignment behind the clearing deadline, which run 2 alone takes. */
    EMORIZUGU_DELTA_GROUPS_1,
    EMORIZUGU_DELTA_GROUPS_2 = EMORIZUGU_DELTA_GROUPS_1 + EMORIZUGU_DELTAS,
    EMORIZUGU_SUMMARY = EMORIZUGU_DELTA_GROUPS_2 + EMORIZUGU_DELTAS /* how many places these are: 46 */
};

/*
 * The places of a point, and of all points: point p begins at (p - 1) x EMORIZUGU_POINT. For each run it has the version
 * that the run selects and that version's status: 3 and 5 are settled, which comes by the run's issue; its close leaves 2
 * and 4. Run 2's is its own where the status is 4 or 5; else it is run 1's, version and status.
 */
enum {
    EMORIZUGU_ACTIVE,     /* 1 where it is active, else 0 */
    EMORIZUGU_SINCE,      /* the day of its activation; this and what follows up to the partner is 0 of a free point */
    EMORIZUGU_SERIES_KIND,
    EMORIZUGU_AREA,
    EMORIZUGU_PARTNER,
    EMORIZUGU_SELECTED_1, /* the version that run 1 selects; 0 where there is none */
    EMORIZUGU_SELECTED_2, /* the version that run 2 selects */
    EMORIZUGU_STATUS_1,   /* the status of the version that run 1 selects, as below; 0 where it selects none */
    EMORIZUGU_STATUS_2,   /* the status of the version that run 2 selects */
    EMORIZUGU_POINT
};
#define EMORIZUGU_POINTS_LENGTH (EMORIZUGU_POINT * EMORIZUGU_POINTS)

/* The places of a version, and of all versions, in the order of their submission; EMORIZUGU_HELD of them are filled. */
enum {
    EMORIZUGU_OF_POINT,
    EMORIZUGU_NUMBER,
    EMORIZUGU_STATUS, /* 1 check data, 2 settlement data, 3 settled, 4 correction settlement data, 5 correction settled */
    EMORIZUGU_ROW,    /* its row of values: row i begins at i x quarters */
    EMORIZUGU_HELD_VERSION
};
#define EMORIZUGU_VERSIONS_LENGTH (EMORIZUGU_HELD_VERSION * EMORIZUGU_VERSIONS)

/* The answer of emorizugu_read where no call follows: the file ends there. */
#define EMORIZUGU_NO_CALL 1

/* The places of a call that was read: the next offset, the kind, its fields in the file's order, the energies' count. */
enum { EMORIZUGU_NEXT, EMORIZUGU_CALL_KIND, EMORIZUGU_FIELDS, EMORIZUGU_COUNT = EMORIZUGU_FIELDS + 21, EMORIZUGU_CALL };

/* The version of the library that is linked. */
uint64_t emorizugu_version(void);

/*
 * The verdict on a message file: 0 where the reader takes every call of it, as it does an empty file, else the number
 * of the first refusal, 31 to 34. A file that is accepted here may still hold calls that a desk refuses.
 */
uint64_t emorizugu_file_refusal(const uint8_t *file, size_t length);

/*
 * Where: the offset of the first byte of the refused call, or, where emorizugu_file_refusal is 0, the file's length.
 * The calls before the offset are whole.
 */
uint64_t emorizugu_file_offset(const uint8_t *file, size_t length);

/*
 * Whether a book has a figure: 3 for a number outside its range (quarters 1 to 2,980, run 1 to 2, group 1 to 64,
 * quarter 1 to quarters), else 2 for a book of another length than 1,296 x quarters bytes, else 0.
 *
 * A book has eight bytes to a figure, lowest first, in two's complement. Run r, row k and quarter hour q stand at
 * figure ((r - 1) x 81 + k) x quarters + q - 1; row k is that of group k + 1. The book of a replay has a 64-bit word to
 * a figure; on a machine with its lowest byte first, as x86-64 is, it is such a book as it stands:
 * (const uint8_t *)book, 8 x 162 x quarters.
 */
uint64_t emorizugu_figure_refusal(const uint8_t *book, size_t length, uint64_t quarters, uint64_t run, uint64_t group,
                                  uint64_t quarter);

/*
 * The figure of a group in a quarter hour, in watt-hours: a 64-bit word in two's complement, so 2^64 - 1 is -1. It is
 * 0 where emorizugu_figure_refusal is not 0; since 0 is also a figure, ask for the refusal first.
 */
uint64_t emorizugu_figure(const uint8_t *book, size_t length, uint64_t quarters, uint64_t run, uint64_t group,
                          uint64_t quarter);

/*
 * Whether there is a report of a run and a group: 3 for a number outside its range (quarters 1 to 2,980, run 1 to 2,
 * group 1 to 64), else 2 for a book of another length than 1,296 x quarters bytes or schedules of another length than
 * 512 x quarters bytes, else 0.
 *
 * A schedule is what a group planned to take, an energy for each quarter hour. Schedules have eight bytes to an energy, as
 * a book has to a figure; group g and quarter hour q stand at energy (g - 1) x quarters + q - 1. A group that lodged
 * nothing has 0 there. The schedules of a replay are 0, since message files carry no lodgings: a host writes those that
 * were lodged last, by the clearing deadline, each energy within 10^12 either way. The store of a replay is such
 * schedules as it stands, as its book is: (const uint8_t *)schedules, 8 x 64 x quarters.
 *
 * Days: a lodging is a call with a day. A desk refuses it before the desk's day (5) and behind the clearing deadline (26),
 * and one that it takes sets the desk's day, so that a later call with a lower day is refused with 5. A replay never sees
 * lodgings: its day comes from the file's calls alone, and it takes such a call. A host that has both keeps one order of
 * days itself: it takes no lodging below the day of the call or lodging that was accepted last, nor behind the clearing
 * deadline, and puts no call into the file whose day lies below that of a lodging accepted before it.
 */
uint64_t emorizugu_report_refusal(const uint8_t *book, size_t length, const uint8_t *schedules, size_t schedules_length,
                                  uint64_t quarters, uint64_t run, uint64_t group);

/*
 * The report of a run and a group: two sums over the month, in watt-hours. In a quarter hour the surplus is the larger of 0
 * and the schedule minus the figure, the shortfall the larger of 0 and the figure minus the schedule; the one does not
 * cancel the other. Each is a 64-bit word, below 2^63 where book and schedules are within their limits; elsewhere
 * differences and sums wrap at 64 bits. 0 where emorizugu_report_refusal is not 0; since 0 is also a sum, ask for the
 * refusal first.
 */
uint64_t emorizugu_surplus(const uint8_t *book, size_t length, const uint8_t *schedules, size_t schedules_length,
                           uint64_t quarters, uint64_t run, uint64_t group);
uint64_t emorizugu_shortfall(const uint8_t *book, size_t length, const uint8_t *schedules, size_t schedules_length,
                             uint64_t quarters, uint64_t run, uint64_t group);

/*
 * A whole message file through a fresh desk: call after call is read and handed to the desk, until the file ends, is
 * refused, or the answers are full. Kind 6, assign, moves a delta to another group: up to the clearing deadline in both runs,
 * behind it and up to the correction deadline in run 2 alone, whether a run is closed and issued or not. Kind 7 is close and
 * kind 8 issue, both with run and day. An older file's kind 7, which was settle, is read as close: the run is closed then and
 * not issued, and its versions keep 2 and 4.
 *
 * values, book, log, schedules: the desk's stores, of any lengths and with anything in them. The opening takes values and
 * log as they are long, of the book the first 162 x Q figures and of the schedules the first 64 x Q energies; a Q that
 * one of these cannot hold is refused with 4, and so is a log whose length is not a multiple of 4. Afterwards the book has
 * its figures, each a 64-bit word in two's complement, at the places that emorizugu_figure_refusal names; the log four
 * numbers a row: day, point, run, new version; the schedules 0 at the places that emorizugu_report_refusal names. What
 * the desk did not use is as it was.
 * series: room for a submission's energies. answers: answers[i] is that of call i + 1: 0, or the number of the cause
 * that the desk refuses it for. summary: EMORIZUGU_SUMMARY places, with the delta groups of each run. points:
 * EMORIZUGU_POINTS_LENGTH, a row a point, with what each run selects and its status. versions: EMORIZUGU_VERSIONS_LENGTH, a
 * row a version.
 *
 * 0 where the whole file was run, else the number of the reader's refusal, 31 to 35, or 35 where the answers are full
 * and bytes are left (the summary then has as many calls answered as there are answers). 2 where summary (46), points
 * (2,304) or versions (2,048) have fewer places; nothing is done then, and everything lent is as it was. 31 to 35 speak of
 * the file: stores, answers, summary, points and versions tell what was run up to there. A file that was run may have calls
 * that were refused: the summary says how many, and which was the first.
 */
uint64_t emorizugu_replay(const uint8_t *file, size_t length, uint64_t *values, size_t values_length, uint64_t *book,
                          size_t book_length, uint64_t *log, size_t log_length, uint64_t *schedules,
                          size_t schedules_length, uint64_t *series, size_t series_length, uint64_t *answers,
                          size_t answers_length, uint64_t *summary, size_t summary_length, uint64_t *points,
                          size_t points_length, uint64_t *versions, size_t versions_length);

/* What a replay is lent, by name. */
struct emorizugu_lent {
    const uint8_t *file;
    size_t length;
    uint64_t *values;
    size_t values_length;
    uint64_t *book;
    size_t book_length;
    uint64_t *log;
    size_t log_length;
    uint64_t *schedules;
    size_t schedules_length;
    uint64_t *series;
    size_t series_length;
    uint64_t *answers;
    size_t answers_length;
    uint64_t summary[EMORIZUGU_SUMMARY];
    uint64_t points[EMORIZUGU_POINTS_LENGTH];
    uint64_t versions[EMORIZUGU_VERSIONS_LENGTH];
};

/* emorizugu_replay with what is lent by name. */
static inline uint64_t emorizugu_run(struct emorizugu_lent *r) {
    return emorizugu_replay(r->file, r->length, r->values, r->values_length, r->book, r->book_length, r->log,
                            r->log_length, r->schedules, r->schedules_length, r->series, r->series_length, r->answers,
                            r->answers_length, r->summary, EMORIZUGU_SUMMARY, r->points, EMORIZUGU_POINTS_LENGTH,
                            r->versions, EMORIZUGU_VERSIONS_LENGTH);
}

/*
 * The sum of a run's row over the month, from a replay's book: rows 0 to 63 are groups 1 to 64, row 64 is the delta of
 * the transmission operator, rows 65 to 80 are the deltas of areas 1 to 16. A 64-bit word in two's complement; no sum
 * of a replay's book is larger than 64 bits. 0 where quarters, run or row is outside its range; what the book has not
 * counts as 0.
 */
uint64_t emorizugu_sum(const uint64_t *book, size_t length, uint64_t quarters, uint64_t run, uint64_t row);

/* Run 2's sum of a row less run 1's. */
uint64_t emorizugu_difference(const uint64_t *book, size_t length, uint64_t quarters, uint64_t row);

/*
 * The call of a message file at an offset, as numbers: call has EMORIZUGU_CALL places, which are all written, those behind
 * a kind's fields with 0; a submission's energies, each a 64-bit word in two's complement, go to series. 0 for a call; with
 * every other answer call and series are as they were: EMORIZUGU_NO_CALL where the file ends there, 31 to 35 for a refusal,
 * 2 where call has fewer places.
 */
uint64_t emorizugu_read(const uint8_t *file, size_t length, uint64_t start, uint64_t *series, size_t series_length,
                        uint64_t *call, size_t call_length);

/*
 * Where emorizugu_read stands over the same input, with the length of series as room: the offset of the refused call, which
 * is start, or that behind a call that is read; at the file's end that end.
 */
uint64_t emorizugu_read_offset(const uint8_t *file, size_t length, uint64_t start, uint64_t room);

/*
 * A call's bytes to the start of an output, and how many they are to size[0]. Fields that are missing count as 0; only a
 * submission (kind 4) has a series. 0; with every other answer output and size are as they were: 33 to 35 for a refusal,
 * 2 where size has no place. Nine bytes a number are always enough.
 */
uint64_t emorizugu_write(uint64_t kind, const uint64_t *fields, size_t fields_length, const uint64_t *series,
                         size_t series_length, uint8_t *output, size_t output_length, uint64_t *size,
                         size_t size_length);

/*
 * The calendar. Working days of 2020 to 2059 are all but Saturdays, Sundays, 24 and 31 December and every public holiday
 * of any federal state. Year and month name the settled month; a date's number counts the working days after that month up to and
 * including the date, so its last day has 0, and a day off has the number of the working day before it.
 *
 * Whether a date has a number: 36 where the settled month or the date does not exist or lies outside 2020 to 2059, where
 * the date lies before the month's last day, or where its number would be above 400; else 0.
 */
uint64_t emorizugu_day_refusal(uint64_t year, uint64_t month, uint64_t date_year, uint64_t date_month,
                               uint64_t date_day);

/* The number, 0 to 400. It is 0 where emorizugu_day_refusal is 36; since 0 is also a number, ask for the refusal first. */
uint64_t emorizugu_day(uint64_t year, uint64_t month, uint64_t date_year, uint64_t date_month, uint64_t date_day);

/*
 * Whether a day number has a date: 36 where the settled month does not exist or lies outside 2020 to 2059, where the
 * number is above 400, or where its date would lie behind 2059; else 0.
 */
uint64_t emorizugu_date_refusal(uint64_t year, uint64_t month, uint64_t day);

/*
 * The first date with that number, as year x 10,000 + month x 100 + day (12 November 2026 is 20261112): the working day
 * itself, and for 0 the settled month's last day. 0 where emorizugu_date_refusal is 36.
 */
uint64_t emorizugu_date(uint64_t year, uint64_t month, uint64_t day);

/* The weekday of a date, 1 for Monday to 7 for Sunday; 0 where the date does not exist or lies outside 2020 to 2059. */
uint64_t emorizugu_weekday(uint64_t year, uint64_t month, uint64_t day);

#ifdef __cplusplus
}
#endif

#endif

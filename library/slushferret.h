/* The robots' library, for C: schemes, matrices and lists of requests as bytes, in the outline's encoding.
 *
 * Link with the archive that tests/library/build writes, target/staticlib/librobot.a (x86-64 Linux). It needs nothing
 * but memcpy and memset, allocates nothing, and keeps nothing between two calls. Of the stack slushferret_run takes the
 * most, some 135 KB (measured, not proved).
 *
 * What is said below is proved of the code in crates/robot (the definitions: crates/robot/specs/Library.antt), for every
 * input, however broken. The caller's part, which no proof can check:
 *   - a slice is a pointer and a count, and the pointer leads to so many elements. With a count of 0 it is never followed,
 *     but isn't null;
 *   - what is lent to be written (answers, out, report) overlaps nothing else that the same call is lent.
 * Then no function reads or writes outside of what it is lent.
 *
 * Every function but slushferret_version gives a number: SLUSHFERRET_DONE (0), else one of the refusals below. It also puts
 * five numbers into the lent report, as far as that has room (so SLUSHFERRET_REPORT elements hold all, and a count of 0 asks
 * for none); the slots have names below.
 *
 * A call that gives a number other than 0 has stored nothing but the report. An accepted call changes only the bytes of its
 * report[SLUSHFERRET_ANSWERS] answers, from the start of answers on, and only the bytes of out that it says.
 */
#ifndef SLUSHFERRET_H
#define SLUSHFERRET_H

#include <stddef.h>
#include <stdint.h>

#ifdef __cplusplus
extern "C" {
#endif

/* The version of what stands here: it moves when a format or a function's meaning moves. slushferret_version gives that of
 * the archive; a program that compares the two knows that header and archive belong together. */
#define SLUSHFERRET_VERSION 7

/* the slots of a report */
enum {
    SLUSHFERRET_WHERE = 0,    /* where the fault lies (SLUSHFERRET_IN_..), 0 where there is none */
    SLUSHFERRET_POSITION = 1, /* its position in those bytes, that of the record at fault; 0 where none is meant */
    SLUSHFERRET_ANSWERS = 2,  /* how many answers were stored */
    SLUSHFERRET_WRITTEN = 3,  /* how many bytes of out are in use */
    SLUSHFERRET_RECORD = 4,   /* the number of a record of a list that can't be read, which ended the list; else 0 */
    SLUSHFERRET_REPORT = 5    /* so many slots */
};

/* where a fault lies: report[SLUSHFERRET_WHERE] */
enum {
    SLUSHFERRET_IN_NOTHING = 0,
    SLUSHFERRET_IN_SCHEME = 1,
    SLUSHFERRET_IN_MATRIX = 2, /* for slushferret_forward the old image */
    SLUSHFERRET_IN_REQUESTS = 3,
    SLUSHFERRET_IN_ANSWERS = 4, /* too short */
    SLUSHFERRET_IN_OUTPUT = 5   /* too short */
};

/* The numbers. 10 to 18 are answers to requests and never a function's number, but for 12, which slushferret_hold and
 * slushferret_release give too. 23 is slushferret_back's alone. 27 is of values that no reading gives; it can't come up here,
 * since this library reads all that it is given. */
enum {
    SLUSHFERRET_DONE = 0,
    SLUSHFERRET_CUT = 1,             /* fewer than 4 bytes left for a record's front, or its body runs past the end */
    SLUSHFERRET_KIND = 2,            /* a record of a kind that may not stand there */
    SLUSHFERRET_BODY = 3,            /* the body ends inside a field, or has bytes after its last field */
    SLUSHFERRET_COUNT = 4,           /* a count outside its range; more than 8 ids in a request to write */
    SLUSHFERRET_RANGE = 5,           /* a right, type or parameter out of the scheme's range, a cell's id that no thing has */
    SLUSHFERRET_FORM = 6,            /* a fault of form; a thing's id above the highest that the head states */
    SLUSHFERRET_ORDER = 7,           /* a thing's id or a cell's place not above the one before */
    SLUSHFERRET_BEHIND = 8,          /* bytes after the last command of a scheme */
    SLUSHFERRET_ROOM = 9,            /* answers or out is too short */
    SLUSHFERRET_NO_COMMAND = 10,     /* no such command */
    SLUSHFERRET_IDS = 11,            /* another number of ids than the command has parameters */
    SLUSHFERRET_NO_THING = 12,       /* an id 0, or of no thing; of slushferret_hold and slushferret_release too */
    SLUSHFERRET_OTHER_TYPE = 13,     /* a thing of another type */
    SLUSHFERRET_TEST = 14,           /* a test is false; the answer says which */
    SLUSHFERRET_TAKEN = 15,          /* a create of an id that isn't above the highest that the matrix ever had */
    SLUSHFERRET_FULL = 16,           /* a create when 48 things exist */
    SLUSHFERRET_GONE = 17,           /* a destroy of a thing already gone */
    SLUSHFERRET_ON_HOLD = 18,        /* a thing on hold, for a parameter that the command doesn't create */
    SLUSHFERRET_CHANGES_THINGS = 20, /* conversion: a command creates or destroys */
    SLUSHFERRET_RIGHTS = 21,         /* conversion: more than 32 rights */
    SLUSHFERRET_OPERATIONS = 22,     /* conversion: a command with more than 16 operations */
    SLUSHFERRET_HIGHEST_LOST = 23,   /* the way back: the highest id isn't the highest listed one, and would be lost */
    SLUSHFERRET_STRANGE = 27         /* a value that no reading gives */
};

/* the kinds of records */
enum {
    SLUSHFERRET_SCHEME_HEAD = 1,
    SLUSHFERRET_COMMAND = 2,
    SLUSHFERRET_OLD_MATRIX_HEAD = 3, /* without a highest id: in what slushferret_forward takes and slushferret_back writes */
    SLUSHFERRET_THING = 4,
    SLUSHFERRET_CELL = 5,
    SLUSHFERRET_REQUEST = 6,
    SLUSHFERRET_MATRIX_HEAD = 7,
    SLUSHFERRET_HELD_THING = 8 /* a thing on hold; its body is that of SLUSHFERRET_THING, and it stands where that may */
};

/* the limits of the outline */
enum {
    SLUSHFERRET_MOST_RIGHTS = 64,
    SLUSHFERRET_MOST_TYPES = 16,
    SLUSHFERRET_MOST_COMMANDS = 32,
    SLUSHFERRET_MOST_PARAMETERS = 8,
    SLUSHFERRET_MOST_TESTS = 16,
    SLUSHFERRET_MOST_OPERATIONS = 32,
    SLUSHFERRET_MOST_THINGS = 48,
    SLUSHFERRET_MOST_STEPS = 48 /* no request takes more: tests and operations together */
};

/* Room for the longest of each: no scheme, matrix or request has more bytes. */
enum {
    SLUSHFERRET_SCHEME_BYTES = 6633,
    SLUSHFERRET_MATRIX_BYTES = 37208,
    SLUSHFERRET_OLD_MATRIX_BYTES = 37206,
    SLUSHFERRET_REQUEST_BYTES = 22
};

/* Where in a matrix's bytes the highest id stands that it ever had: two bytes, the low one first. Ids up to it are never
 * created again, so a new key gets one above it. An old image has no such bytes. */
enum { SLUSHFERRET_HIGHEST_AT = 6 };

/* An answer to a request in the lent buffer: which of its bytes says what. */
enum {
    SLUSHFERRET_NUMBER = 0,       /* the number: 0, or 10 to 18 */
    SLUSHFERRET_TEST_PLACE = 1,   /* with 14 the place, from 0, of the command's first test that doesn't hold; else 255 */
    SLUSHFERRET_STEPS = 2,        /* how many tests were evaluated and operations carried out or refused */
    SLUSHFERRET_ANSWER_BYTES = 3, /* so many bytes an answer */
    SLUSHFERRET_NO_TEST = 255     /* the place with every number but 14 */
};

/* SLUSHFERRET_VERSION, as the archive has it. */
uint32_t slushferret_version(void);

/* Whether bytes read as a scheme. 0, with their length as the position; or 1 to 6 or 8, in the scheme. */
uint8_t slushferret_check_scheme(const uint8_t *scheme, size_t scheme_length,
                                 size_t *report, size_t report_length);

/* Whether bytes read as a matrix of a scheme. 0, with the matrix's length as the position; or the scheme's fault, in the
 * scheme; or 1 to 7, in the matrix. */
uint8_t slushferret_check_matrix(const uint8_t *scheme, size_t scheme_length,
                                 const uint8_t *matrix, size_t matrix_length,
                                 size_t *report, size_t report_length);

/* Carries out a list of requests on a matrix. The answer to each goes to answers, SLUSHFERRET_ANSWER_BYTES each: the number
 * (0, or 10 to 18); with 14 the place, from 0, of the command's first test that doesn't hold, else 255; and the steps. These
 * are all tests and operations of the command with 0, the tests up to the false one with 14, all tests and the operations
 * up to the one at fault with 15 to 17 (the one at fault counts too), and 0 with 10 to 13 and 18. The bytes of the matrix
 * afterwards go to out; the report says how many answers and how many bytes. A refused request has no effect on the matrix,
 * and the list goes on. A created thing isn't on hold, and no request puts a thing on hold or releases it.
 * In this order: the scheme's fault; the matrix's; 9 if answers is too short for all of them; 9 if out is too short for the
 * matrix afterwards. With any of these nothing is stored.
 * A record of the list that can't be read ends the list: what came before it is carried out, answered and written, the
 * number is 0, and the report has SLUSHFERRET_IN_REQUESTS, the record's position and, as report[SLUSHFERRET_RECORD], its
 * own number (1 to 4). That slot is 0 for a list that came to its end.
 * An out of SLUSHFERRET_MATRIX_BYTES or more is the quickest: with a shorter one the list is run twice, since the room
 * must be known before the first store. A list of n bytes has at most n / 6 requests, so that n / 2 bytes are room for its
 * answers.
 * On what the two conversions below write, the answers are the same as on what they were given, the tests' places too, but
 * for the steps: those tests, and twice those operations.
 * A matrix with entries missing, the poorer, can only be stricter than the complete one, the richer, on three conditions: no
 * command of the scheme tests an absence (it may create and destroy); both have the same things, marks and highest id, and
 * the richer has every entry of the poorer; and the robot stops at its first refusal. Then, where this call gives 0 for both
 * with the same list, each request before the poorer's first refusal has the same answer on the richer, byte for byte, and
 * after each of them the poorer has no entry that the richer lacks. Behind that refusal nothing is promised, and the list
 * goes on there: run one request at a time, or look at the answers and run the list once more, cut before the refused one.
 * Nor is it promised where a command tests an absence: a key whose entry "retired" is missing may load. */
uint8_t slushferret_run(const uint8_t *scheme, size_t scheme_length,
                        const uint8_t *matrix, size_t matrix_length,
                        const uint8_t *requests, size_t requests_length,
                        uint8_t *answers, size_t answers_length,
                        uint8_t *out, size_t out_length,
                        size_t *report, size_t report_length);

/* The converted scheme's bytes: without absence tests, each right with a partner. In this order: the scheme's fault;
 * 20, 21, 22, each over all of the scheme, in the scheme at 0; 9, in the output. */
uint8_t slushferret_convert_scheme(const uint8_t *scheme, size_t scheme_length,
                                   uint8_t *out, size_t out_length,
                                   size_t *report, size_t report_length);

/* The bytes of the converted matrix, given the scheme before its conversion. What is on hold stays on hold. In this order:
 * the scheme's fault; the matrix's; 20, 21, 22, in the scheme at 0; 9, in the output.
 * It stores to each byte that it writes once, and to a cell's rights at once, so that out may lie in memory that is slow to
 * write (counted, not proved). */
uint8_t slushferret_convert_matrix(const uint8_t *scheme, size_t scheme_length,
                                   const uint8_t *matrix, size_t matrix_length,
                                   uint8_t *out, size_t out_length,
                                   size_t *report, size_t report_length);

/* Puts the thing with this id on hold: it keeps its rights and takes part in nothing. A request that names it for a parameter
 * that the command doesn't create is refused, with 18 where none of 10 to 13 comes first. The bytes of the matrix afterwards
 * go to out; where the thing is on hold already, they are those of the matrix before. In this order: the scheme's fault; the
 * matrix's; 12 for an id of no thing, 0 too, in the matrix at 0; 9, in the output. */
uint8_t slushferret_hold(const uint8_t *scheme, size_t scheme_length,
                         const uint8_t *matrix, size_t matrix_length, uint16_t id,
                         uint8_t *out, size_t out_length,
                         size_t *report, size_t report_length);

/* Releases the thing with this id: it isn't on hold any more. The bytes of the matrix afterwards go to out; where the thing
 * wasn't on hold, they are those of the matrix before. In this order: the scheme's fault; the matrix's; 12 for an id of no
 * thing, 0 too, in the matrix at 0; 9, in the output. */
uint8_t slushferret_release(const uint8_t *scheme, size_t scheme_length,
                            const uint8_t *matrix, size_t matrix_length, uint16_t id,
                            uint8_t *out, size_t out_length,
                            size_t *report, size_t report_length);

/* Moving stored matrices. Farms update on different days: what a robot stored before there was a highest id must go into a
 * robot with this library, and back into another one while that is still old. An old image is a matrix's bytes but for the
 * head, which is of kind SLUSHFERRET_OLD_MATRIX_HEAD and has n and the number of things as its whole body, and so is 2 bytes
 * shorter. Only slushferret_forward takes one: to all others that take a matrix its head is 2 at 0, as a new head is to it.
 *
 * Turns an old image into a matrix with the highest id, which is the highest listed one, 0 for no things. All else stays, and
 * so do the marks. The bytes, 2 more than the old image's, go to out; slushferret_back gives the old image again. In this
 * order: the scheme's fault; the old image's (1 to 7), in the matrix; 9, in the output. */
uint8_t slushferret_forward(const uint8_t *scheme, size_t scheme_length,
                            const uint8_t *old, size_t old_length,
                            uint8_t *out, size_t out_length,
                            size_t *report, size_t report_length);

/* Turns a matrix into an old image, for a robot that is still old. The bytes, 2 fewer than the matrix's, go to out;
 * slushferret_forward gives the matrix again.
 * 23, in the matrix at 0, is given exactly if the highest id isn't the highest listed one (with no things: if it isn't 0). An
 * old image has no place for it: it would be lost, and an old robot might give a retired key's number out again, as might a
 * new one that the image comes to later. Such a matrix must stay with robots that have this library.
 * A thing on hold stays of kind SLUSHFERRET_HELD_THING. A robot from before there were marks refuses that with 2 rather than
 * lose the mark, so that only a matrix with nothing on hold can go there.
 * In this order: the scheme's fault; the matrix's (1 to 7); 23; 9, in the output. */
uint8_t slushferret_back(const uint8_t *scheme, size_t scheme_length,
                         const uint8_t *matrix, size_t matrix_length,
                         uint8_t *out, size_t out_length,
                         size_t *report, size_t report_length);

/* Writes a request's record at a position of out; report[SLUSHFERRET_WRITTEN] is the position behind it, where the next one goes. 4 for
 * more than 8 ids, in the requests; then 9, in the output. Neither the command nor the ids are checked: a run does. */
uint8_t slushferret_write_request(uint8_t command, const uint16_t *ids, size_t ids_length,
                                  uint8_t *out, size_t out_length, size_t at,
                                  size_t *report, size_t report_length);

#ifdef __cplusplus
}
#endif

#endif

/* The outline's key example through the library: the office loads, retires the key, and can't load again; the converted
 * table gives the robot the same answers, in more steps. Then a robot is on hold while it is in the workshop, keys are issued
 * and scrapped, and no number is used again, what an old robot stored moves to a new one, and a controller comes back from
 * service with an entry missing. What it prints is example.expected. */
#include "slushferret.h"
#include <stdio.h>
#include <stdlib.h>

/* rights: 0 own, 1 sign, 2 retired, 3 loaded; types: 0 manager, 1 key, 2 robot */
static const uint8_t scheme[] = {
    0x05, 0, 1, 0, 4, 3, 3, 0, 2,
    /* command 0, retire(M manager, K key): if own in [M,K], enter retired in [K,K] */
    0x0D, 0, 2, 0, 2, 0, 1, 1, 1, 0, 0, 1, 1, 1, 2, 1, 1,
    /* command 1, load(K key, R robot): if sign in [K,R] and retired absent from [K,K], enter loaded in [K,R] */
    0x11, 0, 2, 0, 2, 1, 2, 2, 1, 1, 0, 1, 0, 2, 0, 0, 1, 1, 3, 0, 1,
};

static const uint8_t matrix[] = {
    4, 0, 7, 0, 4, 3, 12, 0,                            /* there never was an id above 12 */
    3, 0, 4, 0, 5, 0, 0,                                /* 5 is a manager */
    3, 0, 4, 0, 9, 0, 1,                                /* 9 is a key */
    3, 0, 4, 0, 12, 0, 2,                               /* 12 is a robot */
    12, 0, 5, 0, 5, 0, 9, 0, 1, 0, 0, 0, 0, 0, 0, 0,    /* the manager owns the key */
    12, 0, 5, 0, 9, 0, 12, 0, 2, 0, 0, 0, 0, 0, 0, 0,   /* the key signs for the robot */
};

enum { RETIRE = 0, LOAD = 1 };

/* the same with the key retired: without that entry it is the matrix above */
static const uint8_t retired_matrix[] = {
    4, 0, 7, 0, 4, 3, 12, 0,
    3, 0, 4, 0, 5, 0, 0,
    3, 0, 4, 0, 9, 0, 1,
    3, 0, 4, 0, 12, 0, 2,
    12, 0, 5, 0, 5, 0, 9, 0, 1, 0, 0, 0, 0, 0, 0, 0,
    12, 0, 5, 0, 9, 0, 9, 0, 4, 0, 0, 0, 0, 0, 0, 0,    /* retired */
    12, 0, 5, 0, 9, 0, 12, 0, 2, 0, 0, 0, 0, 0, 0, 0,
};

/* the office's own table: right 0 own; types 0 manager, 1 key */
static const uint8_t office_scheme[] = {
    0x05, 0, 1, 0, 1, 2, 1, 0, 2,
    /* command 0, issue(M manager, K key): create K, enter own in [M,K] */
    0x0D, 0, 2, 0, 2, 0, 1, 0, 2, 3, 0, 1, 0, 1, 0, 0, 1,
    /* command 1, scrap(M manager, K key): if own in [M,K], destroy K */
    0x0D, 0, 2, 0, 2, 0, 1, 1, 1, 0, 0, 1, 1, 4, 0, 1, 0,
};

static const uint8_t office_matrix[] = {
    4, 0, 7, 0, 1, 1, 5, 0,
    3, 0, 4, 0, 5, 0, 0, /* 5 is a manager */
};

/* as a robot stored it before there was a highest id */
static const uint8_t old_matrix[] = {
    2, 0, 3, 0, 1, 2,
    3, 0, 4, 0, 5, 0, 0,                              /* 5 is a manager */
    3, 0, 4, 0, 31, 0, 1,                             /* 31 is a key */
    12, 0, 5, 0, 5, 0, 31, 0, 1, 0, 0, 0, 0, 0, 0, 0, /* the manager owns the key */
};

/* what a new controller stored, which runs the office's own table */
static const uint8_t complete_matrix[] = {
    4, 0, 7, 0, 1, 3, 32, 0,
    3, 0, 4, 0, 5, 0, 0,                              /* 5 is a manager */
    3, 0, 4, 0, 31, 0, 1,                             /* 31 is a key */
    3, 0, 4, 0, 32, 0, 1,                             /* 32 is a key */
    12, 0, 5, 0, 5, 0, 31, 0, 1, 0, 0, 0, 0, 0, 0, 0, /* the manager owns 31 */
    12, 0, 5, 0, 5, 0, 32, 0, 1, 0, 0, 0, 0, 0, 0, 0, /* the manager owns 32 */
};

/* back from service it has all but its last cell */
enum { INCOMPLETE_BYTES = sizeof complete_matrix - 16 };

enum { ISSUE = 0, SCRAP = 1 };

/* what the last call reported */
static size_t report[SLUSHFERRET_REPORT];

static void print_refusal(const char *what, uint8_t number) {
    static const char *const places[] = {"nothing", "the scheme", "the matrix", "the requests", "the answers", "the output"};
    printf("%s: refused with %d, in %s at byte %zu\n", what, number, places[report[SLUSHFERRET_WHERE]], report[SLUSHFERRET_POSITION]);
}

/* a call that must succeed: how many bytes are then in use */
static size_t must(const char *what, uint8_t number) {
    if (number != SLUSHFERRET_DONE) {
        print_refusal(what, number);
        exit(EXIT_FAILURE);
    }
    return report[SLUSHFERRET_WRITTEN];
}

/* a call that must be refused with a number */
static void must_refuse(const char *what, uint8_t number, uint8_t expected) {
    print_refusal(what, number);
    if (number != expected) {
        exit(EXIT_FAILURE);
    }
}

/* the highest id, what is on hold and the cells of a matrix that was written by the library */
static void print_matrix(const char *whose, const uint8_t *bytes, size_t length) {
    const uint8_t *highest = bytes + SLUSHFERRET_HIGHEST_AT;
    printf("%s, %zu bytes, highest id %d\n", whose, length, highest[0] + 256 * highest[1]);
    for (size_t at = 0; at < length; at += 4 + bytes[at]) {
        const uint8_t *body = bytes + at + 4;
        if (bytes[at + 2] == SLUSHFERRET_HELD_THING) {
            printf("  %d is on hold\n", body[0] + 256 * body[1]);
        }
        if (bytes[at + 2] == SLUSHFERRET_CELL) {
            printf("  [%d, %d] = %d\n", body[0] + 256 * body[1], body[2] + 256 * body[3], body[4]);
        }
    }
}

/* runs the list and prints each answer, with its steps and the test that stopped it, and what ended the list if that isn't
 * its end; the matrix afterwards is in `after` */
static size_t run(const char *whose, const uint8_t *with, size_t with_length, const uint8_t *on, size_t on_length,
                  const uint8_t *requests, size_t requests_length, uint8_t *after) {
    uint8_t answers[8 * SLUSHFERRET_ANSWER_BYTES];
    size_t written = must(whose, slushferret_run(with, with_length, on, on_length, requests, requests_length, answers, sizeof answers,
                                                 after, SLUSHFERRET_MATRIX_BYTES, report, SLUSHFERRET_REPORT));
    printf("%s answers", whose);
    for (size_t k = 0; k < report[SLUSHFERRET_ANSWERS]; k++) {
        const uint8_t *answer = answers + k * SLUSHFERRET_ANSWER_BYTES;
        printf(" %d (", answer[SLUSHFERRET_NUMBER]);
        if (answer[SLUSHFERRET_TEST_PLACE] != SLUSHFERRET_NO_TEST) {
            printf("test %d, ", answer[SLUSHFERRET_TEST_PLACE]);
        }
        printf("%d %s)", answer[SLUSHFERRET_STEPS], answer[SLUSHFERRET_STEPS] == 1 ? "step" : "steps");
    }
    printf("\n");
    if (report[SLUSHFERRET_RECORD] != 0) {
        printf("  the record at byte %zu can't be read: %zu\n", report[SLUSHFERRET_POSITION], report[SLUSHFERRET_RECORD]);
    }
    return written;
}

/* requests of two ids each, one behind the other: how many bytes they take */
static size_t write_requests(const uint8_t *commands, const uint16_t (*ids)[2], size_t count, uint8_t *requests, size_t room) {
    size_t length = 0;
    for (size_t k = 0; k < count; k++) {
        length = must("request", slushferret_write_request(commands[k], ids[k], 2, requests, room, length, report, SLUSHFERRET_REPORT));
    }
    return length;
}

/* robot 12 is on hold while it is in the workshop, so that nothing is loaded to it; released, it has lost nothing */
static void run_workshop(uint8_t *after) {
    static const uint8_t commands[] = {LOAD};
    static const uint16_t ids[][2] = {{9, 12}};
    static uint8_t requests[SLUSHFERRET_REQUEST_BYTES];
    static uint8_t held[SLUSHFERRET_MATRIX_BYTES];
    static uint8_t released[SLUSHFERRET_MATRIX_BYTES];
    size_t length = write_requests(commands, ids, 1, requests, sizeof requests);

    size_t held_length = must("hold of 12", slushferret_hold(scheme, sizeof scheme, matrix, sizeof matrix, 12, held, sizeof held,
                                                             report, SLUSHFERRET_REPORT));
    print_matrix("robot 12 on hold", held, held_length);
    run("office, robot 12 on hold", scheme, sizeof scheme, held, held_length, requests, length, after);

    size_t released_length = must("release of 12", slushferret_release(scheme, sizeof scheme, held, held_length, 12, released, sizeof released,
                                                                       report, SLUSHFERRET_REPORT));
    print_matrix("robot 12 released", released, released_length);
    run("office, robot 12 released", scheme, sizeof scheme, released, released_length, requests, length, after);

    must_refuse("hold of 13", slushferret_hold(scheme, sizeof scheme, matrix, sizeof matrix, 13, held, sizeof held, report, SLUSHFERRET_REPORT),
                SLUSHFERRET_NO_THING);
}

/* key 31 is issued, scrapped, and can't be issued again; 32 can */
static void run_keys(uint8_t *after) {
    static const uint8_t commands[] = {ISSUE, SCRAP, ISSUE, ISSUE};
    static const uint16_t ids[][2] = {{5, 31}, {5, 31}, {5, 31}, {5, 32}};
    static uint8_t requests[4 * SLUSHFERRET_REQUEST_BYTES];
    size_t length = write_requests(commands, ids, 4, requests, sizeof requests);
    size_t written = run("keys", office_scheme, sizeof office_scheme, office_matrix, sizeof office_matrix, requests, length, after);
    print_matrix("keys afterwards", after, written);
}

static int are_same(const uint8_t *one, size_t one_length, const uint8_t *other, size_t other_length) {
    size_t k = 0;
    while (k < one_length && k < other_length && one[k] == other[k]) {
        k++;
    }
    return k == one_length && k == other_length;
}

/* what an old robot stored moves to a new one, and back; once key 32 is issued and scrapped there, an old robot wouldn't know
 * that there ever was one, and so it can't go back */
static void run_move(uint8_t *after) {
    static const uint8_t commands[] = {ISSUE, SCRAP};
    static const uint16_t ids[][2] = {{5, 32}, {5, 32}};
    static uint8_t requests[2 * SLUSHFERRET_REQUEST_BYTES];
    static uint8_t moved[SLUSHFERRET_MATRIX_BYTES];
    static uint8_t old[SLUSHFERRET_OLD_MATRIX_BYTES];
    const uint8_t *with = office_scheme;
    size_t with_length = sizeof office_scheme;
    must_refuse("old matrix as it is", slushferret_check_matrix(with, with_length, old_matrix, sizeof old_matrix, report, SLUSHFERRET_REPORT),
                SLUSHFERRET_KIND);

    size_t moved_length = must("forward", slushferret_forward(with, with_length, old_matrix, sizeof old_matrix, moved, sizeof moved,
                                                              report, SLUSHFERRET_REPORT));
    print_matrix("old matrix moved forward", moved, moved_length);
    size_t old_length = must("back", slushferret_back(with, with_length, moved, moved_length, old, sizeof old, report, SLUSHFERRET_REPORT));
    printf("and back, %zu bytes: %s\n", old_length,
           are_same(old, old_length, old_matrix, sizeof old_matrix) ? "as they were" : "other ones");

    size_t length = write_requests(commands, ids, 2, requests, sizeof requests);
    size_t written = run("new robot", with, with_length, moved, moved_length, requests, length, after);
    print_matrix("new robot's matrix afterwards", after, written);
    must_refuse("back from the new robot", slushferret_back(with, with_length, after, written, old, sizeof old, report, SLUSHFERRET_REPORT),
                SLUSHFERRET_HIGHEST_LOST);
}

/* The controller with an entry missing can only be stricter, as long as it stops at its first refusal. What the refused
 * request leaves is what the two before it left, so the complete matrix is shown after just those, too. */
static void run_incomplete(uint8_t *after) {
    static const uint8_t commands[] = {ISSUE, SCRAP, SCRAP};
    static const uint16_t ids[][2] = {{5, 33}, {5, 31}, {5, 32}};
    static uint8_t requests[3 * SLUSHFERRET_REQUEST_BYTES];
    const uint8_t *with = office_scheme;
    size_t with_length = sizeof office_scheme;
    size_t before = write_requests(commands, ids, 2, requests, sizeof requests);
    size_t length = write_requests(commands, ids, 3, requests, sizeof requests);

    size_t written = run("incomplete controller", with, with_length, complete_matrix, INCOMPLETE_BYTES, requests, length, after);
    print_matrix("incomplete controller's matrix afterwards", after, written);
    run("complete controller", with, with_length, complete_matrix, sizeof complete_matrix, requests, length, after);
    written = run("complete controller, with the list cut before that", with, with_length, complete_matrix, sizeof complete_matrix,
                  requests, before, after);
    print_matrix("complete controller's matrix afterwards", after, written);
}

/* why nothing is promised where a command tests an absence: with "retired" missing the office loads what it must refuse */
static void run_looser(uint8_t *after) {
    static const uint8_t commands[] = {LOAD};
    static const uint16_t ids[][2] = {{9, 12}};
    static uint8_t requests[SLUSHFERRET_REQUEST_BYTES];
    size_t length = write_requests(commands, ids, 1, requests, sizeof requests);
    run("office, key 9 retired", scheme, sizeof scheme, retired_matrix, sizeof retired_matrix, requests, length, after);
    run("office, \"retired\" missing", scheme, sizeof scheme, matrix, sizeof matrix, requests, length, after);
}

/* the archive is this header's, and the tables can be read */
static void check(void) {
    if (slushferret_version() != SLUSHFERRET_VERSION) {
        printf("header and archive are of two versions\n");
        exit(EXIT_FAILURE);
    }
    must("scheme", slushferret_check_scheme(scheme, sizeof scheme, report, SLUSHFERRET_REPORT));
    printf("scheme: %zu bytes read\n", report[SLUSHFERRET_POSITION]);
    must("matrix", slushferret_check_matrix(scheme, sizeof scheme, matrix, sizeof matrix, report, SLUSHFERRET_REPORT));
    printf("matrix: %zu bytes read\n", report[SLUSHFERRET_POSITION]);
    must_refuse("scheme without its last byte", slushferret_check_scheme(scheme, sizeof scheme - 1, report, SLUSHFERRET_REPORT),
                SLUSHFERRET_CUT);
}

int main(void) {
    static uint8_t robot_scheme[SLUSHFERRET_SCHEME_BYTES];
    static uint8_t robot_matrix[SLUSHFERRET_MATRIX_BYTES];
    static uint8_t after[SLUSHFERRET_MATRIX_BYTES];
    static uint8_t requests[3 * SLUSHFERRET_REQUEST_BYTES];
    check();

    /* load(9, 12), retire(5, 9), load(9, 12), each behind the one before */
    static const uint8_t commands[] = {LOAD, RETIRE, LOAD};
    static const uint16_t ids[][2] = {{9, 12}, {5, 9}, {9, 12}};
    size_t length = write_requests(commands, ids, 3, requests, sizeof requests);
    printf("three requests, %zu bytes\n", length);

    size_t written = run("office", scheme, sizeof scheme, matrix, sizeof matrix, requests, length, after);
    print_matrix("office's matrix afterwards", after, written);
    run("office, with the list cut", scheme, sizeof scheme, matrix, sizeof matrix, requests, length - 1, after);

    size_t robot_scheme_length =
        must("robot's scheme", slushferret_convert_scheme(scheme, sizeof scheme, robot_scheme, sizeof robot_scheme, report, SLUSHFERRET_REPORT));
    size_t robot_matrix_length = must("robot's matrix", slushferret_convert_matrix(scheme, sizeof scheme, matrix, sizeof matrix, robot_matrix,
                                                                                   sizeof robot_matrix, report, SLUSHFERRET_REPORT));
    printf("robot's scheme, %zu bytes\n", robot_scheme_length);
    print_matrix("robot's matrix", robot_matrix, robot_matrix_length);

    written = run("robot", robot_scheme, robot_scheme_length, robot_matrix, robot_matrix_length, requests, length, after);
    print_matrix("robot's matrix afterwards", after, written);

    must_refuse("robot's scheme into 54 bytes", slushferret_convert_scheme(scheme, sizeof scheme, robot_scheme, 54, report, SLUSHFERRET_REPORT),
                SLUSHFERRET_ROOM);

    run_workshop(after);
    run_keys(after);
    run_move(after);
    run_incomplete(after);
    run_looser(after);
    return EXIT_SUCCESS;
}

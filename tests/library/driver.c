/* Calls the library on each case from standard input and tells every result on standard output, for tests/compare to hold
 * against the independent program.
 *
 * A case: see cases.h. A result: what was called, the number, all seven numbers of the report, and for each lent buffer two
 * numbers; 8 bytes a number, little-endian.
 *
 * Buffers are filled with a pattern before each call. The two numbers of a buffer are the end of what no longer is the
 * pattern, and a hash of all up to there: so they say every byte of it, with the guards on both sides. */
#include "cases.h"
#include "slushferret.h"

int memcmp(const void *one, const void *other, size_t length);

enum {
    GUARD = 64,
    ROOM = 80000,    /* no case has more room */
    LARGE = 40000,   /* enough for every matrix, and for the answers to every list of a case */
    ONE_BY_ONE = 60, /* so many requests of a list are also carried out one by one */
    REPORT = SLUSHFERRET_REPORT + 2 /* two more numbers than are told stand as a guard */
};

enum { CHECK_SCHEME = 1, CHECK_MATRIX, CONVERT_SCHEME, CONVERT_MATRIX, RUN, WRITE_REQUEST, HOLD, RELEASE, FORWARD, BACK, INPUTS };

struct buffer {
    uint8_t bytes[GUARD + ROOM + GUARD];
};

static struct part scheme, matrix, requests, now; /* now: the matrix so far, one by one */
static struct part image, moved;                  /* one to be moved, and what that gave */
static struct buffer answers, out, pattern;
static size_t report[REPORT];

/* ---- telling */

static uint8_t said[65536];
static size_t said_length;

static void flush(void) {
    for (size_t at = 0; at < said_length;) {
        long done = write(1, said + at, said_length - at);
        if (done <= 0) {
            STOP("the driver can't write its results");
        }
        at += (size_t)done;
    }
    said_length = 0;
}

static void tell(uint64_t number) {
    if (said_length == sizeof said) {
        flush();
    }
    memcpy(said + said_length, &number, 8);
    said_length += 8;
}

/* FNV-1a, 64 bits */
static uint64_t hash(uint64_t from, const uint8_t *bytes, size_t length) {
    for (size_t k = 0; k < length; k++) {
        from = (from ^ bytes[k]) * 0x100000001b3u;
    }
    return from;
}
#define EMPTY 0xcbf29ce484222325u

/* Tells a buffer of which so many bytes were lent, and fills it with the pattern again. */
static void tell_buffer(struct buffer *buffer, size_t lent) {
    size_t end = GUARD + lent + GUARD;
    while (end >= 512 && memcmp(buffer->bytes + end - 512, pattern.bytes + end - 512, 512) == 0) {
        end -= 512;
    }
    while (end > 0 && buffer->bytes[end - 1] == pattern.bytes[end - 1]) {
        end--;
    }
    tell(end);
    tell(hash(EMPTY, buffer->bytes, end));
    memcpy(buffer->bytes, pattern.bytes, end);
}

static void tell_call(uint64_t what, uint8_t number) {
    tell(what);
    tell(number);
    for (size_t k = 0; k < REPORT; k++) {
        tell(report[k]);
    }
}

static void clear_report(void) {
    for (size_t k = 0; k < REPORT; k++) {
        report[k] = 0xA5A5A5A5A5A5A5A5u;
    }
}

/* What the last call says that it wrote to out, of which so many bytes were lent. */
static void keep(struct part *after, size_t lent) {
    after->length = report[SLUSHFERRET_WRITTEN] <= lent ? report[SLUSHFERRET_WRITTEN] : 0;
    memcpy(after->bytes, out.bytes + GUARD, after->length);
}

/* ---- the calls, each with so many elements lent; those that can write give how many bytes of out are in use */

static void check_scheme(size_t report_length) {
    clear_report();
    uint8_t number = slushferret_check_scheme(scheme.bytes, scheme.length, report, report_length);
    tell_call(CHECK_SCHEME, number);
}

static void check_matrix(void) {
    clear_report();
    uint8_t number = slushferret_check_matrix(scheme.bytes, scheme.length, matrix.bytes, matrix.length, report, SLUSHFERRET_REPORT);
    tell_call(CHECK_MATRIX, number);
}

static size_t convert_scheme(size_t lent) {
    clear_report();
    uint8_t number = slushferret_convert_scheme(scheme.bytes, scheme.length, out.bytes + GUARD, lent, report, SLUSHFERRET_REPORT);
    tell_call(CONVERT_SCHEME, number);
    tell_buffer(&out, lent);
    return report[SLUSHFERRET_WRITTEN];
}

static size_t convert_matrix(size_t lent) {
    clear_report();
    uint8_t number = slushferret_convert_matrix(scheme.bytes, scheme.length, matrix.bytes, matrix.length,
                                                out.bytes + GUARD, lent, report, SLUSHFERRET_REPORT);
    tell_call(CONVERT_MATRIX, number);
    tell_buffer(&out, lent);
    return report[SLUSHFERRET_WRITTEN];
}

static void run(const uint8_t *list, size_t list_length, const struct part *on, size_t answers_lent, size_t out_lent,
                struct part *after) {
    clear_report();
    uint8_t number = slushferret_run(scheme.bytes, scheme.length, on->bytes, on->length, list, list_length,
                                     answers.bytes + GUARD, answers_lent, out.bytes + GUARD, out_lent, report, SLUSHFERRET_REPORT);
    tell_call(RUN, number);
    if (after) {
        keep(after, out_lent);
    }
    tell_buffer(&answers, answers_lent);
    tell_buffer(&out, out_lent);
}

/* `copy` gets the record, where it was written */
static uint8_t write_request(uint8_t command, const uint16_t *ids, size_t count, size_t lent, size_t at, uint8_t *copy) {
    clear_report();
    uint8_t number = slushferret_write_request(command, ids, count, out.bytes + GUARD, lent, at, report, SLUSHFERRET_REPORT);
    tell_call(WRITE_REQUEST, number);
    if (copy && number == 0) {
        memcpy(copy, out.bytes + GUARD + at, 6 + 2 * count);
    }
    tell_buffer(&out, lent);
    return number;
}

/* Holds or releases; `after` gets the matrix afterwards, and stays where that is refused. */
static size_t set_mark(const struct mark *mark, const struct part *on, size_t lent, struct part *after) {
    clear_report();
    uint8_t number = (mark->held ? slushferret_hold : slushferret_release)(scheme.bytes, scheme.length, on->bytes, on->length, mark->id,
                                                                           out.bytes + GUARD, lent, report, SLUSHFERRET_REPORT);
    tell_call(mark->held ? HOLD : RELEASE, number);
    if (after && number == SLUSHFERRET_DONE) {
        keep(after, lent);
    }
    tell_buffer(&out, lent);
    return report[SLUSHFERRET_WRITTEN];
}

/* Moves an image forward or back; `after` gets what was written, and stays where that is refused. */
static size_t move_image(int forward, const struct part *from, size_t lent, struct part *after) {
    clear_report();
    uint8_t number = (forward ? slushferret_forward : slushferret_back)(scheme.bytes, scheme.length, from->bytes, from->length,
                                                                        out.bytes + GUARD, lent, report, SLUSHFERRET_REPORT);
    tell_call(forward ? FORWARD : BACK, number);
    if (after && number == SLUSHFERRET_DONE) {
        keep(after, lent);
    }
    tell_buffer(&out, lent);
    return report[SLUSHFERRET_WRITTEN];
}

/* ---- a case */

/* with the case's room, with a large buffer, and where that worked with just enough and with one byte less */
static void convert(size_t (*one)(size_t lent), size_t room, int edges) {
    one(room);
    size_t written = one(LARGE);
    if (edges && written > 0) {
        one(written);
        one(written - 1);
    }
}

/* The whole list with large buffers, with the case's room for either, with just enough and one byte less of each, and with one
 * byte more than the answers take. Gives whether it was carried out. */
static int run_list(size_t room, int edges) {
    const uint8_t *list = requests.bytes;
    size_t length = requests.length;
    run(list, length, &matrix, LARGE, LARGE, 0);
    size_t count = report[SLUSHFERRET_ANSWERS], written = report[SLUSHFERRET_WRITTEN];
    int carried_out = report[SLUSHFERRET_WHERE] == SLUSHFERRET_IN_NOTHING || report[SLUSHFERRET_WHERE] == SLUSHFERRET_IN_REQUESTS;
    run(list, length, &matrix, LARGE, room, 0);
    run(list, length, &matrix, room, LARGE, 0);
    if (edges && carried_out) {
        size_t bytes = count * SLUSHFERRET_ANSWER_BYTES;
        run(list, length, &matrix, bytes, written, 0);
        run(list, length, &matrix, bytes, written - 1, 0);
        if (bytes > 0) {
            run(list, length, &matrix, bytes - 1, written, 0);
        }
        run(list, length, &matrix, bytes + 1, written, 0);
    }
    return carried_out;
}

/* The first requests of the list one by one, each a list of its own on the matrix that the one before left. */
static void run_one_by_one(void) {
    size_t at = 0;
    for (size_t k = 0; k < ONE_BY_ONE && at < requests.length; k++) {
        const uint8_t *front = requests.bytes + at;
        size_t left = requests.length - at;
        size_t length = left < 4 ? left : 4 + (size_t)front[0] + 256 * (size_t)front[1];
        if (length > left) {
            length = left;
        }
        run(front, length, &now, SLUSHFERRET_ANSWER_BYTES, SLUSHFERRET_MATRIX_BYTES, &now);
        if (report[SLUSHFERRET_WHERE] != SLUSHFERRET_IN_NOTHING) {
            return;
        }
        at += length;
    }
}

/* A request handed in directly: written at the start, at the end and past the end of the room, at a position that no
 * buffer has, and with room behind the one before; then carried out. Gives the position behind it. */
static size_t direct(size_t room, size_t behind, int carried_out) {
    struct direct q;
    uint8_t record[2 * 256 + 6];
    take_direct(&q);
    size_t length = 6 + 2 * (size_t)q.count;
    write_request(q.command, q.ids, q.count, room, 0, 0);
    if (length <= room) {
        write_request(q.command, q.ids, q.count, room, room - length, 0);
        write_request(q.command, q.ids, q.count, room, room - length + 1, 0);
    }
    write_request(q.command, q.ids, q.count, room, (size_t)-1, 0);
    if (write_request(q.command, q.ids, q.count, LARGE, behind, record) != 0) {
        return behind;
    }
    size_t next = report[SLUSHFERRET_WRITTEN];
    if (carried_out) {
        run(record, length, &now, SLUSHFERRET_ANSWER_BYTES, SLUSHFERRET_MATRIX_BYTES, &now);
    }
    return next;
}

/* A mark set in the case's matrix: with the case's room, with a large buffer, and where that worked with just enough and with
 * one byte less; then in the matrix that the marks before it left. */
static void mark_matrix(size_t room, int edges, int carried_out) {
    struct mark mark;
    take_mark(&mark);
    set_mark(&mark, &matrix, room, 0);
    size_t written = set_mark(&mark, &matrix, LARGE, 0);
    if (edges && written > 0) {
        set_mark(&mark, &matrix, written, 0);
        set_mark(&mark, &matrix, written - 1, 0);
    }
    if (carried_out) {
        set_mark(&mark, &now, LARGE, &now);
    }
}

/* An image of the case: with the images' room, with a large buffer, and where that worked with just enough and with one byte
 * less; then the other way what it gave. Gives the hash of the images so far with this one, as it is after all these calls. */
static uint64_t move_given(size_t room, int edges, uint64_t before) {
    int forward = take_image(&image);
    move_image(forward, &image, room, 0);
    size_t written = move_image(forward, &image, LARGE, &moved);
    if (edges && written > 0) {
        move_image(forward, &image, written, 0);
        move_image(forward, &image, written - 1, 0);
    }
    if (written > 0) {
        move_image(!forward, &moved, LARGE, 0);
    }
    return hash(before, image.bytes, image.length);
}

/* The matrix so far back, and forward again where that worked. */
static void move_now(void) {
    if (move_image(0, &now, LARGE, &moved) > 0) {
        move_image(1, &moved, LARGE, 0);
    }
}

static void start_again(void) {
    memcpy(now.bytes, matrix.bytes, matrix.length);
    now.length = matrix.length;
}

/* All is read by now; what the library was only lent to read must be as it was read. */
static void tell_inputs(uint64_t images) {
    uint64_t all = hash(EMPTY, scheme.bytes, scheme.length);
    all = hash(all, matrix.bytes, matrix.length);
    tell(INPUTS);
    tell(hash(all, requests.bytes, requests.length));
    tell(images);
}

static void run_case(void) {
    struct head head = take_case(&scheme, &matrix, &requests);
    size_t room = head.room;
    int edges = head.edges;
    if (room > ROOM || head.images_room > ROOM) {
        STOP("a case has more room than the driver has");
    }

    check_scheme(room % 6);
    check_matrix();
    convert(convert_scheme, room, edges);
    convert(convert_matrix, room, edges);
    int carried_out = run_list(room, edges);
    start_again();
    if (carried_out) {
        run_one_by_one();
    }
    size_t behind = 0;
    for (uint32_t k = 0; k < head.direct; k++) {
        behind = direct(room, behind, carried_out);
    }
    if (carried_out) {
        move_now();
    }
    start_again();
    for (uint32_t k = 0; k < head.marks; k++) {
        mark_matrix(room, edges, carried_out);
    }
    if (carried_out) {
        run(requests.bytes, requests.length, &now, LARGE, LARGE, 0);
    }
    uint64_t images = EMPTY;
    for (uint32_t k = 0; k < head.images; k++) {
        images = move_given(head.images_room, edges, images);
    }
    tell_inputs(images);
}

int main(void) {
    for (size_t k = 0; k < sizeof pattern.bytes; k++) {
        pattern.bytes[k] = (uint8_t)(167 * k + 13);
    }
    answers = pattern;
    out = pattern;
    while (another_case()) {
        run_case();
    }
    flush();
    return 0;
}

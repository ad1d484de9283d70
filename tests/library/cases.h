/* The cases of tests/compare, from standard input, for the programs here that call the library on them.
 *
 * A case: scheme's length, matrix's, list's, room, 1 if buffers of just the right length are to be tried, number of direct
 * requests, number of marks, number of images, the room to move these into (4 bytes each); the bytes of the first three; then
 * each direct request: command (1), ids (1), 2 bytes an id; then each mark: id (2), 1 to hold or 0 to release (1); then each
 * image: its length (4), 1 to move it forward or 0 to move it back (1), its bytes. All little-endian. */
#ifndef CASES_H
#define CASES_H

#include <stddef.h>
#include <stdint.h>

long read(int file, void *bytes, size_t length);
long write(int file, const void *bytes, size_t length);
void *memcpy(void *to, const void *from, size_t length);
_Noreturn void _exit(int status);

static _Noreturn void stop(const char *why, size_t length) {
    write(2, why, length);
    _exit(2);
}
#define STOP(why) stop(why "\n", sizeof(why))

enum { PART = 262144 }; /* no part of a case is longer */

struct part {
    size_t length;
    uint8_t bytes[PART];
};

struct direct {
    uint8_t command, count;
    uint16_t ids[256];
};

struct mark {
    uint16_t id;
    int held;
};

static uint8_t heard[65536];
static size_t heard_length, heard_at;

static int listen(void) {
    long got = read(0, heard, sizeof heard);
    if (got < 0) {
        STOP("the cases can't be read");
    }
    heard_length = (size_t)got;
    heard_at = 0;
    return got > 0;
}

static int another_case(void) {
    return heard_at < heard_length || listen();
}

static void take(void *to, size_t length) {
    uint8_t *bytes = to;
    while (length > 0) {
        if (heard_at == heard_length && !listen()) {
            STOP("the input ends inside a case");
        }
        size_t some = heard_length - heard_at < length ? heard_length - heard_at : length;
        memcpy(bytes, heard + heard_at, some);
        heard_at += some;
        bytes += some;
        length -= some;
    }
}

static void take_part(struct part *part, uint32_t length) {
    if (length > PART) {
        STOP("a part of a case is too long");
    }
    part->length = length;
    take(part->bytes, length);
}

/* The first three parts, and what else the case's head says: room, whether buffers of just the right length are to be tried,
 * how many direct requests, then marks, then images are to be taken next, and the images' room. */
struct head {
    size_t room;
    int edges;
    uint32_t direct, marks, images;
    size_t images_room;
};

static struct head take_case(struct part *scheme, struct part *matrix, struct part *requests) {
    uint32_t numbers[9];
    take(numbers, sizeof numbers);
    take_part(scheme, numbers[0]);
    take_part(matrix, numbers[1]);
    take_part(requests, numbers[2]);
    return (struct head){numbers[3], numbers[4] == 1, numbers[5], numbers[6], numbers[7], numbers[8]};
}

static void take_direct(struct direct *request) {
    uint8_t front[2];
    take(front, sizeof front);
    request->command = front[0];
    request->count = front[1];
    take(request->ids, 2 * (size_t)front[1]);
}

static void take_mark(struct mark *mark) {
    uint8_t bytes[3];
    take(bytes, sizeof bytes);
    mark->id = (uint16_t)(bytes[0] + 256 * bytes[1]);
    mark->held = bytes[2] == 1;
}

/* Gives whether the image is to be moved forward. */
static int take_image(struct part *image) {
    uint32_t length;
    uint8_t way;
    take(&length, sizeof length);
    take(&way, sizeof way);
    take_part(image, length);
    return way == 1;
}

#endif

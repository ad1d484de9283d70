/* Counts the stores of a matrix's conversion to the buffer that it is lent, in the code that robots link: every byte of the
 * robot's matrix is stored to once, a cell's rights by one instruction; no other byte at all, and a conversion that is refused
 * stores nothing. A stored matrix that is moved forward or back stores to the bytes that it writes and to no other, and one
 * that is refused stores nothing either.
 *
 *   stores          of the cases from standard input (cases.h)
 *   stores control  of 32 stores to one cell, right by right, made here: whether this machine can count them
 *
 * The lent pages can only be read, so that a store faults. That one instruction is let through with a trap behind it; the
 * bytes that it changed are counted, and what stood there is put back. What a byte gets before its last value might by chance
 * be what stands there, and not show: so each call is counted on two grounds, which differ from each other and from what the
 * call leaves in every byte. A store that changes no byte can't be the last one to any, and is told. */
#include "cases.h"
#include "slushferret.h"
#include <stdio.h>
#include <stdlib.h>

/* what is needed of the headers of x86-64 Linux */
struct action {
    void (*handler)(int signal, const uint8_t *info, uint8_t *context);
    uint64_t mask[16];
    int flags;
    void (*restorer)(void);
};
int sigaction(int signal, const struct action *to, struct action *from);
int mprotect(void *start, size_t length, int access);
enum { TRAP = 5, FAULT = 11, WITH_INFO = 4, CAN_READ = 1, CAN_WRITE = 2 };
enum { INFO_ADDRESS = 16, CONTEXT_FLAGS = 40 + 8 * 17, TRAP_FLAG = 0x100 };

enum { PAGE = 4096, ROOM = 10 * PAGE, WIDEST = 64 }; /* the longest matrix fits, and no store is wider */

static _Alignas(PAGE) uint8_t lent[ROOM];
static uint8_t left[ROOM], ground[ROOM]; /* what the call leaves there, and what stands there before each store */
static unsigned counts[2][ROOM];         /* the stores to each byte, on either ground */
static unsigned *count;                  /* those of the ground at hand */
static size_t stores, faulted;           /* how many stores there were, and where the last one is */
static size_t by[ROOM];                  /* which of them stored to a byte last */
static size_t idle;                      /* those that changed nothing, on both grounds together */

static void forbid(void) {
    mprotect(lent, ROOM, CAN_READ);
}

static void allow(void) {
    mprotect(lent, ROOM, CAN_READ | CAN_WRITE);
}

static void set_trap(uint8_t *context, int on) {
    uint64_t flags;
    memcpy(&flags, context + CONTEXT_FLAGS, sizeof flags);
    flags = on ? flags | TRAP_FLAG : flags & ~(uint64_t)TRAP_FLAG;
    memcpy(context + CONTEXT_FLAGS, &flags, sizeof flags);
}

static void on_fault(int signal, const uint8_t *info, uint8_t *context) {
    size_t address;
    (void)signal;
    memcpy(&address, info + INFO_ADDRESS, sizeof address);
    faulted = address - (size_t)lent;
    if (faulted >= ROOM) {
        STOP("a fault outside of the lent buffer");
    }
    stores++;
    allow();
    set_trap(context, 1);
}

static void on_trap(int signal, const uint8_t *info, uint8_t *context) {
    (void)signal, (void)info;
    int changed = 0;
    /* a store over the end of a page may fault at either of its parts */
    for (size_t k = faulted < WIDEST ? 0 : faulted - WIDEST; k < ROOM && k < faulted + WIDEST; k++) {
        if (lent[k] != ground[k]) {
            count[k]++;
            by[k] = stores;
            lent[k] = ground[k];
            changed = 1;
        }
    }
    idle += !changed;
    forbid();
    set_trap(context, 0);
}

/* Counts one call, on both grounds, and gives its number. */
static uint8_t counted(uint8_t (*call)(size_t), size_t argument) {
    static const uint8_t other[2] = {0xFF, 0x5A};
    uint8_t number = call(argument);
    memcpy(left, lent, ROOM);
    idle = 0;
    for (int g = 0; g < 2; g++) {
        count = counts[g];
        stores = 0;
        for (size_t k = 0; k < ROOM; k++) {
            lent[k] = ground[k] = left[k] ^ other[g];
            count[k] = 0;
        }
        forbid();
        number = call(argument);
        allow();
    }
    return number;
}

static unsigned times(size_t k) {
    return counts[0][k] > counts[1][k] ? counts[0][k] : counts[1][k];
}

/* The first byte that breaks "the bytes from one on to another so often, and no others"; ROOM if none does. */
static size_t breaking(size_t from, size_t to, unsigned often) {
    size_t k = 0;
    while (k < ROOM && times(k) == (from <= k && k < to ? often : 0)) {
        k++;
    }
    return k;
}

/* ---- what is counted */

enum { IMAGES = 3 }; /* so many of a case's images are counted: some cases have thousands */

static struct part scheme, matrix, requests, image;
static size_t report[SLUSHFERRET_REPORT];
static size_t conversions, bytes, instructions, cells, refusals;
static size_t moves, moved, unmoved; /* moves that worked, their bytes, and those that were refused */
static unsigned most;                /* the most stores of a move to one byte */

static uint8_t convert(size_t room) {
    return slushferret_convert_matrix(scheme.bytes, scheme.length, matrix.bytes, matrix.length, lent, room, report, SLUSHFERRET_REPORT);
}

static uint8_t forward(size_t room) {
    return slushferret_forward(scheme.bytes, scheme.length, image.bytes, image.length, lent, room, report, SLUSHFERRET_REPORT);
}

static uint8_t back(size_t room) {
    return slushferret_back(scheme.bytes, scheme.length, image.bytes, image.length, lent, room, report, SLUSHFERRET_REPORT);
}

static uint8_t right_by_right(size_t at) {
    volatile uint64_t *cell = (volatile uint64_t *)(lent + at);
    uint64_t set = 0;
    for (int r = 0; r < 32; r++) {
        set |= (uint64_t)1 << r;
        *cell = set;
    }
    return SLUSHFERRET_DONE;
}

static void hold_to(unsigned number, size_t written) {
    size_t k = breaking(0, written, 1);
    if (k < ROOM) {
        printf("case %u, %zu bytes written: byte %zu was stored to %u times\n", number, written, k, times(k));
        exit(EXIT_FAILURE);
    }
    if (idle > 0) {
        printf("case %u, %zu bytes written: %zu more stores changed nothing\n", number, written, idle);
        exit(EXIT_FAILURE);
    }
}

/* The rights of a cell's record stand behind its front and two ids. */
static void hold_cells(unsigned number, size_t written) {
    enum { FRONT = 4, IDS = 4, RIGHTS = 8 };
    for (size_t at = 0; at < written; at += FRONT + left[at] + 256 * (size_t)left[at + 1]) {
        const size_t *rights = by + at + FRONT + IDS;
        if (left[at + 2] != SLUSHFERRET_CELL) {
            continue;
        }
        cells++;
        for (size_t k = 1; k < RIGHTS; k++) {
            if (rights[k] != rights[0]) {
                printf("case %u: the rights of the cell at byte %zu were stored by more than one instruction\n", number, at);
                exit(EXIT_FAILURE);
            }
        }
    }
}

/* Each of the bytes that a move wrote was stored to, no other was. */
static void hold_move(unsigned number, size_t written) {
    for (size_t k = 0; k < ROOM; k++) {
        unsigned often = times(k);
        if ((often > 0) != (k < written)) {
            printf("case %u, %zu bytes written by a move: byte %zu was stored to %u times\n", number, written, k, often);
            exit(EXIT_FAILURE);
        }
        most = often > most ? often : most;
    }
}

/* A move of an image, and where it worked that into a buffer one byte too short. */
static void count_move(unsigned number, uint8_t (*move)(size_t)) {
    if (counted(move, ROOM) == SLUSHFERRET_DONE) {
        size_t written = report[SLUSHFERRET_WRITTEN];
        moves++;
        moved += written;
        hold_move(number, written);
        if (counted(move, written - 1) != SLUSHFERRET_ROOM) {
            STOP("a buffer that is too short was taken");
        }
    }
    unmoved++;
    hold_to(number, 0);
}

/* What of a case is taken but not counted. */
static void pass_requests(const struct head *head) {
    for (uint32_t k = 0; k < head->direct; k++) {
        struct direct request;
        take_direct(&request);
    }
    for (uint32_t k = 0; k < head->marks; k++) {
        struct mark mark;
        take_mark(&mark);
    }
}

static void count_images(unsigned number, uint32_t images) {
    for (uint32_t k = 0; k < images; k++) {
        uint8_t (*move)(size_t) = take_image(&image) ? forward : back;
        if (k < IMAGES) {
            count_move(number, move);
        }
    }
}

/* A case's conversion, and where it worked that into a buffer one byte too short. */
static void count_conversion(unsigned number) {
    if (counted(convert, ROOM) == SLUSHFERRET_DONE) {
        size_t written = report[SLUSHFERRET_WRITTEN];
        conversions++;
        bytes += written;
        instructions += stores;
        hold_to(number, written);
        hold_cells(number, written);
        if (counted(convert, written - 1) != SLUSHFERRET_ROOM) {
            STOP("a buffer that is too short was taken");
        }
    }
    refusals++;
    hold_to(number, 0);
}

static void count_case(unsigned number) {
    struct head head = take_case(&scheme, &matrix, &requests);
    count_conversion(number);
    pass_requests(&head);
    count_images(number, head.images);
}

int main(int words, char **word) {
    (void)word;
    struct action action = {on_fault, {0}, WITH_INFO, 0};
    sigaction(FAULT, &action, 0);
    action.handler = on_trap;
    sigaction(TRAP, &action, 0);
    if (words > 1) {
        counted(right_by_right, 24);
        return breaking(24, 32, 32) < ROOM ? EXIT_FAILURE : EXIT_SUCCESS;
    }
    for (unsigned number = 0; another_case(); number++) {
        count_case(number);
    }
    printf("%zu conversions store to each of their %zu bytes once, the rights of their %zu cells at once (%zu instructions); %zu refused ones store nothing\n",
           conversions, bytes, cells, instructions, refusals);
    printf("%zu moves store to each of their %zu bytes and to no other (most stores to one byte: %u); %zu refused ones store nothing\n",
           moves, moved, most, unmoved);
    return EXIT_SUCCESS;
}

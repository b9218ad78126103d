/* The release desk's calls for C (C99 and later) and C++ (C++11 and later), on Linux and x86-64. The archive is
 * libdispatch_c.a, made by `rt lib` in crates/dispatch_c. docs/FORMATS.md says what a site file, a board and a light are, byte
 * by byte, and what to do about each number.
 *
 * Slices. A slice is a pointer and a number of elements, not of bytes. A slice of 0 elements may be a null pointer.
 *
 * Answers. A call returns one word; dispatch_draw returns a struct by value, and its field word is as the word of every call.
 * The low 8 bits are the number: DISPATCH_ACCEPTED, which is 0, or the reason of the refusal. The other bits are 0 but for
 * these values of an accepted call, which the macros below read:
 *   dispatch_interval   the number of intervals, in the bits from 8 on
 *   dispatch_travel     the ticks, in the bits from 8 on
 *   dispatch_route      the light's length in bytes in the bits 8 to 31, the arrival in the bits from 32 on
 *   dispatch_draw       the kind of picture, in the bits from 8 on
 *
 * Refusals. There is exactly one reason each time, the first that applies, and a refused call leaves every area as it was,
 * with one exception: DISPATCH_NO_PLAN leaves the first DISPATCH_WORK_WORDS of the working area zero.
 *
 * What a caller sees to, and nothing else:
 * - each area has the length that is given with it;
 * - areas that are lent to one call do not overlap, but for two that the call only reads;
 * - uint16_t and uint32_t areas are aligned for their elements, to 2 and to 4 bytes; uint8_t areas may lie anywhere;
 * - while a call runs, nobody writes what it is lent and nobody reads what it writes;
 * - the stack has room for the call (DISPATCH_STACK_ROUTE and its neighbours).
 * All else is the call's own: any bytes, any lengths and any numbers are answered, and nothing has to be set up first.
 *
 * Threads. A call keeps nothing between calls, has no state but what it is lent, and allocates nothing. So calls from
 * several threads need no lock, as long as none writes what another is lent. The archive needs memset of the C library,
 * and nothing else.
 *
 * What each call returns and writes is proved: crates/dispatch_c/src/lib.rt has the contracts, and
 * crates/answers_c/specs/Words.antt says how a word is read. */
#ifndef DISPATCH_H
#define DISPATCH_H

#include <stddef.h>
#include <stdint.h>

/* The numbers: X(name, number, text). Any number but 0 is a refusal. */
#define DISPATCH_NUMBERS(X)                                                                                                 \
    X(DISPATCH_ACCEPTED, 0, "accepted")                                                                                     \
    X(DISPATCH_SITE_TOO_LONG, 1, "the site file has more than 65,536 bytes")                                                \
    X(DISPATCH_SITE_CUT, 2, "a field of the site file runs past the file's end")                                            \
    X(DISPATCH_SITE_HEAD, 3, "the site file does not begin with a head of 7 bytes with H, C, S and m in range")             \
    X(DISPATCH_SITE_LAYOUT, 4, "the site file's states, motions or centres have a wrong tag, length, order or number")      \
    X(DISPATCH_STATE_CELL, 5, "a state of the site names a cell that the hall does not have")                               \
    X(DISPATCH_MOTION, 6, "a motion of the site breaks a rule on its values or sweeps")                                     \
    X(DISPATCH_BOARD_LENGTH, 7, "the board does not have the length that the site needs")                                   \
    X(DISPATCH_LIGHT_LAYOUT, 8, "the light is empty, too long, cut short or against its layout")                            \
    X(DISPATCH_HOLDER_RANGE, 9, "the number of the tug, closure or holder is out of range")                                 \
    X(DISPATCH_OUT_OF_RANGE, 10, "a cell, state, tick, motion or dwell is too large, or the first tick is past the last")   \
    X(DISPATCH_GOAL_ROLLING, 11, "the goal is not a standing state")                                                        \
    X(DISPATCH_HOLDER_STANDS, 12, "the tug or closure stands on the board already")                                         \
    X(DISPATCH_HOLDER_ABSENT, 13, "the holder does not stand on the board")                                                 \
    X(DISPATCH_AREA_SHORT, 14, "a lent area is too short")                                                                  \
    X(DISPATCH_LAST_EDITION, 15, "the board is at its last edition, 4,294,967,295")                                         \
    X(DISPATCH_STALE_LIGHT, 16, "the light was made from another edition of the board")                                     \
    X(DISPATCH_CONFLICT, 17, "a wanted cell is held or near a tug, or the light is no valid plan to its goal and arrival")  \
    X(DISPATCH_NO_PLAN, 18, "no valid plan exists")                                                                         \
    X(DISPATCH_TOO_FAR, 19, "the distance is above 511 decimetres")                                                         \
    X(DISPATCH_NO_PICTURE, 20, "the frame is above 16, or the site has no centres")

/* As an enum; DISPATCH_NUMBER_COUNT is how many there are, 0 included. */
#define DISPATCH_ENTRY(name, number, text) name = number,
enum dispatch_number { DISPATCH_NUMBERS(DISPATCH_ENTRY) DISPATCH_NUMBER_COUNT };
#undef DISPATCH_ENTRY

/* What a number says, in English; never null. */
static inline const char *dispatch_text(int number) {
    switch (number) {
#define DISPATCH_ENTRY(name, number, text) case number: return text;
        DISPATCH_NUMBERS(DISPATCH_ENTRY)
#undef DISPATCH_ENTRY
    }
    return "not a number of the desk";
}

/* The parts of a returned word. All but the number are 0 if the call is refused. */
#define DISPATCH_NUMBER(word) ((int)((word) & 0xff))                 /* of every call */
#define DISPATCH_COUNT(word) ((uint32_t)((word) >> 8))               /* of dispatch_interval: how many intervals */
#define DISPATCH_TICKS(word) ((uint32_t)((word) >> 8))               /* of dispatch_travel */
#define DISPATCH_LENGTH(word) ((size_t)((word) >> 8 & 0xffffff))     /* of dispatch_route: bytes of the light */
#define DISPATCH_ARRIVAL(word) ((uint32_t)((word) >> 32))            /* of dispatch_route */
#define DISPATCH_PICTURE(word) ((int)((word) >> 8 & 0xff))           /* of dispatch_draw: one of the kinds below */

/* The kinds of picture. */
enum dispatch_picture {
    DISPATCH_OFF_FLOOR = 0, /* the tug is not on the floor */
    DISPATCH_STANDING = 1,  /* it stands at a place */
    DISPATCH_ROLLING = 2    /* it rolls at a place, with a share of its motion */
};

/* The last frame of a step; the first is 0. */
#define DISPATCH_LAST_FRAME 16

/* What dispatch_draw returns. The place is in millimetres, as the centres of the site file are. */
typedef struct dispatch_drawn {
    uint64_t word; /* the number and the kind of picture */
    float x;       /* of the place; 0 if there is none: refused, or off the floor */
    float y;       /* the same */
    float share;   /* of the motion, frame / 16; 0 unless the tug rolls */
} dispatch_drawn;

/* The last tick H, the number of cells C, the number of states S and the margin m, as the head of a site file has them. They
 * are read from its first 10 bytes, and are in range once a call has accepted the file. So size the board by them, open it,
 * and then size the other areas. But look at H and C first, as a faulty head can ask for a board of 4 GiB: a file whose H is
 * above DISPATCH_MOST_H or whose C is above DISPATCH_MOST_C needs no board, since every call refuses it whatever the board
 * is, a null pointer and 0 included. The same holds of a file of fewer than 10 bytes. */
#define DISPATCH_SITE_H(site) ((size_t)((site)[3] << 8 | (site)[4]))
#define DISPATCH_SITE_C(site) ((size_t)((site)[5] << 8 | (site)[6]))
#define DISPATCH_SITE_S(site) ((size_t)((site)[7] << 8 | (site)[8]))
#define DISPATCH_SITE_M(site) ((size_t)(site)[9])

/* The edition of a board: how often it has changed. */
#define DISPATCH_EDITION(board) \
    ((uint32_t)(board)[0] << 24 | (uint32_t)(board)[1] << 16 | (uint32_t)(board)[2] << 8 | (uint32_t)(board)[3])

/* The sizes of the areas, in elements. The board has just that many bytes; the others have at least so many. */
#define DISPATCH_BOARD_BYTES(H, C) (4 + (size_t)(C) * ((size_t)(H) + 1))
#define DISPATCH_LIGHT_BYTES(H) (18 + 5 * (size_t)(H))               /* of dispatch_route: out */
#define DISPATCH_WORK_WORDS(H, S) ((size_t)(S) * ((size_t)(H) + 1))  /* of dispatch_route: work */
#define DISPATCH_INTERVAL_NUMBERS(H) ((size_t)(H) + 2)               /* of dispatch_interval: out */

/* The largest H, C, S and m, the largest site file and the longest light, in bytes: enough for areas that serve every site. */
#define DISPATCH_MOST_H 1000
#define DISPATCH_MOST_C 1000
#define DISPATCH_MOST_S 1280
#define DISPATCH_MOST_M 20
#define DISPATCH_MOST_SITE_BYTES 65536
#define DISPATCH_MOST_LIGHT_BYTES 5018

/* The most bytes of stack that a call takes, also to refuse. A thread needs some more for itself: 16 KiB are plenty. */
#define DISPATCH_STACK_ROUTE 1000000 /* dispatch_route */
#define DISPATCH_STACK_LIGHT 18000   /* dispatch_audit, dispatch_post, dispatch_draw */
#define DISPATCH_STACK 1000          /* each of the others */

#ifdef __cplusplus
extern "C" {
#endif

/* Checks the site and sets every byte of the board to 0: nothing is booked, and the edition is 0. */
uint64_t dispatch_open(const uint8_t *site, size_t site_len, uint8_t *board, size_t board_len);

/* Writes the first and the last tick of each safe interval of the cell into out, in rising order. A safe interval is a run
 * of free ticks that can't be lengthened; a cell is free at a tick if nobody holds it from m ticks earlier to m later. out
 * has at least DISPATCH_INTERVAL_NUMBERS; later numbers stay. */
uint64_t dispatch_interval(const uint8_t *site, size_t site_len, const uint8_t *board, size_t board_len,
                           uint16_t cell, uint16_t *out, size_t out_len);

/* Finds a route for a tug, 1 to 199, from a start state and tick to a goal state. The board is not written: a route that is
 * granted books nothing until its light is posted. The light of the plan with the least arrival is written into out, which
 * has at least DISPATCH_LIGHT_BYTES; later bytes stay. work has at least DISPATCH_WORK_WORDS, which are zero afterwards; what
 * they hold before does not matter. dwell is the time that the tug unloads on its goal cell, 0 to 1,000 ticks: the cell is
 * free from the arrival to arrival + dwell, which is at most H, and among the plans that can unload so the arrival is the
 * least. DISPATCH_NO_PLAN means that there is no such plan at all. */
uint64_t dispatch_route(const uint8_t *site, size_t site_len, const uint8_t *board, size_t board_len,
                        uint8_t tug, uint16_t start, uint16_t tick, uint16_t goal, uint16_t dwell,
                        uint8_t *out, size_t out_len, uint32_t *work, size_t work_len);

/* Answers as dispatch_post would, and writes nothing. */
uint64_t dispatch_audit(const uint8_t *site, size_t site_len, const uint8_t *board, size_t board_len,
                        const uint8_t *light, size_t light_len);

/* Books a light: writes its tug over the pairs of cell and tick that its plan holds, those of its dwell among them, and adds
 * 1 to the edition. light_len is the length that dispatch_route gave, not that of the area. */
uint64_t dispatch_post(const uint8_t *site, size_t site_len, uint8_t *board, size_t board_len,
                       const uint8_t *light, size_t light_len);

/* Closes a cell: writes the closure, 200 to 254, over the cell's ticks first to last, both included, and adds 1 to the
 * edition. Nobody may hold these ticks, and no tug the cell within m ticks of them; closures may touch each other. */
uint64_t dispatch_close(const uint8_t *site, size_t site_len, uint8_t *board, size_t board_len,
                        uint8_t holder, uint16_t cell, uint16_t first, uint16_t last);

/* Takes a tug or closure, 1 to 254, off the board: clears every byte of it, and adds 1 to the edition. */
uint64_t dispatch_withdraw(const uint8_t *site, size_t site_len, uint8_t *board, size_t board_len, uint8_t holder);

/* Answers the fewest ticks from rest to rest that cover at least distance decimetres: the speed is 0 at the first and at
 * the last tick, at most 15 decimetres a tick, and changes by at most 1 from a tick to the next. It needs no site and no
 * board. A distance above 511 is refused with DISPATCH_TOO_FAR, its only refusal. */
uint64_t dispatch_travel(uint32_t distance);

/* Draws one step of a light, counted from 0, at a frame from 0 to DISPATCH_LAST_FRAME. A motion rolls from the centre of its
 * from state's cell to that of its to state's: 16 x is exactly 16 times the old centre's x plus frame times the difference,
 * and so is y, without rounding. A wait stands where the motion before it ends, or at the centre of the start state's cell
 * if it is the first step. A step past the last, up to 65,535, is off the floor. No area is lent for writing, and no board at
 * all: any light that names what the site has is drawn, posted or not, whatever its tug, edition and plan are.
 * DISPATCH_NO_PICTURE means that the frame is above 16, also past the last step, or that the site has no centres. The centres
 * are read by this call alone; to the others it only matters that there are C of them or none. */
dispatch_drawn dispatch_draw(const uint8_t *site, size_t site_len, const uint8_t *light, size_t light_len,
                             uint16_t step, uint8_t frame);

#ifdef __cplusplus
}
#endif

#endif

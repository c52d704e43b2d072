/* Thwelgamy: QR symbols of versions 1 to 10, drawn and read for kiln controller panels.
 *
 * Link with libpanel.a (x86-64, System V calls). No heap, no writable statics; of the C library it calls memcpy and memset alone. Every function may be called from
 * several threads or interrupt levels at once, on memory that is not shared. A call needs at most KQS_STACK bytes of stack.
 *
 * A message is a payload (bytes) and a segment list (16-bit numbers of the machine's own byte order, in pairs: mode, count).
 * Modes: 1 numeric (digits), 2 alphanumeric (0-9 A-Z space $ % * + - . / :), 4 byte. Segments take the payload in order, one byte a
 * character; a count of 0 and an empty list are lawful.
 *
 * A matrix has side s = 17 + 4 * version and s * s bytes, row by row from the top left: 0 light, 1 dark, 2 unreadable.
 * Levels: 0 L, 1 M, 2 Q, 3 H.
 *
 * Every call answers every input. A pointer points at as many bytes or numbers as its length says, and is not NULL.
 * Memory that is lent for writing must not overlap any other memory that the same call is lent. A list is aligned as uint16_t is. */
#ifndef KQS_H
#define KQS_H

#include <stddef.h>
#include <stdint.h>

#ifdef __cplusplus
extern "C" {
#endif

#define KQS_MOST_VERSION 10
#define KQS_MOST_SIDE 57
#define KQS_MOST_MODULES (KQS_MOST_SIDE * KQS_MOST_SIDE) /* room for any symbol */
#define KQS_PAYLOAD_ROOM 652                             /* bytes that kqs_read asks for */
#define KQS_LIST_ROOM 308                                /* 16-bit numbers that kqs_read asks for */
#define KQS_STACK 12288                                  /* enough for any call; measured: kqs_read 10,080, kqs_write 8,129 */
#define KQS_CHOOSE_VERSION 0                             /* the smallest version that fits */
#define KQS_CHOOSE_MASK 8                                /* the mask of least penalty, the lowest among equals */

/* Refusals. A refusal's other fields are 0, and lent memory is as it was. */
enum {
    KQS_OK = 0,
    KQS_BAD_NUMBER = 1,      /* level above 3, version above 10 or mask above 8 */
    KQS_BAD_LIST = 2,        /* odd list length, or a mode that is not 1, 2 or 4 */
    KQS_BAD_SUM = 3,         /* counts do not sum to the payload's length */
    KQS_BAD_CHARACTER = 4,   /* a character outside its segment's mode */
    KQS_TOO_LONG = 5,        /* more data bits than the named version has, or than any version has */
    KQS_SHORT_OUTPUT = 6,    /* output shorter than side * side */
    KQS_BAD_LENGTH = 7,      /* matrix length is not that of a version 1 to 10 */
    KQS_BAD_MODULE = 8,      /* a module above 2 */
    KQS_OTHER_VERSION = 9,   /* a version copy stands for another version */
    KQS_NO_FORMAT = 10,      /* neither format copy stands for anything */
    KQS_TWO_FORMATS = 11,    /* the format copies stand for different words */
    KQS_BEYOND_REPAIR = 12,  /* a block has no codeword within its bound */
    KQS_UNKNOWN_MODE = 13,   /* unknown mode in the stream */
    KQS_CUT_SHORT = 14,      /* a count field or a segment's body runs past the data bits */
    KQS_BAD_GROUP = 15,      /* a group of digits or characters out of range */
    KQS_SMALL_BUFFERS = 16   /* payload buffer under 652 bytes or list buffer under 308 numbers */
};

typedef struct { uint32_t refusal, version, mask, side; } kqs_drawn;
typedef struct { uint32_t refusal, version, level, mask, payload_len, segments, differing, unreadable; } kqs_reading;
typedef struct { size_t start, len; } kqs_span;

/* Draws the symbol of a message. The first side * side bytes of out become its modules, 0 or 1; the rest stays as it was.
 * level 0 to 3; version 1 to 10 or KQS_CHOOSE_VERSION; mask 0 to 7 or KQS_CHOOSE_MASK. list_len counts 16-bit numbers.
 * Refusals 1 to 6, checked in that order. */
kqs_drawn kqs_write(const uint8_t *payload, size_t payload_len, const uint16_t *list, size_t list_len,
                    uint32_t level, uint32_t version, uint32_t mask, uint8_t *out, size_t out_len);

/* Reads a matrix. The first payload_len bytes of payload and the first 2 * segments numbers of list become the message; the rest stays
 * as it was. differing and unreadable count, over all blocks, the readable codewords that were wrong and those that could not be read.
 * Caps count bytes and 16-bit numbers. Refusals 16, then 7 to 12 in order, then 13 to 15 by the first fault from the stream's front. */
kqs_reading kqs_read(const uint8_t *matrix, size_t matrix_len, uint8_t *payload, size_t payload_cap,
                     uint16_t *list, size_t list_cap);

/* Where the k-th segment, counted from 0, stands in the payload: payload[start] to payload[start + len - 1]. The empty span at 0 where
 * the list is odd or has no such segment, or the part would run past the payload. Modes are not looked at. */
kqs_span kqs_part(const uint8_t *payload, size_t payload_len, const uint16_t *list, size_t list_len, size_t k);

#ifdef __cplusplus
}
#endif

#endif

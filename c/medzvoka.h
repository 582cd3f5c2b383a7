/* HELLO frames of an Ethernet train backbone (IEC 61375-2-5, 8.7.5). */
#ifndef MEDZVOKA_H
#define MEDZVOKA_H

#include <stddef.h>
#include <stdint.h>

/* Sizes in bytes: a frame without its CRC, the frame that is written, vendor and UUID. */
#define HELLO_FRAME_SHORTEST 18
#define HELLO_FRAME_LONGEST 1518
#define HELLO_FRAME 125
#define HELLO_VENDOR 32
#define HELLO_UUID 16

/* What is returned: 0, or the number of a refusal. */
#define HELLO_OK 0
#define HELLO_SHORT 1    /* fewer than 125 bytes are left in the buffer; names nothing */
#define HELLO_BROKEN 15  /* size or TLVs; names the place of the TLV's head, for a size or a missing end the frame's length */
#define HELLO_FOREIGN 16 /* not a HELLO frame; names nothing */
#define HELLO_FIELD 17   /* a field's value or length; names its offset */

/* The offsets that HELLO_FIELD names. */
#define HELLO_AT_VERSION 6
#define HELLO_AT_VENDOR 18
#define HELLO_AT_STATUSES 50
#define HELLO_AT_TIMEOUT 51
#define HELLO_AT_SOURCE 52
#define HELLO_AT_LINE 59
#define HELLO_AT_DIRECTION 60
#define HELLO_AT_INHIBITION 61
#define HELLO_AT_REMOTE 62
#define HELLO_AT_UUID 70

/* Values of fields. */
#define HELLO_NOT_RECEIVED 1 /* a line's status */
#define HELLO_RECEIVED 2
#define HELLO_SLOW 1         /* the timeout: 100 ms */
#define HELLO_FAST 2         /* 15 ms */
#define HELLO_DIRECTION_1 1
#define HELLO_DIRECTION_2 2
#define HELLO_ALLOWED 1      /* the inhibition */
#define HELLO_INHIBITED 2
#define HELLO_NOT_AVAILABLE 3 /* a status or the inhibition */

/* MACs are numbers of 48 bits; the source is not 0. The line is one of the characters A, B, C, D and -. */
struct hello_fields {
    uint64_t source;
    uint64_t remote;
    uint32_t life_sign;
    uint32_t counter;
    uint16_t checksum;
    uint8_t statuses[4];
    uint8_t timeout;
    uint8_t port;
    uint8_t line;
    uint8_t direction;
    uint8_t inhibition;
};

/* What is read: vendor and UUID are the bytes of the frame from these places on. */
struct read_hello {
    struct hello_fields fields;
    size_t vendor_at;
    size_t uuid_at;
};

/* No pointer may be null, and nothing that is written may overlap with anything else that is passed. */

/* Reads a frame; a refusal leaves `hello` as it was, and `place` is written only where the refusal names a place. */
uint32_t hello_read(const uint8_t *frame, size_t frame_length, struct read_hello *hello, size_t *place);

/* Writes 125 bytes from `at` on; a refusal leaves the buffer as it was, and `place` is written only where the refusal names an offset. */
uint32_t hello_write(const struct hello_fields *fields, const uint8_t *vendor, size_t vendor_length, const uint8_t *uuid,
                     size_t uuid_length, uint16_t time_to_live, uint8_t *buffer, size_t buffer_length, size_t at,
                     size_t *place);

#endif

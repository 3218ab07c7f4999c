/* The engine's calls for C, from crates/embed. Link libembed.a, and with it the memory functions of the Rattle toolchain,
 * KIT/c/liblibc_c.a (c/build shows how); only sinkapricot_run allocates.
 *
 * Bytes are a pointer and a length. The pointer is never null, also where the length is 0. Bytes that are written to may
 * overlap no other argument. No call keeps a pointer, and none has a state between calls. Nothing checks any of this.
 */
#ifndef SINKAPRICOT_H
#define SINKAPRICOT_H

#include <stdbool.h>
#include <stddef.h>
#include <stdint.h>

#ifdef __cplusplus
extern "C" {
#endif

/* The check of 8 or of 16 bits of the first `bits` bits, most significant bit of each byte first; of all if there are fewer. */
uint8_t sinkapricot_crc8(const uint8_t *bytes, size_t length, size_t bits);
uint16_t sinkapricot_crc16(const uint8_t *bytes, size_t length, size_t bits);

/* The bytes that the longest frame fills: what a frame buffer must have. */
#define SINKAPRICOT_FRAME 42

/* Packs a frame at the front of the buffer, spare bits 0; later bytes stay. `kind` is the check's width, 8 or 16. The
 * address, of 3 to 5 bytes, is low byte first, as the registers hold it. The answer is the frame's bit count. It is 0, and
 * the buffer stays, where an argument is none of its type (another kind, an address of another length, a packet identity
 * above 3, a payload of more than 32 bytes), and where the buffer has under 42 bytes. */
size_t sinkapricot_pack(uint8_t kind, const uint8_t *address, size_t address_length, uint8_t pid, bool no_ack,
                        const uint8_t *payload, size_t payload_length, uint8_t *frame, size_t frame_length);

/* What was read. The address is low byte first; behind address and payload stand zeros. */
struct sinkapricot_packet {
    uint16_t check;
    uint8_t pid;
    bool no_ack;
    uint8_t length; /* of the payload */
    uint8_t address[5];
    uint8_t payload[32];
};

/* Reads the first `bits` bits as a frame with an address of `width` bytes, and answers one of these. `packet` is written for
 * SINKAPRICOT_PACKET alone. */
#define SINKAPRICOT_NOTHING 0  /* bit count or check are not a frame's */
#define SINKAPRICOT_PACKET 1
#define SINKAPRICOT_REFUSED 18 /* there are fewer bits */
#define SINKAPRICOT_NO_CALL 255 /* the kind is neither 8 nor 16, or the width none of 3, 4 and 5 */
uint8_t sinkapricot_read(uint8_t kind, size_t width, const uint8_t *bytes, size_t length, size_t bits,
                         struct sinkapricot_packet *packet);

/* Runs a script on a new console (docs/CONSOLE.md), and answers how many bytes its results have. As many as fit are written
 * to the front of `out`; later bytes stay. Where there was no memory the answer is SINKAPRICOT_NO_MEMORY, and `out` stays. */
#define SINKAPRICOT_NO_MEMORY SIZE_MAX
size_t sinkapricot_run(const uint8_t *script, size_t length, uint8_t *out, size_t room);

#ifdef __cplusplus
}
#endif

#endif

/* Packs a payload, prints the frame, reads it back, shows that a damaged copy is nothing, and runs a small script.
 * c/build builds and runs it. */
#include "sinkapricot.h"

#include <stdio.h>
#include <string.h>

static void print(const char *what, const uint8_t *bytes, size_t length) {
    printf("%s", what);
    for (size_t i = 0; i < length; i++)
        printf(" %02X", bytes[i]);
    printf("\n");
}

static const char *said(uint8_t outcome) {
    switch (outcome) {
    case SINKAPRICOT_NOTHING: return "nothing";
    case SINKAPRICOT_PACKET: return "a packet";
    case SINKAPRICOT_REFUSED: return "refused";
    default: return "no such call";
    }
}

int main(void) {
    const uint8_t address[5] = {0xE7, 0xE7, 0xE7, 0xE7, 0xE7};
    const uint8_t payload[] = {0x13, 0x00, 0x2A};
    uint8_t frame[SINKAPRICOT_FRAME] = {0};
    const size_t bits = sinkapricot_pack(16, address, sizeof address, 1, false, payload, sizeof payload, frame, sizeof frame);
    const size_t bytes = (bits + 7) / 8;
    if (bits == 0)
        return 1;
    printf("%zu bits:\n", bits);
    print("  frame  ", frame, bytes);

    struct sinkapricot_packet packet;
    if (sinkapricot_read(16, 5, frame, bytes, bits, &packet) != SINKAPRICOT_PACKET)
        return 1;
    print("  address", packet.address, 5);
    print("  payload", packet.payload, packet.length);
    printf("  identity %u, check %04X\n", packet.pid, packet.check);
    if (packet.length != sizeof payload || memcmp(packet.payload, payload, sizeof payload) != 0)
        return 1;

    frame[3] ^= 0x10;
    printf("one bit changed: %s\n", said(sinkapricot_read(16, 5, frame, bytes, bits, &packet)));
    printf("one bit too many: %s\n", said(sinkapricot_read(16, 5, frame, bytes, 8 * bytes + 1, &packet)));

    static const char script[] =
        "kind crc8\n"
        "pack E7E7E7E7E7 1 0 13 00 2A\n"
        "bench 0\n"
        "command 0 25 7E   # a channel that is not allowed\n"
        "command 0 25 4C\n"
        "command 0 05\n";
    uint8_t results[1000];
    const size_t length = sinkapricot_run((const uint8_t *)script, strlen(script), results, sizeof results);
    if (length == SINKAPRICOT_NO_MEMORY || length > sizeof results)
        return 1;
    printf("a script:\n%.*s", (int)length, (const char *)results);
    return 0;
}

/* Prints the headers of a superframe of evSync and of one of evNull, as a pair board puts them on its pair. */
#include <stdio.h>

#include "frame.h"

/* The header of a frame, 1 to 6: the event's code in frame 1, its values in frames 2 to 6. The six bits of crc6 go over
   the frames, the highest first. */
static uint16_t header_of(uint8_t crc6, const uint8_t event[6], uint8_t frame) {
    return frame_header_write(frame, crc6 >> (6 - frame) & 1, event[frame - 1]);
}

static void print_superframe(const char *name, uint8_t crc6, const uint8_t event[6]) {
    printf("%s", name);
    for (uint8_t frame = 1; frame <= 6; frame++) {
        uint16_t header = header_of(crc6, event, frame);
        printf(" %02X %02X", header >> 8, header & 0xff);
    }
    printf("\n");
}

/* Reads a superframe back as the board at the other end does, and prints Data of its frames. */
static void print_read(const char *name, uint8_t crc6, const uint8_t event[6]) {
    printf("%s read", name);
    for (uint8_t frame = 1; frame <= 6; frame++) {
        uint32_t answer = frame_header_read(frame, header_of(crc6, event, frame));
        if (FRAME_REFUSAL(answer) != 0) {
            printf(" refused %u", FRAME_REFUSAL(answer));
        } else {
            printf(" %u", FRAME_DATA(answer));
        }
    }
    printf("\n");
}

int main(void) {
    /* Pair 3 of group 7, while the link trains: Value[0] is 0. */
    static const uint8_t sync[6] = {FRAME_EV_SYNC, 0, 3, 7, 0, 0};
    static const uint8_t null[6] = {FRAME_EV_NULL, 0, 0, 0, 0, 0};
    static const uint8_t data[3] = {'i', 'c', 'e'};
    uint8_t crc6 = frame_crc6(data, sizeof data);

    print_superframe("evSync", 0, sync);
    print_read("evSync", 0, sync);
    print_superframe("evNull", 0, null);
    print_read("evNull", 0, null);

    /* C6 of a superframe is the CRC-6 over the data of the one before. */
    printf("crc6 %u\n", crc6);
    print_superframe("evNull", crc6, null);

    /* One bit changed on the line, and a header taken for that of another frame. */
    printf("9F 7A: refused %u\n", FRAME_REFUSAL(frame_header_read(1, 0x9F7A)));
    printf("9F 7B as frame 2: refused %u\n", FRAME_REFUSAL(frame_header_read(2, 0x9F7B)));
    return 0;
}

/* Frame headers and the CRC-6 of the link, for firmware in C. Link with libframe.a, which `examples/firmware/build.sh` builds. */
#ifndef FRAME_H
#define FRAME_H

#include <stddef.h>
#include <stdint.h>

#ifdef __cplusplus
extern "C" {
#endif

/* The codes of events: Data of a superframe's first frame. */
#define FRAME_EV_NULL 0
#define FRAME_EV_SYNC_CHANGE 1
#define FRAME_EV_CONFIG_SW 2
#define FRAME_EV_SYNC 255

/* The header of a frame, its first byte in bits 15 to 8. A frame number below 1 counts as 1, above 6 as 6; a C6 bit
   other than 0 counts as 1. */
uint16_t frame_header_write(uint8_t frame, uint8_t c6, uint8_t data);

/* What the header of a frame carries: C6 in bit 9, In6 in bit 8, Data in bits 7 to 0. Where the header is refused, the
   refusal's number times 65,536. */
uint32_t frame_header_read(uint8_t frame, uint16_t header);

#define FRAME_C6(answer) ((uint8_t)((answer) >> 9 & 1))
#define FRAME_IN6(answer) ((uint8_t)((answer) >> 8 & 1))
#define FRAME_DATA(answer) ((uint8_t)((answer) & 0xff))

/* 0, or why the header is refused. */
#define FRAME_REFUSAL(answer) ((uint8_t)((answer) >> 16))
#define FRAME_CRC4_WRONG 20
#define FRAME_SF_WRONG 21

/* The CRC-6 over some bytes, 0 over none. `bytes` is not null, even where `length` is 0. */
uint8_t frame_crc6(const uint8_t *bytes, size_t length);

#ifdef __cplusplus
}
#endif

#endif

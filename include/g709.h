/*
 * G.709 frames with RS(255,239), and their rows: encode, check, extract, correct.
 *
 * Which of the two families a terminal needs: I.4 frames (g9751_i4.h) where both ends run ITU-T G.975.1 appendix I.4; G.709 frames, which are here, with
 * older terminals that run RS(255,239). The two can be used side by side.
 *
 * A payload has 15,296 bytes, a frame and a received block 16,320: four rows of 4,080 bytes, each with the next 3,824 bytes of the payload and then 256
 * parity bytes. A row can be handled by itself. A buffer is lent as a pointer and its length in bytes; it stays the caller's, and nothing of it is kept
 * after the call. What is lent as const is never written. The two buffers of a call must not overlap. A pointer may be null only where its length is 0.
 *
 * Each call returns 0, or the number of the first refusal that applies, in this order:
 *
 *     8  the row is not 4,080 bytes long, or the data for one not 3,824
 *     1  the payload is not 15,296 bytes long
 *     2  the block is not 16,320 bytes long
 *     3  the buffer to be written is not exactly as long as the answer
 *     4  the block is not the frame of any payload, or the row not that of any data
 *     5  the block or row is uncorrectable: one of its words has no code word within eight bytes
 *
 * A refusal leaves the buffer as it was. Every call ends, whatever it is given. No call allocates or keeps state, so calls may run at the same time on
 * different buffers. Of the C library they need memcpy and memset.
 */
#ifndef G709_H
#define G709_H

#include <stddef.h>
#include <stdint.h>

#ifdef __cplusplus
extern "C" {
#endif

enum {
	G709_PAYLOAD_BYTES = 15296,
	G709_FRAME_BYTES = 16320,
	G709_ROW_DATA_BYTES = 3824,
	G709_ROW_BYTES = 4080
};

enum {
	G709_OK = 0,
	G709_PAYLOAD_LENGTH = 1,
	G709_BLOCK_LENGTH = 2,
	G709_BUFFER_SIZE = 3,
	G709_NO_FRAME = 4,
	G709_UNCORRECTABLE = 5,
	G709_ROW_LENGTH = 8
};

/* Writes the frame of the payload. Refusals: 1, 3. */
uint8_t g709_encode(const uint8_t *payload, size_t payload_len, uint8_t *frame, size_t frame_len);

/* Returns 0 if the block is the frame of a payload. Refusals: 2, 4. */
uint8_t g709_check(const uint8_t *block, size_t block_len);

/* Writes the payload of the frame. Refusals: 2, 3, 4. */
uint8_t g709_extract(const uint8_t *block, size_t block_len, uint8_t *payload, size_t payload_len);

/* Writes the frame each of whose words differs from the received one in at most eight bytes. Refusals: 2, 3, 5. */
uint8_t g709_correct(const uint8_t *block, size_t block_len, uint8_t *frame, size_t frame_len);

/* Writes the row of the data. Refusals: 8, 3. */
uint8_t g709_encode_row(const uint8_t *data, size_t data_len, uint8_t *row, size_t row_len);

/* Returns 0 if the row is that of some data. Refusals: 8, 4. */
uint8_t g709_check_row(const uint8_t *row, size_t row_len);

/* Writes the data of the row. Refusals: 8, 3, 4. */
uint8_t g709_extract_row(const uint8_t *row, size_t row_len, uint8_t *data, size_t data_len);

/* Writes the row each of whose words differs from the received one in at most eight bytes. Refusals: 8, 3, 5. */
uint8_t g709_correct_row(const uint8_t *row, size_t row_len, uint8_t *restored, size_t restored_len);

#ifdef __cplusplus
}
#endif

#endif

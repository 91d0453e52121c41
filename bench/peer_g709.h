// The codec for G.709 frames that one can write with libfec alone, from bytes to bytes, on the rows of a frame or on a single row: so many rows of 4,080 bytes, with
// 3,824 bytes of data each. An answer is 0 or the refusal's number, as in include/g709.h, and a refusal leaves the output as it was.
#pragma once
#include <stdint.h>

// Tables, once for all calls; 0 if there is no memory for them.
int peer_g709_init(void);

void peer_g709_encode(const uint8_t *data, int rows, uint8_t *out);

int peer_g709_check(const uint8_t *block, int rows);

int peer_g709_extract(const uint8_t *block, int rows, uint8_t *data);

int peer_g709_correct(const uint8_t *block, int rows, uint8_t *out);

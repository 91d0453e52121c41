// The entries on single words, the correctors with their reports or counts, the worst list and products, as crates/exports exports them for tests/ and bench/. The answer of a
// correction is the refusal's number or 0, plus: for an outer word 256 times the changed symbols; for an inner word 256 times the changed data places and 65,536 times the
// changed parity places; for a frame 256 times the sum of the report; for a G.709 frame or row 256 times the changed bytes. The wrong data places and the wrong parity places of each inner word are written if there is place for exactly 64;
// of a refusal they are 0. The worst list is that of a report with these counts of data places and of parity places, of which there are 64 each, or they stand for zeros; it
// is written if there is place for exactly eight. A chain of products is x times y, n times over, in field A, B or C.
#include <stddef.h>
#include <stdint.h>

uint8_t exports_check_outer(const uint16_t *word, size_t word_len);
uint8_t exports_encode_outer(const uint16_t *data, size_t data_len, uint16_t *out, size_t out_len);
uint32_t exports_correct_outer(const uint16_t *word, size_t word_len, uint16_t *out, size_t out_len);
uint8_t exports_check_inner(const uint8_t *word, size_t word_len);
uint8_t exports_encode_inner(const uint8_t *data, size_t data_len, uint8_t *out, size_t out_len);
uint32_t exports_correct_inner(const uint8_t *word, size_t word_len, uint8_t *out, size_t out_len);
uint64_t exports_correct_frame(const uint8_t *block, size_t block_len, uint8_t *frame, size_t frame_len, uint16_t *data, size_t data_len, uint16_t *parity,
	size_t parity_len);
void exports_worst_words(const uint16_t *data, size_t data_len, const uint16_t *parity, size_t parity_len, uint8_t *list, size_t list_len);
uint32_t exports_g709_correct(const uint8_t *block, size_t block_len, uint8_t *frame, size_t frame_len);
uint32_t exports_g709_correct_row(const uint8_t *row, size_t row_len, uint8_t *restored, size_t restored_len);
uint16_t exports_products_a(uint16_t x, uint16_t y, uint32_t n);
uint16_t exports_products_b(uint16_t x, uint16_t y, uint32_t n);
uint16_t exports_products_c(uint16_t x, uint16_t y, uint32_t n);

// How much stack each entry for C uses: a thread runs on a stack that is painted beforehand, and the deepest byte that changed tells. What a thread needs
// without a call is taken away.
#include <pthread.h>
#include <string.h>
#include "damage.h"
#include "payloads.h"
#include "rows.h"

enum { STACK = 1 << 20, PAINT = 0xa5 };

// An entry, which writes an answer or only checks, and its input and the length of its answer.
struct call {
	const char *name;
	writer write;
	checker check;
	const uint8_t *in;
	size_t n, space;
};

static uint8_t payload[PAYLOAD], frame[FRAME], block[FRAME], g709_frame[FRAME], g709_block[FRAME], out[FRAME];
static volatile uint8_t number;

static const struct call calls[] = {
	{ "g9751_i4_encode", g9751_i4_encode, NULL, payload, PAYLOAD, FRAME },
	{ "g9751_i4_check", NULL, g9751_i4_check, frame, FRAME, 0 },
	{ "g9751_i4_extract", g9751_i4_extract, NULL, frame, FRAME, PAYLOAD },
	{ "g9751_i4_correct", g9751_i4_correct, NULL, block, FRAME, FRAME },
	{ "g709_encode", g709_encode, NULL, payload, PAYLOAD, FRAME },
	{ "g709_check", NULL, g709_check, g709_frame, FRAME, 0 },
	{ "g709_extract", g709_extract, NULL, g709_frame, FRAME, PAYLOAD },
	{ "g709_correct", g709_correct, NULL, g709_block, FRAME, FRAME },
	{ "g709_encode_row", g709_encode_row, NULL, payload, ROW_DATA, ROW },
	{ "g709_check_row", NULL, g709_check_row, g709_frame, ROW, 0 },
	{ "g709_extract_row", g709_extract_row, NULL, g709_frame, ROW, ROW_DATA },
	{ "g709_correct_row", g709_correct_row, NULL, g709_block, ROW, ROW },
};

enum { CALLS = sizeof calls / sizeof *calls };

static void *run(void *given)
{
	const struct call *call = given;
	if (call && call->check)
		number = call->check(call->in, call->n);
	else if (call)
		number = call->write(call->in, call->n, out, call->space);
	return NULL;
}

// the bytes that a thread uses with this call, or with none
static size_t used(const struct call *call)
{
	uint8_t *stack = aligned_alloc(4096, STACK);
	pthread_attr_t attributes;
	pthread_t thread;
	memset(stack, PAINT, STACK);
	pthread_attr_init(&attributes);
	if (pthread_attr_setstack(&attributes, stack, STACK) || pthread_create(&thread, &attributes, run, (void *)call) || pthread_join(thread, NULL))
		exit(1);
	size_t kept = 0;
	while (kept < STACK && stack[kept] == PAINT)
		kept++;
	free(stack);
	return STACK - kept;
}

int main(void)
{
	fill_payload(payload, patterned_byte);
	g9751_i4_encode(payload, sizeof payload, frame, sizeof frame);
	memcpy(block, frame, sizeof frame);
	// nine bits of inner word 0 in nine outer words, and eight of inner word 1: both passes have words to correct
	invert_apart(block, RADIUS + 1, 0, 12800);
	invert_apart(block, RADIUS, 1, INNER);
	g709_encode(payload, sizeof payload, g709_frame, sizeof g709_frame);
	memcpy(g709_block, g709_frame, sizeof g709_frame);
	change_words(g709_block, FRAME_WORDS, RADIUS);
	size_t thread = used(NULL);
	for (int k = 0; k < CALLS; k++) {
		size_t bytes = used(&calls[k]) - thread;
		printf("stack of %s: %zu bytes, answer %d\n", calls[k].name, bytes, number);
	}
	return 0;
}

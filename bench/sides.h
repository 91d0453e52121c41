// What the programs of bench/ on frames of both families share: a frame and the block that becomes of it, and what each side makes of that. Payloads and the numbers
// of refusals are those of tests/c.
#pragma once
#include <string.h>
#include "payloads.h"
#include "refusals.h"
#include "turns.h"

enum { UNTOUCHED = 0xa5 };

// One payload and its frame, the block that became of it, and what each side has written.
static uint8_t payload[PAYLOAD], frame[FRAME], block[FRAME], ours_out[FRAME], peers_out[FRAME];

static inline void clear_outputs(void)
{
	memset(ours_out, UNTOUCHED, FRAME);
	memset(peers_out, UNTOUCHED, FRAME);
}

// Buffers of exactly the length that an entry is told, and what must hold after a call: the answer, what is written, and what keeps its value. A tool that
// watches memory, or the pages around the buffers, would see a read or write outside of them.
//
//     PROGRAM          buffers from malloc, for valgrind and the sanitizers
//     PROGRAM pages    buffers that end where a page ends, and then that start where one starts, with no access beyond; input pages cannot be written
#pragma once
#include <string.h>
#include <sys/mman.h>
#include "random.h"
#include "refusals.h"

enum { PAGE = 4096, MOST = 6 * PAGE };

static int pages, at_the_start;
static unsigned calls;

static inline void expect(int condition, const char *what, size_t a, size_t b)
{
	require(condition, "%s, lengths %zu and %zu", what, a, b);
}

// n bytes that are lent, where they stand, and what input was made of
struct lent {
	uint8_t *bytes, *area;
	size_t n;
	const void *content;
	size_t taken;
};

// n bytes with nothing around them; null for none
static inline struct lent lend(size_t n)
{
	struct lent b = { .n = n };
	if (n == 0)
		return b;
	if (!pages) {
		b.bytes = b.area = malloc(n);
		expect(b.bytes != NULL, "no memory", n, 0);
		return b;
	}
	b.area = mmap(NULL, MOST + 2 * PAGE, PROT_NONE, MAP_PRIVATE | MAP_ANONYMOUS, -1, 0);
	expect(b.area != MAP_FAILED && n <= MOST, "no memory", n, 0);
	size_t used = (n + PAGE - 1) / PAGE * PAGE;
	expect(mprotect(b.area + PAGE, used, PROT_READ | PROT_WRITE) == 0, "no pages", n, 0);
	b.bytes = b.area + PAGE + (at_the_start ? 0 : used - n);
	return b;
}

static inline void give_back(struct lent b)
{
	if (b.n > 0 && pages)
		munmap(b.area, MOST + 2 * PAGE);
	else
		free(b.area);
}

// input: the content, or as much of it as there is place for, and zeros after it; where buffers are pages, they cannot be written any more
static inline struct lent lend_input(const void *content, size_t size, size_t n)
{
	struct lent b = lend(n);
	b.content = content;
	b.taken = size < n ? size : n;
	if (n > 0) {
		memset(b.bytes, 0, n);
		memcpy(b.bytes, content, b.taken);
	}
	if (n > 0 && pages)
		mprotect(b.area + PAGE, (n + PAGE - 1) / PAGE * PAGE, PROT_READ);
	return b;
}

static inline struct lent lend_output(size_t n)
{
	struct lent b = lend(n);
	if (n > 0)
		memset(b.bytes, 9, n);
	return b;
}

static inline int kept(struct lent b)
{
	for (size_t i = b.taken; i < b.n; i++)
		if (b.bytes[i] != 0)
			return 0;
	return b.n == 0 || memcmp(b.bytes, b.content, b.taken) == 0;
}

static inline int untouched(struct lent b)
{
	for (size_t i = 0; i < b.n; i++)
		if (b.bytes[i] != 9)
			return 0;
	return 1;
}

// The answer is 0 or the first refusal that applies to so many elements of input, to the space and to the content; the input is as it was, a refusal wrote
// nothing, and an answer is in the buffer. An element has so many bytes.
static inline void finish(struct lent in, struct lent out, size_t element, const struct entry *entry, enum content content, int number, const void *answer)
{
	expect(number == first_refusal(entry, in.n / element, out.n / element, content) && kept(in), entry->name, in.n, out.n);
	if (number == 0)
		expect(!answer || memcmp(out.bytes, answer, out.n) == 0, entry->name, in.n, out.n);
	else
		expect(untouched(out), entry->name, in.n, out.n);
	give_back(in);
	give_back(out);
	calls++;
}

// all calls of a program, on the buffers that its argument names
static inline int call_all(const char *program, int argc, char **argv, void (*all)(void))
{
	pages = argc > 1 && strcmp(argv[1], "pages") == 0;
	for (at_the_start = 0; at_the_start <= pages; at_the_start++)
		all();
	printf("%s: %u calls on buffers from %s as expected\n", program, calls, pages ? "pages" : "malloc");
	return 0;
}

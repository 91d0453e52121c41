// What the programs of bench/ that time calls share: the clock, and medians and other percentiles of times.
#pragma once
#include <stdlib.h>
#include <time.h>

static inline double now(void)
{
	struct timespec t;
	clock_gettime(CLOCK_MONOTONIC, &t);
	return t.tv_sec * 1e9 + t.tv_nsec;
}

static inline int by_size(const void *a, const void *b)
{
	double x = *(const double *)a, y = *(const double *)b;
	return (x > y) - (x < y);
}

// the time that so many of a hundred rounds did not exceed; sorts the times
static inline double percentile(double *times, int rounds, int percent)
{
	qsort(times, rounds, sizeof(double), by_size);
	return times[rounds * percent / 100];
}

static inline double median(double *times, int rounds)
{
	return percentile(times, rounds, 50);
}

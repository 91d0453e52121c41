// What the kernel's lib/bch.c uses of the kernel, for a program in user space.
#pragma once
#include <arpa/inet.h>
#include <stdbool.h>
#include <stdint.h>
#include <stdlib.h>
#include <string.h>

typedef uint8_t u8;
typedef uint32_t u32;

#define ARRAY_SIZE(a) (sizeof(a) / sizeof((a)[0]))
#define DIV_ROUND_UP(n, d) (((n) + (d) - 1) / (d))
#define EINVAL 22
#define EBADMSG 74
#define GFP_KERNEL 0
#define kmalloc(size, flags) malloc(size)
#define kzalloc(size, flags) calloc(1, size)
#define kfree free
#define WARN_ON(condition) (condition)
#define printk(...)
#define EXPORT_SYMBOL_GPL(name)
#define MODULE_LICENSE(text)
#define MODULE_AUTHOR(text)
#define MODULE_DESCRIPTION(text)
#define cpu_to_be32 htonl
#define be32_to_cpu ntohl

static inline int fls(unsigned int x)
{
	return x ? 32 - __builtin_clz(x) : 0;
}

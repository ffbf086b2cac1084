// The border between the proved library and the page. A call's numbers, addresses and lengths are 64-bit words in memory, and so is what it gives
// back: a function takes nothing and returns at most 32 bits, so that the browser needs no 64-bit integers. calls.js lays the words and the bytes out.

#include "sundewfrill.h"

typedef unsigned int u32;

_Static_assert(sizeof(u64) == 8 && sizeof(u8 *) == 8, "the module was laid out for pointers of 8 bytes");

// What a call is given, in its order; and what it gives: the refusal, then its numbers in their order.
static u64 given[12];
static u64 told[6];
extern u8 __heap_base;

#define EXPORT(name) __attribute__((visibility("default"))) name

u32 EXPORT(given_at)(void) { return (u32)(u64)given; }
u32 EXPORT(told_at)(void) { return (u32)(u64)told; }
// Where the bytes that are lent may stand: from here to the memory's end.
u32 EXPORT(lent_at)(void) { return (u32)(u64)&__heap_base; }

static u8 *bytes(u32 word) { return (u8 *)given[word]; }

void EXPORT(find)(void) { told[0] = sundewfrill_find(bytes(0), given[1], given[2], given[3], given[4], &told[1], &told[2], &told[3]); }

void EXPORT(replace)(void) {
    told[0] = sundewfrill_replace(bytes(0), given[1], bytes(2), given[3], bytes(4), given[5], given[6], given[7], given[8], &told[1]);
}

void EXPORT(check)(void) { told[0] = sundewfrill_check(bytes(0), given[1], &told[1], &told[2], &told[3], &told[4], &told[5]); }

void EXPORT(convert)(void) {
    told[0] = sundewfrill_convert(bytes(0), given[1], bytes(2), given[3], bytes(4), given[5], bytes(6), given[7], given[8], given[9], given[10],
                                  given[11], &told[1], &told[2]);
}

void EXPORT(ceiling)(void) { told[0] = sundewfrill_ceiling(bytes(0), given[1], bytes(2), given[3], given[4], given[5], given[6], &told[1]); }

void EXPORT(typed_date)(void) { told[0] = sundewfrill_typed_date(bytes(0), given[1], bytes(2), given[3], &told[1], &told[2]); }

void EXPORT(algebra)(void) { told[0] = sundewfrill_algebra(bytes(0), given[1], bytes(2), given[3], &told[1]); }

// What the compiler calls by these names. Eight bytes at a time: clearing 53 KB for each conversion byte by byte takes five times as long.
typedef u64 __attribute__((aligned(1), may_alias)) word;

void *memset(void *at, int value, u64 length) {
    u8 *to = at;
    u64 all = (u8)value * 0x0101010101010101u;
    for (; length >= 8; length -= 8, to += 8) *(word *)to = all;
    for (; length > 0; length--) *to++ = (u8)value;
    return at;
}

void *memcpy(void *at, const void *source, u64 length) {
    u8 *to = at;
    const u8 *from = source;
    for (; length >= 8; length -= 8, to += 8, from += 8) *(word *)to = *(const word *)from;
    for (; length > 0; length--) *to++ = *from++;
    return at;
}

void *memmove(void *at, const void *source, u64 length) {
    u8 *to = at;
    const u8 *from = source;
    // the part behind is copied first where it would be overwritten; the addresses are of one memory, so their difference tells
    if ((u64)to - (u64)from >= length) return memcpy(at, source, length);
    for (; length % 8 > 0; length--) to[length - 1] = from[length - 1];
    for (; length > 0; length -= 8) *(word *)(to + length - 8) = *(const word *)(from + length - 8);
    return at;
}

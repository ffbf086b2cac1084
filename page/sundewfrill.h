// The seven calls of the proved library, as host/src/ffi.rs has them: a slice is an address and a length.
#pragma once

typedef unsigned char u8;
typedef unsigned long u64;

u64 sundewfrill_find(const u8 *, u64, u64, u64, u64, u64 *, u64 *, u64 *);
u64 sundewfrill_replace(const u8 *, u64, const u8 *, u64, u8 *, u64, u64, u64, u64, u64 *);
u64 sundewfrill_check(const u8 *, u64, u64 *, u64 *, u64 *, u64 *, u64 *);
u64 sundewfrill_convert(const u8 *, u64, const u8 *, u64, u8 *, u64, u8 *, u64, u64, u64, u64, u64, u64 *, u64 *);
u64 sundewfrill_ceiling(const u8 *, u64, const u8 *, u64, u64, u64, u64, u64 *);
u64 sundewfrill_typed_date(const u8 *, u64, const u8 *, u64, u64 *, u64 *);
u64 sundewfrill_algebra(const u8 *, u64, u8 *, u64, u64 *);

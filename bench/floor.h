/* The floor's functions. Their arguments are those of the library's: see include/yugerzat_list.h. */
#ifndef FLOOR_H
#define FLOOR_H

#include <stddef.h>
#include <stdint.h>

#define READS(name) \
    uint32_t floor_##name(const uint8_t *src, size_t len, size_t at, uint64_t *restrict info, size_t infos)
#define COPIES(name)                                                                                          \
    uint32_t floor_copy_##name(const uint8_t *src, size_t len, size_t at, uint8_t *restrict out, size_t room, \
        uint64_t *restrict info, size_t infos)
#define WRITES(name)                                                                                                \
    uint32_t floor_write_##name(const uint64_t *f, size_t fields, uint8_t *restrict out, size_t room, size_t start, \
        uint64_t *restrict info, size_t infos)
#define WRITES_FROM_TWO(name)                                                                                        \
    uint32_t floor_write_##name(const uint8_t *src, size_t len, const uint8_t *src2, size_t len2, const uint64_t *f, \
        size_t fields, uint8_t *restrict out, size_t room, size_t start, uint64_t *restrict info, size_t infos)

/* Each kind that the floor has, and its number. */
/* clang-format off */
#define EACH_KIND(with)  \
    with(opaque, 6)      \
    with(auth_unix, 18)  \
    with(rpc_msg, 20)    \
    with(fattr3, 31)     \
    with(sattr3, 44)     \
    with(diropargs3, 45) \
    with(read3res, 56)   \
    with(write3args, 57) \
    with(exports, 70)
/* clang-format on */

#define DECLARE(name, number) \
    READS(judge_##name);      \
    COPIES(name);
EACH_KIND(DECLARE)
#undef DECLARE

READS(read_rpc_msg);
READS(read_fattr3);
READS(read_sattr3);
READS(read_diropargs3);
READS(read_exports);
READS(next_export);
READS(next_group);
uint32_t floor_read_auth_unix(
    const uint8_t *src, size_t len, size_t at, size_t count, uint64_t *restrict info, size_t infos);

WRITES(fattr3);
WRITES(sattr3);
WRITES_FROM_TWO(diropargs3);
WRITES_FROM_TWO(call);
uint32_t floor_write_exports(const uint8_t *src, size_t len, size_t place, size_t count, uint8_t *restrict out,
    size_t room, size_t start, uint64_t *restrict info, size_t infos);

/* By the number of a kind. */
uint32_t floor_judge(uint32_t kind, const uint8_t *src, size_t len, size_t at, uint64_t *restrict info, size_t infos);
uint32_t floor_rewrite(uint32_t kind, const uint8_t *src, size_t len, size_t at, uint8_t *restrict out, size_t room,
    uint64_t *restrict info, size_t infos);

#endif

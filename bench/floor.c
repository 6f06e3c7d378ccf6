/* The floor: judging and rewriting by the number of a kind. */
#include "floor_items.h"

uint32_t floor_judge(uint32_t kind, const uint8_t *src, size_t len, size_t at, uint64_t *restrict info, size_t infos)
{
    switch (kind) {
#define CASE(name, number) \
    case number: return floor_judge_##name(src, len, at, info, infos);
        EACH_KIND(CASE)
#undef CASE
    default: return UNKNOWN_KIND;
    }
}

uint32_t floor_rewrite(uint32_t kind, const uint8_t *src, size_t len, size_t at, uint8_t *restrict out, size_t room,
    uint64_t *restrict info, size_t infos)
{
    switch (kind) {
#define CASE(name, number) \
    case number: return floor_copy_##name(src, len, at, out, room, info, infos);
        EACH_KIND(CASE)
#undef CASE
    default: return UNKNOWN_KIND;
    }
}

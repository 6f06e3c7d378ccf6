/* Marks for callgrind: from count_begin on instructions are counted, and count_end writes them down under a name. They
 * do nothing where no valgrind runs the program. */
#include <valgrind/callgrind.h>

void count_begin(void)
{
    CALLGRIND_ZERO_STATS;
}

void count_end(const char *name)
{
    CALLGRIND_DUMP_STATS_AT(name);
}

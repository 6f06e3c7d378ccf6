/* libnfs's zdr routines, as its own client uses them: where a pointer is null, bytes and strings are handed over in place
 * if they can be. It has no routine for the auth_unix inside a credential. */
#include <stdint.h>
#include <sys/types.h>
#include <nfsc/libnfs-zdr.h>
#include <nfsc/libnfs.h>
#include <nfsc/libnfs-raw.h>
#include <nfsc/libnfs-raw-nfs.h>
#include <nfsc/libnfs-raw-mount.h>

#include "values.h"

/* So many values are held, to be written in turn. Readers fill one more. */
enum { HELD = 512, SPARE = HELD };

static struct rpc_context *context;
static struct rpc_msg calls[HELD + 1];
static fattr3 attributes[HELD + 1];
static sattr3 changes[HELD + 1];
static diropargs3 places[HELD + 1];
static READ3res read_results[1];
static WRITE3args write_arguments[1];
static exports lists[1];
static ZDR list_reading;
static char *bytes_at[1];
static uint32_t bytes_count;

void libnfs_begin(void)
{
    context = rpc_init_context();
}

static bool_t zdr_call(ZDR *z, struct rpc_msg *m)
{
    return zdr_callmsg(context, z, m);
}

static bool_t zdr_whole(ZDR *z, char **at)
{
    return zdr_bytes(z, at, &bytes_count, 1u << 20);
}

/* What makes a value ready to be decoded: that its pointers are null. */

static inline void forget_rpc_msg(struct rpc_msg *v)
{
    v->body.cbody.cred.oa_base = v->body.cbody.verf.oa_base = NULL;
}

static inline void forget_diropargs3(diropargs3 *v)
{
    v->dir.data.data_val = v->name = NULL;
}

static inline void forget_read3res(READ3res *v)
{
    v->READ3res_u.resok.data.data_val = NULL;
}

static inline void forget_write3args(WRITE3args *v)
{
    v->file.data.data_val = v->data.data_val = NULL;
}

static inline void forget_opaque(char **v)
{
    *v = NULL;
}

static inline void forget_exports(exports *v)
{
    *v = NULL;
}

#define forget_fattr3(v) (void)(v)
#define forget_sattr3(v) (void)(v)

/* Reads into the value that is not held, or writes that one again. What was decoded may lie in memory that zdr_destroy
 * frees, so a copy encodes before that. */
#define READS_AND_COPIES(kind, routine, values, spare)                                                     \
    static inline uint32_t libnfs_take_##kind(ZDR *z, size_t which, const uint8_t *src, size_t len)        \
    {                                                                                                      \
        forget_##kind(values + which);                                                                     \
        zdrmem_create(z, (char *)src, (uint32_t)len, ZDR_DECODE);                                          \
        return routine(z, values + which) ? zdr_getpos(z) : 0;                                             \
    }                                                                                                      \
    static inline uint32_t libnfs_lay_##kind(size_t which, uint8_t *out, size_t room)                      \
    {                                                                                                      \
        ZDR z;                                                                                             \
        zdrmem_create(&z, (char *)out, (uint32_t)room, ZDR_ENCODE);                                        \
        uint32_t used = routine(&z, values + which) ? zdr_getpos(&z) : 0;                                  \
        zdr_destroy(&z);                                                                                   \
        return used;                                                                                       \
    }                                                                                                      \
    uint32_t libnfs_read_##kind(const uint8_t *src, size_t len)                                            \
    {                                                                                                      \
        ZDR z;                                                                                             \
        uint32_t used = libnfs_take_##kind(&z, spare, src, len);                                           \
        zdr_destroy(&z);                                                                                   \
        return used;                                                                                       \
    }                                                                                                      \
    uint32_t libnfs_copy_##kind(const uint8_t *src, size_t len, uint8_t *out, size_t room)                 \
    {                                                                                                      \
        ZDR z;                                                                                             \
        uint32_t used = libnfs_take_##kind(&z, spare, src, len) ? libnfs_lay_##kind(spare, out, room) : 0; \
        zdr_destroy(&z);                                                                                   \
        return used;                                                                                       \
    }

/* Holds a value, with what its decoding allocated, until another takes its place; and writes one that is held. */
#define HOLDS_AND_WRITES(kind)                                                \
    uint32_t libnfs_hold_##kind(size_t which, const uint8_t *src, size_t len) \
    {                                                                         \
        static ZDR readings[HELD];                                            \
        zdr_destroy(readings + which);                                        \
        return libnfs_take_##kind(readings + which, which, src, len);         \
    }                                                                         \
    uint32_t libnfs_write_##kind(size_t which, uint8_t *out, size_t room)     \
    {                                                                         \
        return libnfs_lay_##kind(which, out, room);                           \
    }

READS_AND_COPIES(rpc_msg, zdr_call, calls, SPARE)
READS_AND_COPIES(fattr3, zdr_fattr3, attributes, SPARE)
READS_AND_COPIES(sattr3, zdr_sattr3, changes, SPARE)
READS_AND_COPIES(diropargs3, zdr_diropargs3, places, SPARE)
READS_AND_COPIES(opaque, zdr_whole, bytes_at, 0)
READS_AND_COPIES(read3res, zdr_READ3res, read_results, 0)
READS_AND_COPIES(write3args, zdr_WRITE3args, write_arguments, 0)
READS_AND_COPIES(exports, zdr_exports, lists, 0)
HOLDS_AND_WRITES(rpc_msg)
HOLDS_AND_WRITES(fattr3)
HOLDS_AND_WRITES(sattr3)
HOLDS_AND_WRITES(diropargs3)

/* What libnfs_write_exports writes, until another list is decoded. */
uint32_t libnfs_hold_exports(const uint8_t *src, size_t len)
{
    zdr_destroy(&list_reading);
    return libnfs_take_exports(&list_reading, 0, src, len);
}

uint32_t libnfs_write_exports(uint8_t *out, size_t room)
{
    return libnfs_lay_exports(0, out, room);
}

/* How many entries and names there are. */
uint32_t libnfs_walk_exports(const uint8_t *src, size_t len)
{
    ZDR z;
    uint32_t count = libnfs_take_exports(&z, 0, src, len) ? walked(*lists) : 0;
    zdr_destroy(&z);
    return count;
}

/* Encodes a value of values.h. */
#define MAKE(kind, type)                                                   \
    uint32_t libnfs_make_##kind(uint32_t which, uint8_t *out, size_t room) \
    {                                                                      \
        ZDR z;                                                             \
        type value = a_##kind(which);                                      \
        zdrmem_create(&z, (char *)out, (uint32_t)room, ZDR_ENCODE);        \
        uint32_t used = zdr_##type(&z, &value) ? zdr_getpos(&z) : 0;       \
        zdr_destroy(&z);                                                   \
        return used;                                                       \
    }

EACH_KIND(MAKE)

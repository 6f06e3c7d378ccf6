/* libtirpc as its users have it: its own routine for a call's header, and what rpcgen makes of nfs3.x for the rest. It
 * decodes into structs whose pointers already lead to room, so that nothing is allocated, but for export lists. */
#include <stdint.h>
#include <rpc/rpc.h>
#include <rpc/rpc_msg.h>
#include <rpc/auth_unix.h>

#include "nfs3.h"
#include "values.h"

/* So many values are held, to be written in turn. Readers fill one more. */
enum { HELD = 512, SPARE = HELD };

static struct rpc_msg calls[HELD + 1];
static fattr3 attributes[HELD + 1];
static sattr3 changes[HELD + 1];
static diropargs3 places[HELD + 1];
static struct authunix_parms unix_parms[1];
static READ3res read_results[1];
static WRITE3args write_arguments[1];
static char *bytes_at[1];
static u_int bytes_count;

void tirpc_begin(char *room)
{
    static char handles[HELD + 1][64], names[HELD + 1][256], creds[HELD + 1][MAX_AUTH_BYTES],
        verfs[HELD + 1][MAX_AUTH_BYTES], file[64], machine[256];
    static gid_t gids[NGRPS];
    for (int n = 0; n <= HELD; n++) {
        calls[n].rm_call.cb_cred.oa_base = creds[n];
        calls[n].rm_call.cb_verf.oa_base = verfs[n];
        places[n].dir.data.data_val = handles[n];
        places[n].name = names[n];
    }
    unix_parms->aup_machname = machine;
    unix_parms->aup_gids = gids;
    *bytes_at = room;
    read_results->READ3res_u.resok.data.data_val = room;
    write_arguments->file.data.data_val = file;
    write_arguments->data.data_val = room;
}

static bool_t xdr_parms(XDR *x, struct authunix_parms *p)
{
    return xdr_authunix_parms(x, p);
}

static bool_t xdr_whole(XDR *x, char **at)
{
    return xdr_bytes(x, at, &bytes_count, 1u << 20);
}

/* Reads into the value that is not held, or writes that one again. */
#define READS_AND_COPIES(kind, routine, values, spare)                                      \
    static inline uint32_t tirpc_take_##kind(size_t which, const uint8_t *src, size_t len)  \
    {                                                                                       \
        XDR x;                                                                              \
        xdrmem_create(&x, (char *)src, (u_int)len, XDR_DECODE);                             \
        return routine(&x, values + which) ? xdr_getpos(&x) : 0;                            \
    }                                                                                       \
    static inline uint32_t tirpc_lay_##kind(size_t which, uint8_t *out, size_t room)        \
    {                                                                                       \
        XDR x;                                                                              \
        xdrmem_create(&x, (char *)out, (u_int)room, XDR_ENCODE);                            \
        return routine(&x, values + which) ? xdr_getpos(&x) : 0;                            \
    }                                                                                       \
    uint32_t tirpc_read_##kind(const uint8_t *src, size_t len)                              \
    {                                                                                       \
        return tirpc_take_##kind(spare, src, len);                                          \
    }                                                                                       \
    uint32_t tirpc_copy_##kind(const uint8_t *src, size_t len, uint8_t *out, size_t room)   \
    {                                                                                       \
        return tirpc_take_##kind(spare, src, len) ? tirpc_lay_##kind(spare, out, room) : 0; \
    }

/* Holds a value, and writes one that is held. */
#define HOLDS_AND_WRITES(kind)                                               \
    uint32_t tirpc_hold_##kind(size_t which, const uint8_t *src, size_t len) \
    {                                                                        \
        return tirpc_take_##kind(which, src, len);                           \
    }                                                                        \
    uint32_t tirpc_write_##kind(size_t which, uint8_t *out, size_t room)     \
    {                                                                        \
        return tirpc_lay_##kind(which, out, room);                           \
    }

READS_AND_COPIES(rpc_msg, xdr_callmsg, calls, SPARE)
READS_AND_COPIES(fattr3, xdr_fattr3, attributes, SPARE)
READS_AND_COPIES(sattr3, xdr_sattr3, changes, SPARE)
READS_AND_COPIES(diropargs3, xdr_diropargs3, places, SPARE)
READS_AND_COPIES(auth_unix, xdr_parms, unix_parms, 0)
READS_AND_COPIES(opaque, xdr_whole, bytes_at, 0)
READS_AND_COPIES(read3res, xdr_READ3res, read_results, 0)
READS_AND_COPIES(write3args, xdr_WRITE3args, write_arguments, 0)
HOLDS_AND_WRITES(rpc_msg)
HOLDS_AND_WRITES(fattr3)
HOLDS_AND_WRITES(sattr3)
HOLDS_AND_WRITES(diropargs3)

/* The header, then the credential that lies in it. */
uint32_t tirpc_read_call_and_auth_unix(const uint8_t *src, size_t len)
{
    uint32_t used = tirpc_read_rpc_msg(src, len);
    const struct opaque_auth *cred = &calls[SPARE].rm_call.cb_cred;
    if (!used || cred->oa_flavor != AUTH_UNIX)
        return 0;
    return tirpc_read_auth_unix((const uint8_t *)cred->oa_base, cred->oa_length) ? used : 0;
}

/* An export list is allocated entry by entry, and freed when it was used. The routines call themselves for each entry. */
static exports list;

static uint32_t decoded(const uint8_t *src, size_t len, exports *value)
{
    XDR x;
    *value = NULL;
    xdrmem_create(&x, (char *)src, (u_int)len, XDR_DECODE);
    return xdr_exports(&x, value) ? xdr_getpos(&x) : 0;
}

static uint32_t encoded(uint8_t *out, size_t room, exports *value)
{
    XDR x;
    xdrmem_create(&x, (char *)out, (u_int)room, XDR_ENCODE);
    return xdr_exports(&x, value) ? xdr_getpos(&x) : 0;
}

static void freed(exports *value)
{
    xdr_free((xdrproc_t)xdr_exports, value);
}

uint32_t tirpc_read_exports(const uint8_t *src, size_t len)
{
    exports value;
    uint32_t used = decoded(src, len, &value);
    freed(&value);
    return used;
}

uint32_t tirpc_copy_exports(const uint8_t *src, size_t len, uint8_t *out, size_t room)
{
    exports value;
    uint32_t used = decoded(src, len, &value) ? encoded(out, room, &value) : 0;
    freed(&value);
    return used;
}

/* What tirpc_write_exports writes. */
uint32_t tirpc_hold_exports(const uint8_t *src, size_t len)
{
    freed(&list);
    return decoded(src, len, &list);
}

uint32_t tirpc_write_exports(uint8_t *out, size_t room)
{
    return encoded(out, room, &list);
}

/* How many entries and names there are. */
uint32_t tirpc_walk_exports(const uint8_t *src, size_t len)
{
    exports value;
    uint32_t count = 0;
    if (decoded(src, len, &value))
        count = walked(value);
    freed(&value);
    return count;
}

static uintptr_t deepest;
static bool_t (*get_long)(XDR *, long *);

static bool_t get_long_from_here(XDR *x, long *v)
{
    uintptr_t here = (uintptr_t)__builtin_frame_address(0);
    if (here < deepest)
        deepest = here;
    return get_long(x, v);
}

/* How many bytes of stack it takes to decode an export list, or 0 where it is none. */
size_t tirpc_stack(const uint8_t *src, size_t len)
{
    XDR x;
    exports value = NULL;
    uintptr_t here = (uintptr_t)__builtin_frame_address(0);
    xdrmem_create(&x, (char *)src, (u_int)len, XDR_DECODE);
    struct xdr_ops ops = *x.x_ops;
    get_long = ops.x_getlong;
    ops.x_getlong = get_long_from_here;
    x.x_ops = &ops;
    deepest = here;
    size_t size = xdr_exports(&x, &value) ? here - deepest : 0;
    freed(&value);
    return size;
}

/* Encodes a value of values.h. */
#define MAKE(kind, type)                                                  \
    uint32_t tirpc_make_##kind(uint32_t which, uint8_t *out, size_t room) \
    {                                                                     \
        XDR x;                                                            \
        type value = a_##kind(which);                                     \
        xdrmem_create(&x, (char *)out, (u_int)room, XDR_ENCODE);          \
        return xdr_##type(&x, &value) ? xdr_getpos(&x) : 0;               \
    }

EACH_KIND(MAKE)

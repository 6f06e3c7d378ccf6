/* Arguments and results of GETATTR, SETATTR, LOOKUP, READ and WRITE, and results of EXPORT, for the peers to encode. The
 * structs that rpcgen makes and those of libnfs have the RFC's names, so one text fills both; it is included behind their
 * declarations. */
#include <string.h>

/* Which value: the sum of some of these, and of FAILURE times the place of a failure in the RFC's list. */
enum { FAILED = 1, FULL = 2, ODD = 4, FAILURE = 8 };

/* Each kind by the name of kinds.txt, and its type. */
/* clang-format off */
#define EACH_KIND(with)              \
    with(stable_how, stable_how)     \
    with(sattrguard3, sattrguard3)   \
    with(getattr3args, GETATTR3args) \
    with(getattr3res, GETATTR3res)   \
    with(setattr3args, SETATTR3args) \
    with(setattr3res, SETATTR3res)   \
    with(lookup3args, LOOKUP3args)   \
    with(lookup3res, LOOKUP3res)     \
    with(read3args, READ3args)       \
    with(read3res, READ3res)         \
    with(write3args, WRITE3args)     \
    with(write3res, WRITE3res)       \
    with(exports, exports)
/* clang-format on */

/* 64, as many as a handle may have. None is zero, so that padding shows behind them. */
static char some_bytes[] = "0123456789ABCDEF0123456789abcdef0123456789GHIJKL0123456789ghijkl";

static nfsstat3 a_status(uint32_t which)
{
    static const nfsstat3 failures[] = {NFS3ERR_PERM, NFS3ERR_NOENT, NFS3ERR_IO, NFS3ERR_NXIO, NFS3ERR_ACCES,
        NFS3ERR_EXIST, NFS3ERR_XDEV, NFS3ERR_NODEV, NFS3ERR_NOTDIR, NFS3ERR_ISDIR, NFS3ERR_INVAL, NFS3ERR_FBIG,
        NFS3ERR_NOSPC, NFS3ERR_ROFS, NFS3ERR_MLINK, NFS3ERR_NAMETOOLONG, NFS3ERR_NOTEMPTY, NFS3ERR_DQUOT, NFS3ERR_STALE,
        NFS3ERR_REMOTE, NFS3ERR_BADHANDLE, NFS3ERR_NOT_SYNC, NFS3ERR_BAD_COOKIE, NFS3ERR_NOTSUPP, NFS3ERR_TOOSMALL,
        NFS3ERR_SERVERFAULT, NFS3ERR_BADTYPE, NFS3ERR_JUKEBOX};
    return which & FAILED ? failures[which / FAILURE % (sizeof failures / sizeof *failures)] : NFS3_OK;
}

static nfs_fh3 a_handle(uint32_t which)
{
    nfs_fh3 v;
    v.data.data_val = some_bytes;
    v.data.data_len = which & ODD ? 29 : 64;
    return v;
}

static nfstime3 a_time(uint32_t seconds)
{
    nfstime3 v = {seconds, 999999999};
    return v;
}

static fattr3 some_attributes(void)
{
    fattr3 v;
    v.type = NF3FIFO;
    v.mode = 0644;
    v.nlink = 0xFFFFFFFF;
    v.uid = 1000;
    v.gid = 1001;
    v.size = 0x0102030405060708;
    v.used = 0xFFFFFFFFFFFFFFFF;
    v.rdev.specdata1 = 8;
    v.rdev.specdata2 = 1;
    v.fsid = 0x8000000000000000;
    v.fileid = 123456;
    v.atime = a_time(1);
    v.mtime = a_time(2);
    v.ctime = a_time(3);
    return v;
}

static post_op_attr attributes_after(uint32_t which)
{
    post_op_attr v;
    v.attributes_follow = which & FULL ? TRUE : FALSE;
    v.post_op_attr_u.attributes = some_attributes();
    return v;
}

/* With FULL and ODD only one of the two has attributes. */
static wcc_data a_change(uint32_t which)
{
    wcc_data v;
    v.before.attributes_follow = (which & (FULL | ODD)) == FULL ? TRUE : FALSE;
    v.before.pre_op_attr_u.attributes.size = 4096;
    v.before.pre_op_attr_u.attributes.mtime = a_time(4);
    v.before.pre_op_attr_u.attributes.ctime = a_time(5);
    v.after = attributes_after(which);
    return v;
}

static sattr3 new_attributes(uint32_t which)
{
    bool_t set = which & FULL ? TRUE : FALSE;
    time_how how = which & FULL ? SET_TO_CLIENT_TIME : which & ODD ? SET_TO_SERVER_TIME : DONT_CHANGE;
    sattr3 v;
    v.mode.set_it = set;
    v.mode.set_mode3_u.mode = 0755;
    v.uid.set_it = set;
    v.uid.set_uid3_u.uid = 1000;
    v.gid.set_it = set;
    v.gid.set_gid3_u.gid = 1001;
    v.size.set_it = set;
    v.size.set_size3_u.size = 0x0102030405060708;
    v.atime.set_it = how;
    v.atime.set_atime_u.atime = a_time(6);
    v.mtime.set_it = how;
    v.mtime.set_mtime_u.mtime = a_time(7);
    return v;
}

static stable_how a_stable_how(uint32_t which)
{
    return which & FULL ? FILE_SYNC : which & ODD ? DATA_SYNC : UNSTABLE;
}

static sattrguard3 a_sattrguard3(uint32_t which)
{
    sattrguard3 v;
    v.check = which & FULL ? TRUE : FALSE;
    v.sattrguard3_u.obj_ctime = a_time(8);
    return v;
}

static GETATTR3args a_getattr3args(uint32_t which)
{
    GETATTR3args v;
    v.object = a_handle(which);
    return v;
}

static GETATTR3res a_getattr3res(uint32_t which)
{
    GETATTR3res v;
    v.status = a_status(which);
    v.GETATTR3res_u.resok.obj_attributes = some_attributes();
    return v;
}

static SETATTR3args a_setattr3args(uint32_t which)
{
    SETATTR3args v;
    v.object = a_handle(which);
    v.new_attributes = new_attributes(which);
    v.guard = a_sattrguard3(which);
    return v;
}

static SETATTR3res a_setattr3res(uint32_t which)
{
    SETATTR3res v;
    v.status = a_status(which);
    if (which & FAILED)
        v.SETATTR3res_u.resfail.obj_wcc = a_change(which);
    else
        v.SETATTR3res_u.resok.obj_wcc = a_change(which);
    return v;
}

static LOOKUP3args a_lookup3args(uint32_t which)
{
    static char odd[] = "minutes-2026-11.txt", even[] = "minutes-2026.txt";
    LOOKUP3args v;
    v.what.dir = a_handle(which);
    v.what.name = which & ODD ? odd : even;
    return v;
}

static LOOKUP3res a_lookup3res(uint32_t which)
{
    LOOKUP3res v;
    v.status = a_status(which);
    if (which & FAILED) {
        v.LOOKUP3res_u.resfail.dir_attributes = attributes_after(which);
    } else {
        v.LOOKUP3res_u.resok.object = a_handle(which);
        v.LOOKUP3res_u.resok.obj_attributes = attributes_after(which);
        v.LOOKUP3res_u.resok.dir_attributes = attributes_after(which);
    }
    return v;
}

static READ3args a_read3args(uint32_t which)
{
    READ3args v;
    v.file = a_handle(which);
    v.offset = 0xFFFFFFFFFFFFFFFF;
    v.count = 65536;
    return v;
}

static READ3res a_read3res(uint32_t which)
{
    READ3res v;
    v.status = a_status(which);
    if (which & FAILED) {
        v.READ3res_u.resfail.file_attributes = attributes_after(which);
    } else {
        READ3resok *ok = &v.READ3res_u.resok;
        ok->file_attributes = attributes_after(which);
        ok->count = ok->data.data_len = which & ODD ? 5 : which & FULL ? 64 : 0;
        ok->eof = which & ODD ? FALSE : TRUE;
        ok->data.data_val = some_bytes;
    }
    return v;
}

static WRITE3args a_write3args(uint32_t which)
{
    WRITE3args v;
    v.file = a_handle(which);
    v.offset = 0x0102030405060708;
    v.count = v.data.data_len = which & ODD ? 5 : which & FULL ? 64 : 0;
    v.stable = a_stable_how(which);
    v.data.data_val = some_bytes;
    return v;
}

static WRITE3res a_write3res(uint32_t which)
{
    WRITE3res v;
    v.status = a_status(which);
    if (which & FAILED) {
        v.WRITE3res_u.resfail.file_wcc = a_change(which);
    } else {
        WRITE3resok *ok = &v.WRITE3res_u.resok;
        ok->file_wcc = a_change(which);
        ok->count = 65536;
        ok->committed = a_stable_how(which);
        memcpy(ok->verf, some_bytes, sizeof ok->verf);
    }
    return v;
}

/* None, one entry, or with FULL three; the first has no name behind its path, the next one, and the last two. */
static exports a_exports(uint32_t which)
{
    static exportnode entries[3];
    static groupnode names[3];
    uint32_t count = which & FAILED ? 0 : which & FULL ? 3 : 1, n;
    char *path = some_bytes + 64 - which / FAILURE;
    for (n = 0; n < 3; n++) {
        entries[n].ex_dir = n == 0 ? path : some_bytes + 64 - n;
        entries[n].ex_groups = n == 0 ? NULL : &names[n - 1];
        entries[n].ex_next = n + 1 < count ? &entries[n + 1] : NULL;
        names[n].gr_name = which & ODD ? some_bytes + 61 - n : some_bytes + 64;
        names[n].gr_next = n == 1 ? &names[2] : NULL;
    }
    return count > 0 ? entries : NULL;
}

/* How many entries and names an export list has. */
static uint32_t walked(exports list)
{
    uint32_t count = 0;
    for (; list; list = list->ex_next) {
        count++;
        for (groups names = list->ex_groups; names; names = names->gr_next)
            count++;
    }
    return count;
}

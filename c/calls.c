/*
 * Holds the structs and functions of include/yugerzat_nfs.h to three things: to the library, which judges and rewrites
 * the same messages; to the layouts of RFC 1813, which are written down here once more; and to the order of refusals.
 */
#define _DEFAULT_SOURCE /* mmap with MAP_ANONYMOUS */
#include <sys/mman.h>
#include <unistd.h>

#include "testing.h"

/* ---- one form for all */

static const enum yugerzat_kind kinds[] = {YUGERZAT_KIND_SATTRGUARD3, YUGERZAT_KIND_GETATTR3ARGS,
    YUGERZAT_KIND_GETATTR3RES, YUGERZAT_KIND_SETATTR3ARGS, YUGERZAT_KIND_SETATTR3RES, YUGERZAT_KIND_LOOKUP3ARGS,
    YUGERZAT_KIND_LOOKUP3RES, YUGERZAT_KIND_READ3ARGS, YUGERZAT_KIND_READ3RES, YUGERZAT_KIND_WRITE3ARGS,
    YUGERZAT_KIND_WRITE3RES};

#define COUNT(list) (sizeof(list) / sizeof *(list))

/* Where a struct of any kind stands. */
union value {
    struct yugerzat_sattrguard3 sattrguard3;
    struct yugerzat_getattr3args getattr3args;
    struct yugerzat_getattr3res getattr3res;
    struct yugerzat_setattr3args setattr3args;
    struct yugerzat_setattr3res setattr3res;
    struct yugerzat_lookup3args lookup3args;
    struct yugerzat_lookup3res lookup3res;
    struct yugerzat_read3args read3args;
    struct yugerzat_read3res read3res;
    struct yugerzat_write3args write3args;
    struct yugerzat_write3res write3res;
    enum yugerzat_nfsstat3 status; /* all results begin with it */
};

static bool is_result(enum yugerzat_kind kind)
{
    return kind == YUGERZAT_KIND_GETATTR3RES || kind == YUGERZAT_KIND_SETATTR3RES || kind == YUGERZAT_KIND_LOOKUP3RES ||
           kind == YUGERZAT_KIND_READ3RES || kind == YUGERZAT_KIND_WRITE3RES;
}

static enum yugerzat_answer get(enum yugerzat_kind kind, const uint8_t *src, size_t count, size_t at, union value *v,
    struct yugerzat_reading *reading)
{
    switch (kind) {
    case YUGERZAT_KIND_SATTRGUARD3: return yugerzat_get_sattrguard3(src, count, at, &v->sattrguard3, reading);
    case YUGERZAT_KIND_GETATTR3ARGS: return yugerzat_get_getattr3args(src, count, at, &v->getattr3args, reading);
    case YUGERZAT_KIND_GETATTR3RES: return yugerzat_get_getattr3res(src, count, at, &v->getattr3res, reading);
    case YUGERZAT_KIND_SETATTR3ARGS: return yugerzat_get_setattr3args(src, count, at, &v->setattr3args, reading);
    case YUGERZAT_KIND_SETATTR3RES: return yugerzat_get_setattr3res(src, count, at, &v->setattr3res, reading);
    case YUGERZAT_KIND_LOOKUP3ARGS: return yugerzat_get_lookup3args(src, count, at, &v->lookup3args, reading);
    case YUGERZAT_KIND_LOOKUP3RES: return yugerzat_get_lookup3res(src, count, at, &v->lookup3res, reading);
    case YUGERZAT_KIND_READ3ARGS: return yugerzat_get_read3args(src, count, at, &v->read3args, reading);
    case YUGERZAT_KIND_READ3RES: return yugerzat_get_read3res(src, count, at, &v->read3res, reading);
    case YUGERZAT_KIND_WRITE3ARGS: return yugerzat_get_write3args(src, count, at, &v->write3args, reading);
    default: return yugerzat_get_write3res(src, count, at, &v->write3res, reading);
    }
}

static enum yugerzat_answer put(enum yugerzat_kind kind, const union value *v, uint8_t *to, size_t room, size_t start,
    struct yugerzat_writing *writing)
{
    switch (kind) {
    case YUGERZAT_KIND_SATTRGUARD3: return yugerzat_put_sattrguard3(&v->sattrguard3, to, room, start, writing);
    case YUGERZAT_KIND_GETATTR3ARGS: return yugerzat_put_getattr3args(&v->getattr3args, to, room, start, writing);
    case YUGERZAT_KIND_GETATTR3RES: return yugerzat_put_getattr3res(&v->getattr3res, to, room, start, writing);
    case YUGERZAT_KIND_SETATTR3ARGS: return yugerzat_put_setattr3args(&v->setattr3args, to, room, start, writing);
    case YUGERZAT_KIND_SETATTR3RES: return yugerzat_put_setattr3res(&v->setattr3res, to, room, start, writing);
    case YUGERZAT_KIND_LOOKUP3ARGS: return yugerzat_put_lookup3args(&v->lookup3args, to, room, start, writing);
    case YUGERZAT_KIND_LOOKUP3RES: return yugerzat_put_lookup3res(&v->lookup3res, to, room, start, writing);
    case YUGERZAT_KIND_READ3ARGS: return yugerzat_put_read3args(&v->read3args, to, room, start, writing);
    case YUGERZAT_KIND_READ3RES: return yugerzat_put_read3res(&v->read3res, to, room, start, writing);
    case YUGERZAT_KIND_WRITE3ARGS: return yugerzat_put_write3args(&v->write3args, to, room, start, writing);
    default: return yugerzat_put_write3res(&v->write3res, to, room, start, writing);
    }
}

/* The size of a kind's struct, of which all is 0 where a reading is refused. */
static size_t size_of(enum yugerzat_kind kind)
{
    union value v;
    switch (kind) {
    case YUGERZAT_KIND_SATTRGUARD3: return sizeof v.sattrguard3;
    case YUGERZAT_KIND_GETATTR3ARGS: return sizeof v.getattr3args;
    case YUGERZAT_KIND_GETATTR3RES: return sizeof v.getattr3res;
    case YUGERZAT_KIND_SETATTR3ARGS: return sizeof v.setattr3args;
    case YUGERZAT_KIND_SETATTR3RES: return sizeof v.setattr3res;
    case YUGERZAT_KIND_LOOKUP3ARGS: return sizeof v.lookup3args;
    case YUGERZAT_KIND_LOOKUP3RES: return sizeof v.lookup3res;
    case YUGERZAT_KIND_READ3ARGS: return sizeof v.read3args;
    case YUGERZAT_KIND_READ3RES: return sizeof v.read3res;
    case YUGERZAT_KIND_WRITE3ARGS: return sizeof v.write3args;
    default: return sizeof v.write3res;
    }
}

/* The pieces of a value: 0 and 1. NULL where its kind has no more. */
static struct yugerzat_piece *piece_of(enum yugerzat_kind kind, union value *v, int which)
{
    struct yugerzat_piece *pieces[2] = {NULL, NULL};
    switch (kind) {
    case YUGERZAT_KIND_GETATTR3ARGS: pieces[0] = &v->getattr3args.object; break;
    case YUGERZAT_KIND_SETATTR3ARGS: pieces[0] = &v->setattr3args.object; break;
    case YUGERZAT_KIND_LOOKUP3ARGS:
        pieces[0] = &v->lookup3args.what.dir;
        pieces[1] = &v->lookup3args.what.name;
        break;
    case YUGERZAT_KIND_LOOKUP3RES: pieces[0] = &v->lookup3res.object; break;
    case YUGERZAT_KIND_READ3ARGS: pieces[0] = &v->read3args.file; break;
    case YUGERZAT_KIND_READ3RES: pieces[0] = &v->read3res.data; break;
    case YUGERZAT_KIND_WRITE3ARGS:
        pieces[0] = &v->write3args.file;
        pieces[1] = &v->write3args.data;
        break;
    default: break;
    }
    return which < 2 ? pieces[which] : NULL;
}

/* ---- the layouts of RFC 1813 */

/* What is laid. If `odd` says so, true flags are now and then another number, and padding is not zero: `loose` then. */
static struct bytes laid;
static bool odd, loose;

static void lay_word(uint32_t word)
{
    int shift;
    for (shift = 24; shift >= 0; shift -= 8)
        laid.at[laid.count++] = (uint8_t)(word >> shift);
}

static void lay_hyper(uint64_t hyper)
{
    lay_word((uint32_t)(hyper >> 32));
    lay_word((uint32_t)hyper);
}

static void lay_flag(bool flag)
{
    uint32_t other = (uint32_t)any_number();
    if (flag && odd && other > 1 && any_number() % 2) {
        loose = true;
        lay_word(any_number() % 2 ? other : other << 24 | 0x80000000);
    } else {
        lay_word(flag);
    }
}

static void lay_opaque(struct yugerzat_piece piece)
{
    size_t i;
    lay_word((uint32_t)piece.count);
    for (i = 0; i < piece.count; i++)
        laid.at[laid.count++] = piece.bytes[i];
    for (; i % 4; i++) {
        uint8_t pad = odd ? (uint8_t)(any_number() % 3) : 0;
        loose = loose || pad;
        laid.at[laid.count++] = pad;
    }
}

static void lay_time(struct yugerzat_nfstime3 moment)
{
    lay_word(moment.seconds);
    lay_word(moment.nseconds);
}

static void lay_fattr3(const struct yugerzat_fattr3 *v)
{
    lay_word(v->type);
    lay_word(v->mode);
    lay_word(v->nlink);
    lay_word(v->uid);
    lay_word(v->gid);
    lay_hyper(v->size);
    lay_hyper(v->used);
    lay_word(v->rdev.specdata1);
    lay_word(v->rdev.specdata2);
    lay_hyper(v->fsid);
    lay_hyper(v->fileid);
    lay_time(v->atime);
    lay_time(v->mtime);
    lay_time(v->ctime);
}

static void lay_optional_word(bool set, uint32_t word)
{
    lay_flag(set);
    if (set)
        lay_word(word);
}

static void lay_set_time(enum yugerzat_time_how how, struct yugerzat_nfstime3 moment)
{
    lay_word(how);
    if (how == YUGERZAT_SET_TO_CLIENT_TIME)
        lay_time(moment);
}

static void lay_sattr3(const struct yugerzat_sattr3 *v)
{
    lay_optional_word(v->set_mode, v->mode);
    lay_optional_word(v->set_uid, v->uid);
    lay_optional_word(v->set_gid, v->gid);
    lay_flag(v->set_size);
    if (v->set_size)
        lay_hyper(v->size);
    lay_set_time(v->set_atime, v->atime);
    lay_set_time(v->set_mtime, v->mtime);
}

static void lay_guard(const struct yugerzat_sattrguard3 *v)
{
    lay_flag(v->check);
    if (v->check)
        lay_time(v->obj_ctime);
}

static void lay_post(const struct yugerzat_post_op_attr *v)
{
    lay_flag(v->attributes_follow);
    if (v->attributes_follow)
        lay_fattr3(&v->attributes);
}

static void lay_wcc(const struct yugerzat_wcc_data *v)
{
    lay_flag(v->before.attributes_follow);
    if (v->before.attributes_follow) {
        lay_hyper(v->before.attributes.size);
        lay_time(v->before.attributes.mtime);
        lay_time(v->before.attributes.ctime);
    }
    lay_post(&v->after);
}

/* The bytes of a value, in published form unless they are to be odd. */
static void lay(enum yugerzat_kind kind, const union value *v, bool be_odd)
{
    size_t i;
    laid.count = 0;
    loose = false;
    odd = be_odd;
    if (is_result(kind))
        lay_word(v->status);
    switch (kind) {
    case YUGERZAT_KIND_SATTRGUARD3: lay_guard(&v->sattrguard3); break;
    case YUGERZAT_KIND_GETATTR3ARGS: lay_opaque(v->getattr3args.object); break;
    case YUGERZAT_KIND_GETATTR3RES:
        if (!v->status)
            lay_fattr3(&v->getattr3res.obj_attributes);
        break;
    case YUGERZAT_KIND_SETATTR3ARGS:
        lay_opaque(v->setattr3args.object);
        lay_sattr3(&v->setattr3args.new_attributes);
        lay_guard(&v->setattr3args.guard);
        break;
    case YUGERZAT_KIND_SETATTR3RES: lay_wcc(&v->setattr3res.obj_wcc); break;
    case YUGERZAT_KIND_LOOKUP3ARGS:
        lay_opaque(v->lookup3args.what.dir);
        lay_opaque(v->lookup3args.what.name);
        break;
    case YUGERZAT_KIND_LOOKUP3RES:
        if (!v->status) {
            lay_opaque(v->lookup3res.object);
            lay_post(&v->lookup3res.obj_attributes);
        }
        lay_post(&v->lookup3res.dir_attributes);
        break;
    case YUGERZAT_KIND_READ3ARGS:
        lay_opaque(v->read3args.file);
        lay_hyper(v->read3args.offset);
        lay_word(v->read3args.count);
        break;
    case YUGERZAT_KIND_READ3RES:
        lay_post(&v->read3res.file_attributes);
        if (!v->status) {
            lay_word(v->read3res.count);
            lay_flag(v->read3res.eof);
            lay_opaque(v->read3res.data);
        }
        break;
    case YUGERZAT_KIND_WRITE3ARGS:
        lay_opaque(v->write3args.file);
        lay_hyper(v->write3args.offset);
        lay_word(v->write3args.count);
        lay_word(v->write3args.stable);
        lay_opaque(v->write3args.data);
        break;
    default:
        lay_wcc(&v->write3res.file_wcc);
        if (!v->status) {
            lay_word(v->write3res.count);
            lay_word(v->write3res.committed);
            for (i = 0; i < 8; i++)
                laid.at[laid.count++] = v->write3res.verf[i];
        }
    }
}

/* ---- all members of a value, as numbers: what is not there too */

struct flat {
    uint64_t at[128];
    size_t count;
};

static void flat_number(struct flat *f, uint64_t number)
{
    f->at[f->count++] = number;
}

/* The count, whether there is an address, and a number for the bytes. */
static void flat_piece(struct flat *f, struct yugerzat_piece piece)
{
    uint64_t mixed = 1;
    size_t i;
    for (i = 0; i < piece.count; i++)
        mixed = mixed * 1099511628211u + piece.bytes[i];
    flat_number(f, piece.count);
    flat_number(f, piece.bytes != NULL);
    flat_number(f, mixed);
}

static void flat_time(struct flat *f, struct yugerzat_nfstime3 moment)
{
    flat_number(f, moment.seconds);
    flat_number(f, moment.nseconds);
}

static void flat_fattr3(struct flat *f, const struct yugerzat_fattr3 *v)
{
    flat_number(f, v->type);
    flat_number(f, v->mode);
    flat_number(f, v->nlink);
    flat_number(f, v->uid);
    flat_number(f, v->gid);
    flat_number(f, v->size);
    flat_number(f, v->used);
    flat_number(f, v->rdev.specdata1);
    flat_number(f, v->rdev.specdata2);
    flat_number(f, v->fsid);
    flat_number(f, v->fileid);
    flat_time(f, v->atime);
    flat_time(f, v->mtime);
    flat_time(f, v->ctime);
}

static void flat_sattr3(struct flat *f, const struct yugerzat_sattr3 *v)
{
    flat_number(f, v->set_mode);
    flat_number(f, v->set_uid);
    flat_number(f, v->set_gid);
    flat_number(f, v->set_size);
    flat_number(f, v->set_atime);
    flat_number(f, v->set_mtime);
    flat_number(f, v->mode);
    flat_number(f, v->uid);
    flat_number(f, v->gid);
    flat_number(f, v->size);
    flat_time(f, v->atime);
    flat_time(f, v->mtime);
}

static void flat_guard(struct flat *f, const struct yugerzat_sattrguard3 *v)
{
    flat_number(f, v->check);
    flat_time(f, v->obj_ctime);
}

static void flat_post(struct flat *f, const struct yugerzat_post_op_attr *v)
{
    flat_number(f, v->attributes_follow);
    flat_fattr3(f, &v->attributes);
}

static void flat_wcc(struct flat *f, const struct yugerzat_wcc_data *v)
{
    flat_number(f, v->before.attributes_follow);
    flat_number(f, v->before.attributes.size);
    flat_time(f, v->before.attributes.mtime);
    flat_time(f, v->before.attributes.ctime);
    flat_post(f, &v->after);
}

static struct flat flat_of(enum yugerzat_kind kind, union value *v)
{
    struct flat f;
    int which;
    size_t i;
    memset(&f, 0, sizeof f);
    for (which = 0; piece_of(kind, v, which); which++)
        flat_piece(&f, *piece_of(kind, v, which));
    if (is_result(kind))
        flat_number(&f, v->status);
    switch (kind) {
    case YUGERZAT_KIND_SATTRGUARD3: flat_guard(&f, &v->sattrguard3); break;
    case YUGERZAT_KIND_GETATTR3RES: flat_fattr3(&f, &v->getattr3res.obj_attributes); break;
    case YUGERZAT_KIND_SETATTR3ARGS:
        flat_sattr3(&f, &v->setattr3args.new_attributes);
        flat_guard(&f, &v->setattr3args.guard);
        break;
    case YUGERZAT_KIND_SETATTR3RES: flat_wcc(&f, &v->setattr3res.obj_wcc); break;
    case YUGERZAT_KIND_LOOKUP3RES:
        flat_post(&f, &v->lookup3res.obj_attributes);
        flat_post(&f, &v->lookup3res.dir_attributes);
        break;
    case YUGERZAT_KIND_READ3ARGS:
        flat_number(&f, v->read3args.offset);
        flat_number(&f, v->read3args.count);
        break;
    case YUGERZAT_KIND_READ3RES:
        flat_post(&f, &v->read3res.file_attributes);
        flat_number(&f, v->read3res.count);
        flat_number(&f, v->read3res.eof);
        break;
    case YUGERZAT_KIND_WRITE3ARGS:
        flat_number(&f, v->write3args.offset);
        flat_number(&f, v->write3args.count);
        flat_number(&f, v->write3args.stable);
        break;
    case YUGERZAT_KIND_WRITE3RES:
        flat_wcc(&f, &v->write3res.file_wcc);
        flat_number(&f, v->write3res.count);
        flat_number(&f, v->write3res.committed);
        for (i = 0; i < 8; i++)
            flat_number(&f, v->write3res.verf[i]);
        break;
    default: break;
    }
    return f;
}

static bool same(enum yugerzat_kind kind, union value *v, union value *w)
{
    struct flat one = flat_of(kind, v), other = flat_of(kind, w);
    return memcmp(&one, &other, sizeof one) == 0;
}

/* ---- any value */

/* The numbers of nfsstat3 (docs/SCOPE.md, section 4), and their names in the same order. */
static const uint32_t statuses[] = {0, 1, 2, 5, 6, 13, 17, 18, 19, 20, 21, 22, 27, 28, 30, 31, 63, 66, 69, 70, 71,
    10001, 10002, 10003, 10004, 10005, 10006, 10007, 10008};

static const enum yugerzat_nfsstat3 status_names[] = {YUGERZAT_NFS3_OK, YUGERZAT_NFS3ERR_PERM, YUGERZAT_NFS3ERR_NOENT,
    YUGERZAT_NFS3ERR_IO, YUGERZAT_NFS3ERR_NXIO, YUGERZAT_NFS3ERR_ACCES, YUGERZAT_NFS3ERR_EXIST, YUGERZAT_NFS3ERR_XDEV,
    YUGERZAT_NFS3ERR_NODEV, YUGERZAT_NFS3ERR_NOTDIR, YUGERZAT_NFS3ERR_ISDIR, YUGERZAT_NFS3ERR_INVAL,
    YUGERZAT_NFS3ERR_FBIG, YUGERZAT_NFS3ERR_NOSPC, YUGERZAT_NFS3ERR_ROFS, YUGERZAT_NFS3ERR_MLINK,
    YUGERZAT_NFS3ERR_NAMETOOLONG, YUGERZAT_NFS3ERR_NOTEMPTY, YUGERZAT_NFS3ERR_DQUOT, YUGERZAT_NFS3ERR_STALE,
    YUGERZAT_NFS3ERR_REMOTE, YUGERZAT_NFS3ERR_BADHANDLE, YUGERZAT_NFS3ERR_NOT_SYNC, YUGERZAT_NFS3ERR_BAD_COOKIE,
    YUGERZAT_NFS3ERR_NOTSUPP, YUGERZAT_NFS3ERR_TOOSMALL, YUGERZAT_NFS3ERR_SERVERFAULT, YUGERZAT_NFS3ERR_BADTYPE,
    YUGERZAT_NFS3ERR_JUKEBOX};

static bool any_bool(void)
{
    return any_number() % 2 != 0;
}

static uint64_t any_hyper(void)
{
    return any_number() << 32 ^ any_number();
}

static struct yugerzat_piece any_piece(size_t most)
{
    static uint8_t source[4096];
    struct yugerzat_piece piece;
    size_t i;
    for (i = 0; i < 4; i++)
        source[any_number() % sizeof source] = (uint8_t)any_number();
    piece.bytes = source + any_number() % (sizeof source - most);
    piece.count = any_number() % (most + 1);
    return piece;
}

static struct yugerzat_fattr3 any_fattr3(void)
{
    struct yugerzat_fattr3 v;
    memset(&v, 0, sizeof v);
    v.type = (enum yugerzat_ftype3)(1 + any_number() % 7);
    v.mode = (uint32_t)any_number();
    v.nlink = (uint32_t)any_number();
    v.uid = (uint32_t)any_number();
    v.gid = (uint32_t)any_number();
    v.size = any_hyper();
    v.used = any_hyper();
    v.rdev.specdata1 = (uint32_t)any_number();
    v.rdev.specdata2 = (uint32_t)any_number();
    v.fsid = any_hyper();
    v.fileid = any_hyper();
    v.atime = any_time();
    v.mtime = any_time();
    v.ctime = any_time();
    return v;
}

static struct yugerzat_sattr3 any_sattr3(void)
{
    struct yugerzat_sattr3 v;
    memset(&v, 0, sizeof v);
    v.set_mode = any_bool();
    v.set_uid = any_bool();
    v.set_gid = any_bool();
    v.set_size = any_bool();
    v.set_atime = (enum yugerzat_time_how)(any_number() % 3);
    v.set_mtime = (enum yugerzat_time_how)(any_number() % 3);
    v.mode = (uint32_t)any_number();
    v.uid = (uint32_t)any_number();
    v.gid = (uint32_t)any_number();
    v.size = any_hyper();
    v.atime = any_time();
    v.mtime = any_time();
    return v;
}

static struct yugerzat_post_op_attr any_post(void)
{
    struct yugerzat_post_op_attr v;
    memset(&v, 0, sizeof v);
    v.attributes_follow = any_bool();
    v.attributes = any_fattr3();
    return v;
}

static struct yugerzat_wcc_data any_wcc(void)
{
    struct yugerzat_wcc_data v;
    memset(&v, 0, sizeof v);
    v.before.attributes_follow = any_bool();
    v.before.attributes.size = any_hyper();
    v.before.attributes.mtime = any_time();
    v.before.attributes.ctime = any_time();
    v.after = any_post();
    return v;
}

static struct yugerzat_sattrguard3 any_guard(void)
{
    struct yugerzat_sattrguard3 v;
    memset(&v, 0, sizeof v);
    v.check = any_bool();
    v.obj_ctime = any_time();
    return v;
}

/* Any value of a kind; a result has the given status. */
static union value any_value(enum yugerzat_kind kind, uint32_t status)
{
    union value v;
    size_t i;
    memset(&v, 0, sizeof v);
    switch (kind) {
    case YUGERZAT_KIND_SATTRGUARD3: v.sattrguard3 = any_guard(); break;
    case YUGERZAT_KIND_GETATTR3ARGS: v.getattr3args.object = any_piece(70); break;
    case YUGERZAT_KIND_GETATTR3RES: v.getattr3res.obj_attributes = any_fattr3(); break;
    case YUGERZAT_KIND_SETATTR3ARGS:
        v.setattr3args.object = any_piece(70);
        v.setattr3args.new_attributes = any_sattr3();
        v.setattr3args.guard = any_guard();
        break;
    case YUGERZAT_KIND_SETATTR3RES: v.setattr3res.obj_wcc = any_wcc(); break;
    case YUGERZAT_KIND_LOOKUP3ARGS:
        v.lookup3args.what.dir = any_piece(70);
        v.lookup3args.what.name = any_piece(100);
        break;
    case YUGERZAT_KIND_LOOKUP3RES:
        v.lookup3res.object = any_piece(70);
        v.lookup3res.obj_attributes = any_post();
        v.lookup3res.dir_attributes = any_post();
        break;
    case YUGERZAT_KIND_READ3ARGS:
        v.read3args.file = any_piece(70);
        v.read3args.offset = any_hyper();
        v.read3args.count = (uint32_t)any_number();
        break;
    case YUGERZAT_KIND_READ3RES:
        v.read3res.file_attributes = any_post();
        v.read3res.count = (uint32_t)any_number();
        v.read3res.eof = any_bool();
        v.read3res.data = any_piece(200);
        break;
    case YUGERZAT_KIND_WRITE3ARGS:
        v.write3args.file = any_piece(70);
        v.write3args.offset = any_hyper();
        v.write3args.count = (uint32_t)any_number();
        v.write3args.stable = (enum yugerzat_stable_how)(any_number() % 3);
        v.write3args.data = any_piece(200);
        break;
    default:
        v.write3res.file_wcc = any_wcc();
        v.write3res.count = (uint32_t)any_number();
        v.write3res.committed = (enum yugerzat_stable_how)(any_number() % 3);
        for (i = 0; i < 8; i++)
            v.write3res.verf[i] = (uint8_t)any_number();
    }
    if (is_result(kind))
        v.status = (enum yugerzat_nfsstat3)status;
    return v;
}

/* Fills what is not there with a byte: 0 is how it is read, any other must not be looked at. */
static void fill_post(struct yugerzat_post_op_attr *v, int byte)
{
    if (!v->attributes_follow)
        memset(&v->attributes, byte, sizeof v->attributes);
}

static void fill_wcc(struct yugerzat_wcc_data *v, int byte)
{
    if (!v->before.attributes_follow)
        memset(&v->before.attributes, byte, sizeof v->before.attributes);
    fill_post(&v->after, byte);
}

static void fill_guard(struct yugerzat_sattrguard3 *v, int byte)
{
    if (!v->check)
        memset(&v->obj_ctime, byte, sizeof v->obj_ctime);
}

static void fill_sattr3(struct yugerzat_sattr3 *v, int byte)
{
    if (!v->set_mode)
        memset(&v->mode, byte, sizeof v->mode);
    if (!v->set_uid)
        memset(&v->uid, byte, sizeof v->uid);
    if (!v->set_gid)
        memset(&v->gid, byte, sizeof v->gid);
    if (!v->set_size)
        memset(&v->size, byte, sizeof v->size);
    if (v->set_atime != YUGERZAT_SET_TO_CLIENT_TIME)
        memset(&v->atime, byte, sizeof v->atime);
    if (v->set_mtime != YUGERZAT_SET_TO_CLIENT_TIME)
        memset(&v->mtime, byte, sizeof v->mtime);
}

static union value filled(enum yugerzat_kind kind, const union value *from, int byte)
{
    union value v = *from;
    switch (kind) {
    case YUGERZAT_KIND_SATTRGUARD3: fill_guard(&v.sattrguard3, byte); break;
    case YUGERZAT_KIND_GETATTR3RES:
        if (v.status)
            memset(&v.getattr3res.obj_attributes, byte, sizeof v.getattr3res.obj_attributes);
        break;
    case YUGERZAT_KIND_SETATTR3ARGS:
        fill_sattr3(&v.setattr3args.new_attributes, byte);
        fill_guard(&v.setattr3args.guard, byte);
        break;
    case YUGERZAT_KIND_SETATTR3RES: fill_wcc(&v.setattr3res.obj_wcc, byte); break;
    case YUGERZAT_KIND_LOOKUP3RES:
        fill_post(&v.lookup3res.obj_attributes, byte);
        fill_post(&v.lookup3res.dir_attributes, byte);
        if (v.status) {
            memset(&v.lookup3res.object, byte, sizeof v.lookup3res.object);
            memset(&v.lookup3res.obj_attributes, byte, sizeof v.lookup3res.obj_attributes);
        }
        break;
    case YUGERZAT_KIND_READ3RES:
        fill_post(&v.read3res.file_attributes, byte);
        if (v.status) {
            memset(&v.read3res.count, byte, sizeof v.read3res.count);
            memset(&v.read3res.eof, byte, sizeof v.read3res.eof);
            memset(&v.read3res.data, byte, sizeof v.read3res.data);
        }
        break;
    case YUGERZAT_KIND_WRITE3RES:
        fill_wcc(&v.write3res.file_wcc, byte);
        if (v.status) {
            memset(&v.write3res.count, byte, sizeof v.write3res.count);
            memset(&v.write3res.committed, byte, sizeof v.write3res.committed);
            memset(v.write3res.verf, byte, sizeof v.write3res.verf);
        }
        break;
    default: break;
    }
    return v;
}

/* ---- readings */

/*
 * Reads into a struct. What is told is what judging the kind says. Where it is refused, all of the struct is 0; else it
 * is written as the library rewrites the message.
 */
static enum yugerzat_answer ask(enum yugerzat_kind kind, const uint8_t *src, size_t count, size_t at, union value *v)
{
    static const uint8_t zeros[sizeof(union value)] = {0};
    struct yugerzat_reading reading;
    struct yugerzat_rewriting rewriting;
    struct yugerzat_writing writing;
    uint64_t judged[3] = {0};
    uint8_t written[BUFFER];
    enum yugerzat_answer answer = yugerzat_judge(kind, src, count, at, judged, 3);
    memset(v, 0xEE, sizeof *v);
    memset(&reading, 0xEE, sizeof reading);
    CHECK(get(kind, src, count, at, v, &reading) == answer && reading_of(&reading, answer, judged));
    if (answer != YUGERZAT_DONE) {
        CHECK(memcmp(v, zeros, size_of(kind)) == 0);
        return answer;
    }
    fresh();
    memset(written, 0xEE, sizeof written);
    CHECK(yugerzat_rewrite_kind(kind, src, count, at, written, BUFFER, &rewriting) == YUGERZAT_DONE);
    CHECK(put(kind, v, out, BUFFER, 0, &writing) == YUGERZAT_DONE);
    CHECK(writing_is(&writing, YUGERZAT_DONE, rewriting.size, 0) && memcmp(out, written, sizeof written) == 0);
    return answer;
}

/* Cut at every place, at every place of it, and where the message or the place is too large. */
static void ask_everywhere(enum yugerzat_kind kind, const struct bytes *b)
{
    struct bytes later = behind_five(b);
    union value v;
    size_t n;
    for (n = 0; n < b->count; n++) {
        CHECK(ask(kind, b->at, n, 0, &v) == YUGERZAT_ENDS);
        CHECK(ask(kind, later.at, n + 5, 5, &v) == YUGERZAT_ENDS);
        ask(kind, b->at, b->count, n, &v);
    }
    CHECK(ask(kind, b->at, b->count, 0, &v) == YUGERZAT_DONE);
    CHECK(ask(kind, later.at, later.count, 5, &v) == YUGERZAT_DONE);
    CHECK(ask(kind, NULL, 0, 0, &v) == YUGERZAT_ENDS);
    CHECK(ask(kind, NULL, 0, 1, &v) == YUGERZAT_PAST_END);
    CHECK(ask(kind, b->at, b->count, b->count + 1, &v) == YUGERZAT_PAST_END);
    CHECK(ask(kind, b->at, b->count, SIZE_MAX, &v) == YUGERZAT_PAST_END);
    memcpy(long_message, b->at, b->count);
    CHECK(ask(kind, long_message, YUGERZAT_LIMIT_BYTES, 0, &v) == YUGERZAT_DONE);
    CHECK(ask(kind, long_message, YUGERZAT_LIMIT_BYTES + 1, 0, &v) == YUGERZAT_TOO_LONG);
    CHECK(ask(kind, long_message, YUGERZAT_LIMIT_BYTES + 1, SIZE_MAX, &v) == YUGERZAT_TOO_LONG);
}

/* Every byte another one. */
static void ask_edited(enum yugerzat_kind kind, const struct bytes *b)
{
    static const uint8_t others[] = {0x00, 0x01, 0x02, 0x03, 0x04, 0x08, 0x80, 0xFF};
    struct bytes edited;
    union value v;
    size_t i, k;
    for (i = 0; i < b->count; i++) {
        for (k = 0; k < sizeof others; k++) {
            edited = *b;
            edited.at[i] = others[k];
            ask(kind, edited.at, edited.count, 0, &v);
        }
    }
}

/* ---- what the messages of kinds.txt say */

static union value read_sample(enum yugerzat_kind kind, struct bytes *b)
{
    struct yugerzat_reading reading;
    struct yugerzat_writing writing;
    union value v;
    *b = hex(samples[kind].message);
    memset(&v, 0xEE, sizeof v);
    CHECK(get(kind, b->at, b->count, 0, &v, &reading) == YUGERZAT_DONE && reading.plain && reading.next == b->count);
    fresh();
    CHECK(put(kind, &v, out, BUFFER, 3, &writing) == YUGERZAT_DONE);
    CHECK(writing_is(&writing, YUGERZAT_DONE, b->count + 3, 0) && out_untouched_before(3));
    CHECK(memcmp(out + 3, b->at, b->count) == 0 && out_untouched_from(b->count + 3));
    return v;
}

/* A piece lies in its message, at a place. */
static bool lies(struct yugerzat_piece piece, const struct bytes *b, size_t place, size_t count)
{
    return piece.bytes == b->at + place && piece.count == count;
}

static bool time_is(struct yugerzat_nfstime3 moment, uint32_t seconds, uint32_t nseconds)
{
    return moment.seconds == seconds && moment.nseconds == nseconds;
}

/* The attributes that the samples have. */
static bool sample_attributes(const struct yugerzat_fattr3 *v)
{
    return v->type == YUGERZAT_NF3DIR && v->mode == 0755 && v->nlink == 3 && v->uid == 4 && v->gid == 5 &&
           v->size == 6 && v->used == 7 && v->rdev.specdata1 == 8 && v->rdev.specdata2 == 9 && v->fsid == 10 &&
           v->fileid == 11 && time_is(v->atime, 12, 13) && time_is(v->mtime, 14, 15) && time_is(v->ctime, 16, 17);
}

static bool sample_wcc(const struct yugerzat_wcc_data *v)
{
    return v->before.attributes_follow && v->before.attributes.size == 1 && time_is(v->before.attributes.mtime, 2, 3) &&
           time_is(v->before.attributes.ctime, 4, 5) && !v->after.attributes_follow;
}

static void test_samples(void)
{
    static const uint8_t verf[8] = {1, 2, 3, 4, 5, 6, 7, 8};
    struct bytes b;
    union value v = read_sample(YUGERZAT_KIND_SATTRGUARD3, &b);
    CHECK(v.sattrguard3.check && time_is(v.sattrguard3.obj_ctime, 7, 8));
    v = read_sample(YUGERZAT_KIND_GETATTR3ARGS, &b);
    CHECK(lies(v.getattr3args.object, &b, 4, 4));
    v = read_sample(YUGERZAT_KIND_GETATTR3RES, &b);
    CHECK(v.getattr3res.status == YUGERZAT_NFS3_OK && sample_attributes(&v.getattr3res.obj_attributes));
    v = read_sample(YUGERZAT_KIND_SETATTR3ARGS, &b);
    CHECK(lies(v.setattr3args.object, &b, 4, 4));
    {
        const struct yugerzat_sattr3 *change = &v.setattr3args.new_attributes;
        CHECK(change->set_mode && change->set_uid && change->set_gid && change->set_size);
        CHECK(change->mode == 0644 && change->uid == 1000 && change->gid == 1001 && change->size == 4096);
        CHECK(change->set_atime == YUGERZAT_SET_TO_CLIENT_TIME && time_is(change->atime, 7, 8));
        CHECK(change->set_mtime == YUGERZAT_SET_TO_CLIENT_TIME && time_is(change->mtime, 9, 10));
    }
    CHECK(v.setattr3args.guard.check && time_is(v.setattr3args.guard.obj_ctime, 7, 8));
    v = read_sample(YUGERZAT_KIND_SETATTR3RES, &b);
    CHECK(v.setattr3res.status == YUGERZAT_NFS3_OK && sample_wcc(&v.setattr3res.obj_wcc));
    v = read_sample(YUGERZAT_KIND_LOOKUP3ARGS, &b);
    CHECK(lies(v.lookup3args.what.dir, &b, 4, 4) && lies(v.lookup3args.what.name, &b, 12, 5));
    v = read_sample(YUGERZAT_KIND_LOOKUP3RES, &b);
    CHECK(v.lookup3res.status == YUGERZAT_NFS3_OK && lies(v.lookup3res.object, &b, 8, 2));
    CHECK(!v.lookup3res.obj_attributes.attributes_follow && v.lookup3res.dir_attributes.attributes_follow);
    CHECK(sample_attributes(&v.lookup3res.dir_attributes.attributes));
    v = read_sample(YUGERZAT_KIND_READ3ARGS, &b);
    CHECK(lies(v.read3args.file, &b, 4, 4) && v.read3args.offset == 4096 && v.read3args.count == 512);
    v = read_sample(YUGERZAT_KIND_READ3RES, &b);
    CHECK(v.read3res.status == YUGERZAT_NFS3_OK && !v.read3res.file_attributes.attributes_follow);
    CHECK(v.read3res.count == 5 && v.read3res.eof && lies(v.read3res.data, &b, 20, 5));
    v = read_sample(YUGERZAT_KIND_WRITE3ARGS, &b);
    CHECK(lies(v.write3args.file, &b, 4, 4) && v.write3args.offset == 4096 && v.write3args.count == 5);
    CHECK(v.write3args.stable == YUGERZAT_FILE_SYNC && lies(v.write3args.data, &b, 28, 5));
    v = read_sample(YUGERZAT_KIND_WRITE3RES, &b);
    CHECK(v.write3res.status == YUGERZAT_NFS3_OK && sample_wcc(&v.write3res.file_wcc));
    CHECK(v.write3res.count == 5 && v.write3res.committed == YUGERZAT_FILE_SYNC &&
          memcmp(v.write3res.verf, verf, sizeof verf) == 0);
}

/* What is not in published form is taken as it was meant. */
static void test_loose(void)
{
    static const struct {
        enum yugerzat_kind kind;
        const char *message, *clean;
    } cases[] = {
        {YUGERZAT_KIND_SATTRGUARD3, "00000100 00000007 00000008", "00000001 00000007 00000008"},
        {YUGERZAT_KIND_GETATTR3ARGS, "00000002 5566FF01", "00000002 55660000"},
        {YUGERZAT_KIND_SETATTR3ARGS,
            "00000001 0A00FF00 00000000 00000000 00000000 FFFFFFFF 0000000000000000 00000000 00000001 80000000 "
            "00000007 00000008",
            "00000001 0A000000 00000000 00000000 00000000 00000001 0000000000000000 00000000 00000001 00000001 "
            "00000007 00000008"},
        {YUGERZAT_KIND_SETATTR3RES, "00000046 00000002 0000000000000001 00000002 00000003 00000004 00000005 00000000",
            "00000046 00000001 0000000000000001 00000002 00000003 00000004 00000005 00000000"},
        {YUGERZAT_KIND_LOOKUP3ARGS, "00000001 0A000001 00000003 616263FF", "00000001 0A000000 00000003 61626300"},
        {YUGERZAT_KIND_LOOKUP3RES, "00000000 00000003 55667788 00000000 00000000",
            "00000000 00000003 55667700 00000000 00000000"},
        {YUGERZAT_KIND_READ3ARGS, "00000003 0A0B0CAA 0000000000001000 00000200",
            "00000003 0A0B0C00 0000000000001000 00000200"},
        {YUGERZAT_KIND_READ3RES, "00000000 00000000 00000002 00000002 00000002 6865FFFF",
            "00000000 00000000 00000002 00000001 00000002 68650000"},
        {YUGERZAT_KIND_WRITE3ARGS, "00000000 0000000000001000 00000001 00000000 00000001 68000001",
            "00000000 0000000000001000 00000001 00000000 00000001 68000000"},
        {YUGERZAT_KIND_WRITE3RES,
            "00000000 FFFFFFFF 0000000000000001 00000002 00000003 00000004 00000005 00000000 00000005 00000001 "
            "0102030405060708",
            "00000000 00000001 0000000000000001 00000002 00000003 00000004 00000005 00000000 00000005 00000001 "
            "0102030405060708"},
    };
    size_t i;
    for (i = 0; i < COUNT(cases); i++) {
        struct bytes b = hex(cases[i].message), clean = hex(cases[i].clean);
        struct yugerzat_reading reading;
        struct yugerzat_writing writing;
        union value v, due;
        of = cases[i].message;
        CHECK(get(cases[i].kind, b.at, b.count, 0, &v, &reading) == YUGERZAT_DONE);
        CHECK(!reading.plain && reading.next == b.count);
        CHECK(get(cases[i].kind, clean.at, clean.count, 0, &due, &reading) == YUGERZAT_DONE && reading.plain);
        CHECK(same(cases[i].kind, &v, &due));
        fresh();
        CHECK(put(cases[i].kind, &v, out, BUFFER, 0, &writing) == YUGERZAT_DONE && writing.after == clean.count);
        CHECK(memcmp(out, clean.at, clean.count) == 0 && out_untouched_from(clean.count));
        ask_everywhere(cases[i].kind, &b);
        ask_edited(cases[i].kind, &b);
        of = "";
    }
    for (i = 0; i < COUNT(kinds); i++) {
        struct bytes b = hex(samples[kinds[i]].message);
        of = samples[kinds[i]].name;
        ask_everywhere(kinds[i], &b);
        ask_edited(kinds[i], &b);
        of = "";
    }
}

/* ---- any values, written and read back */

/* A value is written as the RFC lays it out, and read back; and so it is from bytes that are odd. */
static void there_and_back(enum yugerzat_kind kind, uint32_t status, bool cut_it)
{
    union value any = any_value(kind, status), there = filled(kind, &any, 0), v = filled(kind, &any, 0xEE);
    struct yugerzat_writing writing;
    struct yugerzat_reading reading;
    struct bytes clean;
    size_t start = any_number() % 9;
    lay(kind, &there, false);
    clean = laid;
    fresh();
    CHECK(put(kind, &v, out, BUFFER, start, &writing) == YUGERZAT_DONE);
    CHECK(writing_is(&writing, YUGERZAT_DONE, start + clean.count, 0));
    CHECK(memcmp(out + start, clean.at, clean.count) == 0);
    CHECK(out_untouched_before(start) && out_untouched_from(start + clean.count));
    memset(&v, 0xEE, sizeof v);
    CHECK(get(kind, clean.at, clean.count, 0, &v, &reading) == YUGERZAT_DONE);
    CHECK(reading.plain && reading.next == clean.count && same(kind, &v, &there));
    if (cut_it)
        ask_everywhere(kind, &clean);

    lay(kind, &there, true);
    CHECK(laid.count == clean.count);
    memset(&v, 0xEE, sizeof v);
    CHECK(get(kind, laid.at, laid.count, 0, &v, &reading) == YUGERZAT_DONE);
    CHECK(reading.plain == !loose && reading.next == laid.count && same(kind, &v, &there));
    fresh();
    CHECK(put(kind, &v, out, BUFFER, 0, &writing) == YUGERZAT_DONE && writing.after == clean.count);
    CHECK(memcmp(out, clean.at, clean.count) == 0);
}

static void test_any_values(void)
{
    size_t i, k;
    for (i = 0; i < COUNT(kinds); i++) {
        of = samples[kinds[i]].name;
        for (k = 0; k < 1000; k++)
            there_and_back(kinds[i], any_bool() ? 0 : statuses[any_number() % COUNT(statuses)], k < 10);
        of = "";
    }
}

/* ---- enumerations */

/* Whether a value is refused as having a number that is not declared, before all else, and nothing is touched. */
static bool put_wide(enum yugerzat_kind kind, union value *v)
{
    struct yugerzat_writing writing;
    struct yugerzat_piece *piece = piece_of(kind, v, 0);
    size_t count = piece ? piece->count : 0;
    bool good = true;
    int n;
    for (n = 0; n < 4; n++) {
        size_t room = n & 1 ? 3 : BUFFER;
        if (n & 2 && piece)
            piece->count = YUGERZAT_LIMIT_BYTES + 1;
        fresh();
        memset(&writing, 0xEE, sizeof writing);
        good = good && put(kind, v, out, room, n & 2 ? room + 1 : 0, &writing) == YUGERZAT_WIDE_NUMBER &&
               writing_is(&writing, YUGERZAT_WIDE_NUMBER, 0, 0) && out_untouched_from(0);
    }
    if (piece)
        piece->count = count;
    return good;
}

/* Whether a message is refused since the word at a place is not declared. */
static bool get_undeclared(enum yugerzat_kind kind, const struct bytes *b, size_t place)
{
    struct yugerzat_reading reading;
    union value v;
    return ask(kind, b->at, b->count, 0, &v) == YUGERZAT_UNDECLARED &&
           get(kind, b->at, b->count, 0, &v, &reading) == YUGERZAT_UNDECLARED &&
           refusal_is(&reading.refusal, YUGERZAT_UNDECLARED, place, 0, 0);
}

static bool is_status(uint32_t number)
{
    size_t i;
    for (i = 0; i < COUNT(statuses); i++)
        if (statuses[i] == number)
            return true;
    return false;
}

/* The status of every result: those that are declared, in both arms, and others. */
static void test_statuses(void)
{
    static const uint32_t far[] = {10000, 10009, 0x7FFFFFFF, 0x80000000, 0xFFFFFFFF, 0x01000000, 0x00010000};
    size_t i, k;
    CHECK(COUNT(statuses) == 29 && COUNT(status_names) == 29);
    for (i = 0; i < COUNT(statuses); i++)
        CHECK((uint32_t)status_names[i] == statuses[i]);
    for (i = 0; i < COUNT(kinds); i++) {
        enum yugerzat_kind kind = kinds[i];
        union value v;
        uint32_t number;
        if (!is_result(kind))
            continue;
        of = samples[kind].name;
        for (k = 0; k < COUNT(statuses); k++)
            there_and_back(kind, statuses[k], false);
        for (k = 0; k < 100 + COUNT(far); k++) {
            number = k < 100 ? (uint32_t)k : far[k - 100];
            if (is_status(number))
                continue;
            v = any_value(kind, number);
            CHECK(put_wide(kind, &v));
            lay(kind, &v, false);
            CHECK(get_undeclared(kind, &laid, 0));
        }
        of = "";
    }
}

/* Numbers that are not declared, elsewhere: they are looked at exactly where they are written. */
static void test_numbers(void)
{
    static const uint32_t wrong[] = {3, 4, 5, 0x80000000, 0xFFFFFFFF};
    struct yugerzat_writing writing;
    union value v;
    size_t i;
    CHECK(YUGERZAT_UNSTABLE == 0 && YUGERZAT_DATA_SYNC == 1 && YUGERZAT_FILE_SYNC == 2);
    for (i = 0; i < COUNT(wrong); i++) {
        v = any_value(YUGERZAT_KIND_WRITE3ARGS, 0);
        v.write3args.file.count = 4;
        v.write3args.stable = (enum yugerzat_stable_how)wrong[i];
        CHECK(put_wide(YUGERZAT_KIND_WRITE3ARGS, &v));
        lay(YUGERZAT_KIND_WRITE3ARGS, &v, false);
        CHECK(get_undeclared(YUGERZAT_KIND_WRITE3ARGS, &laid, 20));

        v = any_value(YUGERZAT_KIND_WRITE3RES, 0);
        v.write3res.file_wcc.before.attributes_follow = false;
        v.write3res.file_wcc.after.attributes_follow = false;
        v.write3res.committed = (enum yugerzat_stable_how)wrong[i];
        CHECK(put_wide(YUGERZAT_KIND_WRITE3RES, &v));
        lay(YUGERZAT_KIND_WRITE3RES, &v, false);
        CHECK(get_undeclared(YUGERZAT_KIND_WRITE3RES, &laid, 16));
        v.status = YUGERZAT_NFS3ERR_IO;
        CHECK(put(YUGERZAT_KIND_WRITE3RES, &v, out, BUFFER, 0, &writing) == YUGERZAT_DONE && writing.after == 12);

        v = any_value(YUGERZAT_KIND_SETATTR3ARGS, 0);
        v.setattr3args.new_attributes.set_mtime = (enum yugerzat_time_how)wrong[i];
        CHECK(put_wide(YUGERZAT_KIND_SETATTR3ARGS, &v));
    }
    for (i = 0; i < 3; i++) {
        enum yugerzat_ftype3 type = (enum yugerzat_ftype3)(i == 0 ? 0 : i == 1 ? 8 : 0xFFFFFFFF);
        v = any_value(YUGERZAT_KIND_GETATTR3RES, 0);
        v.getattr3res.obj_attributes.type = type;
        CHECK(put_wide(YUGERZAT_KIND_GETATTR3RES, &v));
        lay(YUGERZAT_KIND_GETATTR3RES, &v, false);
        CHECK(get_undeclared(YUGERZAT_KIND_GETATTR3RES, &laid, 4));
        v.status = YUGERZAT_NFS3ERR_STALE;
        CHECK(put(YUGERZAT_KIND_GETATTR3RES, &v, out, BUFFER, 0, &writing) == YUGERZAT_DONE && writing.after == 4);

        v = any_value(YUGERZAT_KIND_LOOKUP3RES, 0);
        v.lookup3res.dir_attributes.attributes_follow = true;
        v.lookup3res.dir_attributes.attributes.type = type;
        CHECK(put_wide(YUGERZAT_KIND_LOOKUP3RES, &v));
        v = any_value(YUGERZAT_KIND_SETATTR3RES, YUGERZAT_NFS3ERR_PERM);
        v.setattr3res.obj_wcc.before.attributes_follow = false;
        v.setattr3res.obj_wcc.after.attributes_follow = true;
        v.setattr3res.obj_wcc.after.attributes.type = type;
        CHECK(put_wide(YUGERZAT_KIND_SETATTR3RES, &v));
        lay(YUGERZAT_KIND_SETATTR3RES, &v, false);
        CHECK(get_undeclared(YUGERZAT_KIND_SETATTR3RES, &laid, 12));
        v.setattr3res.obj_wcc.after.attributes_follow = false;
        CHECK(put(YUGERZAT_KIND_SETATTR3RES, &v, out, BUFFER, 0, &writing) == YUGERZAT_DONE && writing.after == 12);
    }
}

/* ---- the other refusals of a writing, in their order */

static bool put_refused(
    enum yugerzat_kind kind, const union value *v, size_t room, size_t start, enum yugerzat_answer due, size_t needed)
{
    struct yugerzat_writing writing;
    fresh();
    memset(&writing, 0xEE, sizeof writing);
    return put(kind, v, room ? out : NULL, room, start, &writing) == due && writing_is(&writing, due, 0, needed) &&
           out_untouched_from(0);
}

static void put_limits(enum yugerzat_kind kind, union value *v)
{
    static const size_t far[] = {YUGERZAT_LIMIT_BYTES, YUGERZAT_LIMIT_BYTES + 1, SIZE_MAX - 3, SIZE_MAX};
    struct yugerzat_writing writing;
    struct yugerzat_piece *piece, before;
    size_t size, room, i;
    int which;
    lay(kind, v, false);
    size = laid.count;
    for (room = 0; room < size; room++) {
        CHECK(put_refused(kind, v, room, 0, YUGERZAT_NO_ROOM, size));
        CHECK(put_refused(kind, v, room + 7, 7, YUGERZAT_NO_ROOM, size));
    }
    CHECK(put_refused(kind, v, 20, 20, YUGERZAT_NO_ROOM, size));
    CHECK(put_refused(kind, v, 20, 21, YUGERZAT_PAST_END, 0));
    CHECK(put_refused(kind, v, 0, 1, YUGERZAT_PAST_END, 0));
    CHECK(put_refused(kind, v, BUFFER, SIZE_MAX, YUGERZAT_PAST_END, 0));
    fresh();
    CHECK(put(kind, v, out, size + 7, 7, &writing) == YUGERZAT_DONE);
    CHECK(writing_is(&writing, YUGERZAT_DONE, size + 7, 0) && memcmp(out + 7, laid.at, size) == 0);
    CHECK(out_untouched_before(7) && out_untouched_from(size + 7));

    for (which = 0; (piece = piece_of(kind, v, which)) != NULL; which++) {
        before = *piece;
        piece->bytes = long_message;
        for (i = 0; i < COUNT(far); i++) {
            piece->count = far[i];
            CHECK(put_refused(kind, v, BUFFER, 0, YUGERZAT_TOO_LONG, 0));
            CHECK(put_refused(kind, v, 0, 0, YUGERZAT_TOO_LONG, 0));
            CHECK(put_refused(kind, v, 20, 21, YUGERZAT_PAST_END, 0));
        }
        /* no bytes at all; and as many as make the message as long as may be, and one more */
        piece->bytes = NULL;
        piece->count = 0;
        fresh();
        CHECK(put(kind, v, out, BUFFER, 0, &writing) == YUGERZAT_DONE);
        piece->bytes = long_message;
        piece->count = YUGERZAT_LIMIT_BYTES - writing.after;
        CHECK(put_refused(kind, v, BUFFER, 0, YUGERZAT_NO_ROOM, YUGERZAT_LIMIT_BYTES));
        memset(long_out, 0xEE, sizeof long_out);
        CHECK(put(kind, v, long_out, sizeof long_out, 1, &writing) == YUGERZAT_DONE);
        CHECK(writing_is(&writing, YUGERZAT_DONE, YUGERZAT_LIMIT_BYTES + 1, 0));
        CHECK(long_out[0] == 0xEE && long_out[YUGERZAT_LIMIT_BYTES + 1] == 0xEE);
        memset(long_out, 0xEE, sizeof long_out);
        piece->count++;
        CHECK(put(kind, v, long_out, sizeof long_out, 1, &writing) == YUGERZAT_TOO_LONG);
        CHECK(writing_is(&writing, YUGERZAT_TOO_LONG, 0, 0) && long_out_untouched());
        *piece = before;
    }
}

static void test_put_limits(void)
{
    size_t i;
    int n;
    for (i = 0; i < COUNT(kinds); i++) {
        of = samples[kinds[i]].name;
        for (n = 0; n < 4; n++) {
            union value v = any_value(kinds[i], 0);
            put_limits(kinds[i], &v);
        }
        of = "";
    }
}

/* ---- data that nobody may touch */

/*
 * Reads a message whose data of 65,536 bytes lies in pages that cannot be read: whoever does is ended by the system. If
 * the last bytes are padding, the last page can be read.
 */
static void untouched(enum yugerzat_kind kind, const char *fields, size_t padding)
{
    const size_t length = 65536;
    struct bytes b = hex(fields);
    size_t page = (size_t)sysconf(_SC_PAGESIZE), first = page - b.count, whole = page + length;
    uint8_t *pages = (uint8_t *)mmap(NULL, whole, PROT_READ | PROT_WRITE, MAP_PRIVATE | MAP_ANONYMOUS, -1, 0);
    struct yugerzat_piece *data;
    struct yugerzat_reading reading;
    struct yugerzat_marking marking;
    int index = kind == YUGERZAT_KIND_WRITE3ARGS ? 1 : 0;
    union value v;
    CHECK(pages != MAP_FAILED && length % page == 0);
    if (pages == MAP_FAILED)
        return;
    yugerzat_set_word(b.at + b.count - 4, 0, (uint32_t)(length - padding));
    memcpy(pages + first, b.at, b.count);
    CHECK(mprotect(pages + page, padding ? length - page : length, PROT_NONE) == 0);
    CHECK(get(kind, pages + first, b.count + length, 0, &v, &reading) == YUGERZAT_DONE);
    CHECK(reading.plain && reading.next == b.count + length);
    CHECK(yugerzat_mark_kind(kind, pages + first, b.count + length, 0, &marking) == YUGERZAT_DONE);
    CHECK(marking.plain && marking.pieces == (size_t)index + 1 && marking.clean[index]);
    data = piece_of(kind, &v, index);
    CHECK(data->bytes == pages + page && data->count == length - padding);
    CHECK(get(kind, pages + first, b.count + length - 1, 0, &v, &reading) == YUGERZAT_ENDS);
    CHECK(refusal_is(&reading.refusal, YUGERZAT_ENDS, b.count - 4, 1, 0));
    CHECK(munmap(pages, whole) == 0);
}

static void test_data(void)
{
    size_t padding;
    for (padding = 0; padding < 4; padding++) {
        of = "data of a READ that nobody may touch";
        untouched(YUGERZAT_KIND_READ3RES, "00000000 00000000 00010000 00000000 00000000", padding);
        of = "data of a WRITE that nobody may touch";
        untouched(YUGERZAT_KIND_WRITE3ARGS, "00000004 0A0B0C0D 0000000000001000 00010000 00000002 00000000", padding);
        of = "";
    }
}

/* ---- procedures */

static void test_procedures(void)
{
    static const struct {
        uint32_t number;
        enum yugerzat_procedure procedure;
        const char *arguments, *results;
    } due[] = {
        {1, YUGERZAT_PROCEDURE_GETATTR, "getattr3args", "getattr3res"},
        {2, YUGERZAT_PROCEDURE_SETATTR, "setattr3args", "setattr3res"},
        {3, YUGERZAT_PROCEDURE_LOOKUP, "lookup3args", "lookup3res"},
        {6, YUGERZAT_PROCEDURE_READ, "read3args", "read3res"},
        {7, YUGERZAT_PROCEDURE_WRITE, "write3args", "write3res"},
    };
    uint32_t number;
    size_t i, found = 0;
    for (number = 0; number < 100; number++) {
        enum yugerzat_kind arguments = YUGERZAT_KIND_BOOL, results = YUGERZAT_KIND_U32;
        bool known = yugerzat_procedure_kinds(number == 99 ? 0xFFFFFFFF : number, &arguments, &results);
        for (i = 0; i < COUNT(due) && due[i].number != number; i++)
            ;
        CHECK(known == (i < COUNT(due)));
        if (i == COUNT(due)) {
            CHECK(arguments == YUGERZAT_KIND_BOOL && results == YUGERZAT_KIND_U32);
            continue;
        }
        found++;
        CHECK((uint32_t)due[i].procedure == number);
        CHECK(strcmp(yugerzat_kind_name(arguments), due[i].arguments) == 0);
        CHECK(strcmp(yugerzat_kind_name(results), due[i].results) == 0);
    }
    CHECK(found == COUNT(due));
}

int main(void)
{
    memset(long_message, 0, sizeof long_message);
    test_procedures();
    test_samples();
    test_loose();
    test_any_values();
    test_statuses();
    test_numbers();
    test_put_limits();
    test_data();
    return total();
}

/* What Pilhangko's bindings share: a lock, the numbers of a process's bindings, records, and captures. Not for their users. */
#ifndef PILHANGKO_SHARED_H
#define PILHANGKO_SHARED_H
#include "pilhangko.h"
#include <stdlib.h>
#if defined(__cplusplus)
#include <atomic>
#elif defined(_MSC_VER)
#include <intrin.h>
#endif
#if defined(_WIN32)
#ifndef WIN32_LEAN_AND_MEAN
#define WIN32_LEAN_AND_MEAN
#endif
#include <windows.h>
#else
#include <pthread.h>
#endif

/* ---- the lock ---- */

#if defined(_WIN32)
typedef SRWLOCK mutex;
static inline bool make_mutex(mutex *m) {
    InitializeSRWLock(m);
    return true;
}
static inline void lock_mutex(mutex *m) {
    AcquireSRWLockExclusive(m);
}
static inline void unlock_mutex(mutex *m) {
    ReleaseSRWLockExclusive(m);
}
static inline void drop_mutex(mutex *m) {
    (void)m;
}
#else
typedef pthread_mutex_t mutex;
static inline bool make_mutex(mutex *m) {
    return pthread_mutex_init(m, NULL) == 0;
}
static inline void lock_mutex(mutex *m) {
    (void)pthread_mutex_lock(m);
}
static inline void unlock_mutex(mutex *m) {
    (void)pthread_mutex_unlock(m);
}
static inline void drop_mutex(mutex *m) {
    (void)pthread_mutex_destroy(m);
}
#endif

/* 1, 2, .. for the process's bindings over one API, on whichever threads they are made. */
static inline uint64_t next_number(void) {
#if defined(__cplusplus)
    static std::atomic<uint64_t> last(0);
    return ++last;
#elif defined(_MSC_VER)
    static volatile __int64 last;
    return (uint64_t)_InterlockedIncrement64(&last);
#elif defined(__OBJC__) /* in which gcc has no _Atomic */
    static uint64_t last;
    return __atomic_add_fetch(&last, 1, __ATOMIC_SEQ_CST);
#else
    static _Atomic uint64_t last;
    return ++last;
#endif
}

/* A size of the settings, of which 0 is the usual one. */
static inline uint64_t or_else(uint64_t size, uint64_t otherwise) {
    return size ? size : otherwise;
}

/* ---- records ---- */

/* Records of one size, which keep their indices. The spare ones are a list: each record begins with the index of the next spare one. */
struct table {
    char *records;
    size_t record_size;
    uint32_t count, room, spare;
};
#define NO_RECORD UINT32_MAX

static inline void begin_table(struct table *table, size_t record_size) {
    memset(table, 0, sizeof *table);
    table->record_size = record_size;
    table->spare = NO_RECORD;
}

static inline void *record_of(const struct table *table, uint32_t index) {
    return table->records + index * table->record_size;
}

static inline void make_spare(struct table *table, uint32_t index) {
    memset(record_of(table, index), 0, table->record_size);
    *(uint32_t *)record_of(table, index) = table->spare;
    table->spare = index;
}

/* Whether there is a spare record; makes one where there is none. */
static inline bool has_spare(struct table *table) {
    if (table->spare != NO_RECORD) return true;
    if (table->count == table->room) {
        const uint32_t room = table->room ? 2 * table->room : 16;
        char *records = (char *)realloc(table->records, room * table->record_size);
        if (!records) return false;
        table->records = records;
        table->room = room;
    }
    make_spare(table, table->count++);
    return true;
}

/* The index of a record that was spare. */
static inline uint32_t spare_record(struct table *table) {
    const uint32_t index = table->spare;
    table->spare = *(uint32_t *)record_of(table, index);
    return index;
}

/* ---- captures ---- */

/* A capture, and where its text goes at its end. */
struct capture {
    pilhangko_capture kept;
    bool(PILHANGKO_CALL *write)(void *user, const char *bytes, size_t length); /* NULL where there is no capture */
    void *user;
    uint64_t seen; /* how often its binding's bounds of memory types had changed when it was handed them last */
};

static inline bool is_captured(const struct capture *c) {
    return c->write != NULL;
}

static inline void drop_capture(struct capture *c) {
    if (is_captured(c)) (void)pilhangko_capture_destroy(&c->kept);
    c->write = NULL;
}

/* Whether it lacks bounds that have changed so often; a binding begins without bounds, at 0. A call costs little behind one that changed none,
 * however many memory types there are. */
static inline bool lacks_bounds(const struct capture *c, uint64_t changes) {
    return is_captured(c) && c->seen != changes;
}

/* Behind each call that a capture is to have. The library keeps all that an allocator took; a capture that lacks a call would tell of another
 * run. */
static inline void expect_kept(struct capture *c, pilhangko_status status) {
    if (status != PILHANGKO_OK) drop_capture(c);
}

/* Whether a call with this status is to be in the capture. Where host memory was lacking, nothing has changed, and in a replay nothing is
 * lacking; an invalid request may have words that no trace has. */
static inline bool has_line(const struct capture *c, pilhangko_status status) {
    return is_captured(c) && status != PILHANGKO_HOST_OUT_OF_MEMORY && status != PILHANGKO_INVALID;
}

static inline void capture_free(struct capture *c, uint64_t serial) {
    if (is_captured(c)) expect_kept(c, pilhangko_capture_freed(&c->kept, serial));
}

static inline void capture_rename(struct capture *c, uint64_t serial, const char *name) {
    if (is_captured(c)) expect_kept(c, pilhangko_capture_renamed(&c->kept, serial, name));
}

/* Bounds count where something is allocated: one that was changed again before that is in no capture. */
static inline void capture_bound(struct capture *c, size_t memory_type, const pilhangko_budget *bound) {
    if (is_captured(c)) expect_kept(c, pilhangko_capture_bounded(&c->kept, memory_type, bound->exists, bound->bytes));
}

/* What is told of a capture at its end: the numbers of each binding's pilhangko_.._capture_end, of which these are no pilhangko_capture_end. */
enum { CAPTURE_NONE = 0, CAPTURE_NOT_WRITTEN = 4 };
struct capture_told {
    uint32_t end;
    size_t bytes; /* those that were taken */
};

/* Hands the text to the caller, until it refuses some; false where it did. */
static inline bool write_text(const struct capture *c, bool is_destroyed, size_t *taken) {
    char part[4096];
    size_t count = sizeof part;
    while (count > 0) {
        if (pilhangko_capture_text(&c->kept, is_destroyed, *taken, part, sizeof part, &count) != PILHANGKO_OK) return false;
        if (count > 0 && !c->write(c->user, part, count)) return false;
        *taken += count;
    }
    return true;
}

/* Writes the capture, if there is one, and ends it. */
static inline struct capture_told finish_capture(struct capture *c, bool is_destroyed) {
    struct capture_told told = {CAPTURE_NONE, 0};
    pilhangko_capture_end end;
    if (!is_captured(c) || pilhangko_capture_how_far(&c->kept, &end) != PILHANGKO_OK) return told;
    told.end = (uint32_t)end;
    if (!write_text(c, is_destroyed, &told.bytes)) told.end = CAPTURE_NOT_WRITTEN;
    drop_capture(c);
    return told;
}

#endif

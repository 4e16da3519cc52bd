/* A bounded in-memory cache of byte strings by byte strings.

   Every function may be called by any thread at any time. A cache that is destroyed while calls for it are on their way
   goes with the last of them. Keys and values are copied in and out: the caller keeps what it passes, and nothing that
   a call hands out belongs to the cache, but what the caller's own functions are lent for the time of their calls.
   Durations are in nanoseconds, lengths in bytes; a weight is 1 for an entry, or the lengths of its key and value
   together, at most 2^32 - 1, or what a function of the caller's answers.

   Every function but `ravulemis_message` answers a code of `enum ravulemis_code`. One below 0 is a wrong call, which
   has done nothing (but `ravulemis_invalidate_if` drops the context also then), or a fault. A pointer that is neither
   null nor from `ravulemis_create` cannot be told apart.

   Compile against the header that came with the library: structs grow with new settings. */

#ifndef RAVULEMIS_H
#define RAVULEMIS_H

#include <stddef.h>
#include <stdint.h>

#ifdef __cplusplus
extern "C" {
#endif

typedef struct ravulemis_cache ravulemis_cache;

enum ravulemis_code {
  RAVULEMIS_OK = 0,
  /* There is no value under the key, or no name. */
  RAVULEMIS_NOT_FOUND = 1,
  /* The buffer is too small. Its first bytes are filled, and the whole length is told. */
  RAVULEMIS_TRUNCATED = 2,
  /* A pointer is null that must not be, or not null that must be; a key is empty, a length exceeds PTRDIFF_MAX, a name
     is not UTF-8, a setting is none of those named below, or there is a capacity without a bound. */
  RAVULEMIS_BAD_ARGUMENT = -1,
  /* The cache was destroyed. */
  RAVULEMIS_DESTROYED = -2,
  /* A fault of the library's own: a panic of Rust's, whose message goes to standard error. The shard of the key may be
     emptied by the next call for it. */
  RAVULEMIS_FAULT = -3,
  /* The cache was created without `supports_predicates`. */
  RAVULEMIS_UNSUPPORTED = -4
};

enum ravulemis_policy { RAVULEMIS_TINY_LFU = 0, RAVULEMIS_LRU = 1 };

enum ravulemis_weigher { RAVULEMIS_BY_NUMBER = 0, RAVULEMIS_BY_BYTES = 1, RAVULEMIS_BY_FUNCTION = 2 };

enum ravulemis_cause {
  RAVULEMIS_EXPIRED = 0,
  RAVULEMIS_EXPLICIT = 1,
  RAVULEMIS_REPLACED = 2,
  RAVULEMIS_SIZE = 3
};

enum ravulemis_event { RAVULEMIS_CREATED = 0, RAVULEMIS_UPDATED = 1, RAVULEMIS_READ = 2 };

/* The caller's functions: a listener, a weigher, an expiry and predicates. Each is given its own context, and lent key
   and value until it returns; neither pointer is null, also for a value of no bytes. Several threads may call it at
   once, one for each shard, so what the context points to has to bear that; for one shard its calls follow each other,
   but those of the listener may overlap with the others'. It must not throw or jump out.

   All but the listener are called within a call, under the lock of a shard, and so may be what drops the context of a
   predicate: they must neither call the cache nor wait for a lock that a thread holds while it calls the cache. */

/* Is told of each value that leaves, by the thread by whose call it left or by another that is notifying already;
   `cause` is one of `enum ravulemis_cause`. It may call the cache, and is told of what leaves by that when it has
   returned; but it must not wait for another thread that does: if 1,024 notices are pending, or the thread that calls
   it has told 256, that one may wait for it.
   Nor may it put back each value that leaves with RAVULEMIS_SIZE: another leaves for it, so the call never ends. */
typedef void (*ravulemis_listener)(void *context, const void *key, size_t key_length, const void *value,
                                   size_t value_length, int32_t cause);

/* Answers the weight of an entry that is inserted, the same for equal keys and values. An entry that weighs more than
   the capacity, or a shard's share of it, is not kept; if it replaces a value that is, all others of its shard leave
   before it. */
typedef uint32_t (*ravulemis_weigh)(void *context, const void *key, size_t key_length, const void *value,
                                    size_t value_length);

/* Answers how long an entry stays from now on, UINT64_MAX for always, at each insert and at each `ravulemis_get` that
   finds a value. `event` is one of `enum ravulemis_event`: RAVULEMIS_UPDATED for a value that replaces one which has
   not left, visible or not; but if that one's time by the last answer is over, it is RAVULEMIS_CREATED. `remaining` is
   what the entry has left by the last answer and by the cache's times to live and to idle, which hold beside it; it is
   UINT64_MAX if nothing ends the entry, and with RAVULEMIS_CREATED. An answer that equals it changes nothing. With 0
   the entry expires at once, but a read still hands its value out. */
typedef uint64_t (*ravulemis_expire)(void *context, int32_t event, const void *key, size_t key_length,
                                     const void *value, size_t value_length, uint64_t remaining);

/* Answers whether an entry is to be hidden, 0 for no, the same for equal keys and values. */
typedef int32_t (*ravulemis_predicate)(void *context, const void *key, size_t key_length, const void *value,
                                       size_t value_length);

/* Drops the context of a predicate. */
typedef void (*ravulemis_drop)(void *context);

/* What a cache is created with. With all bytes 0 it has no bound, which `ravulemis_settings_default` gives too. Of the
   settings of Rust's builder one is missing, the hasher: keys are hashed with a random seed, so that nobody can choose
   ones that collide. */
typedef struct ravulemis_settings {
  /* Whether there is a bound, 0 or 1, and the greatest total weight, `max_capacity`, which has to be 0 without a bound.
     With a bound of 0 nothing is kept, weighed or timed. */
  int32_t is_bounded;
  /* One of `enum ravulemis_policy`. */
  int32_t policy;
  uint64_t max_capacity;
  /* One of `enum ravulemis_weigher`. */
  int32_t weigher;
  /* The number of shards, rounded up to a power of two, at most 65536, and no more than the capacity; 0 lets the
     library choose: 1 with a weigher, else up to 64, and 64 without a bound. Each has its share of the capacity: an
     entry that weighs more than a share is not kept. Each asks the allocator for about 30 KB, also empty, of which
     about 11 KB are touched at first. */
  uint32_t shards;
  /* The number of entries that room is made for at once, at most 2^24. */
  uint64_t initial_capacity;
  /* How long an entry stays after it was written, and after it was written or read; 0 for always. */
  uint64_t time_to_live;
  uint64_t time_to_idle;
  /* May be null. The context is the caller's, and has to outlive the cache and the calls for it; so do those below.
     This one also has to outlive calls for other caches whose listeners call this cache: at their end they may wait for
     this listener, and call it. */
  ravulemis_listener listener;
  void *context;
  /* May be null. UTF-8 with a NUL at its end, which is copied, for `ravulemis_name` to tell. */
  const char *name;
  /* Not null with RAVULEMIS_BY_FUNCTION, and null with any other `weigher`. */
  ravulemis_weigh weigh;
  void *weigh_context;
  /* May be null: then no entry expires but by the times above. */
  ravulemis_expire expire;
  void *expire_context;
  /* Whether `ravulemis_invalidate_if` takes predicates, 0 or 1. */
  int32_t supports_predicates;
} ravulemis_settings;

typedef struct ravulemis_stats {
  uint64_t hits, misses, expired, explicit_removals, replaced, evicted;
} ravulemis_stats;

/* Sets all to 0. Errors: RAVULEMIS_BAD_ARGUMENT. */
int32_t ravulemis_settings_default(ravulemis_settings *settings);

/* Makes an empty cache, which the caller destroys. `settings` is read in the call alone.
   Errors: RAVULEMIS_BAD_ARGUMENT; RAVULEMIS_FAULT if there is no memory for the initial capacity. */
int32_t ravulemis_create(const ravulemis_settings *settings, ravulemis_cache **cache);

/* Drops all entries; the listener is not notified of them. A few bytes stay until the program ends, by which a later
   call for the cache is recognised. Errors: RAVULEMIS_BAD_ARGUMENT, and RAVULEMIS_DESTROYED for the second call. */
int32_t ravulemis_destroy(ravulemis_cache *cache);

/* Puts a copy of a value under a copy of a key of at least one byte. A value of no bytes may have a null pointer.
   Refused memory ends the process; but if the cache's own tables cannot grow for a new key, the answer is RAVULEMIS_OK,
   and the value leaves at once with RAVULEMIS_SIZE. A value for a key that is there needs no growth.
   Errors: RAVULEMIS_BAD_ARGUMENT, RAVULEMIS_DESTROYED, RAVULEMIS_FAULT. */
int32_t ravulemis_insert(ravulemis_cache *cache, const void *key, size_t key_length, const void *value,
                         size_t value_length);

/* Copies the key's value to a buffer of `room` bytes, as much as fits, and tells its whole length if `value_length`
   is not null. The buffer may be null if `room` is 0. Answers RAVULEMIS_OK, RAVULEMIS_TRUNCATED or
   RAVULEMIS_NOT_FOUND. Errors: RAVULEMIS_BAD_ARGUMENT, RAVULEMIS_DESTROYED, RAVULEMIS_FAULT. */
int32_t ravulemis_get(ravulemis_cache *cache, const void *key, size_t key_length, void *buffer, size_t room,
                      size_t *value_length);

/* Answers RAVULEMIS_OK if there is a value under the key, else RAVULEMIS_NOT_FOUND. It does not count as a read.
   Errors: RAVULEMIS_BAD_ARGUMENT, RAVULEMIS_DESTROYED, RAVULEMIS_FAULT. */
int32_t ravulemis_contains(ravulemis_cache *cache, const void *key, size_t key_length);

/* Takes the key's value out, and copies it as `ravulemis_get` does, also one that has expired or was invalidated and
   has not left yet; it is out also with RAVULEMIS_TRUNCATED.
   Errors: RAVULEMIS_BAD_ARGUMENT, RAVULEMIS_DESTROYED, RAVULEMIS_FAULT. */
int32_t ravulemis_remove(ravulemis_cache *cache, const void *key, size_t key_length, void *buffer, size_t room,
                         size_t *value_length);

/* Takes the key's value out and drops it, if there is one.
   Errors: RAVULEMIS_BAD_ARGUMENT, RAVULEMIS_DESTROYED, RAVULEMIS_FAULT. */
int32_t ravulemis_invalidate(ravulemis_cache *cache, const void *key, size_t key_length);

/* Hides all values that are there, which leave later.
   Errors: RAVULEMIS_BAD_ARGUMENT, RAVULEMIS_DESTROYED, RAVULEMIS_FAULT. */
int32_t ravulemis_invalidate_all(ravulemis_cache *cache);

/* Hides all values that are there and to which the predicate says yes, which leave later. The cache has to be created
   with `supports_predicates`. Later calls, by whatever thread, ask the predicate about values that are older than this
   call, until maintenance has found none left that it hides; `ravulemis_run_pending_tasks` sees to that. (Each of them
   is asked about each entry, so many predicates at once on a large cache make one call take seconds.) Then, or when
   the cache goes (if its capacity is 0, before this call returns), the context is dropped: `drop_context` is called with
   it once. It may be null: then the context has to outlive the cache and the calls for it. If this call is refused, the
   context is dropped before it returns. Errors: RAVULEMIS_BAD_ARGUMENT, RAVULEMIS_DESTROYED, RAVULEMIS_UNSUPPORTED;
   RAVULEMIS_FAULT, also if there is no memory for one more predicate: then some shards may have it already. */
int32_t ravulemis_invalidate_if(ravulemis_cache *cache, ravulemis_predicate predicate, void *context,
                                ravulemis_drop drop_context);

/* Does what calls left for later: what has expired, was invalidated or exceeds the capacity leaves.
   Errors: RAVULEMIS_BAD_ARGUMENT, RAVULEMIS_DESTROYED, RAVULEMIS_FAULT. */
int32_t ravulemis_run_pending_tasks(ravulemis_cache *cache);

/* Copies the cache's name as `ravulemis_get` does a value. The NUL at its end is copied and counted too.
   Answers RAVULEMIS_NOT_FOUND if there is none. Errors: RAVULEMIS_BAD_ARGUMENT, RAVULEMIS_DESTROYED. */
int32_t ravulemis_name(ravulemis_cache *cache, char *buffer, size_t room, size_t *name_length);

/* How many entries, and of which total weight, the last runs of maintenance left. Either pointer may be null.
   Errors: RAVULEMIS_BAD_ARGUMENT, RAVULEMIS_DESTROYED, RAVULEMIS_FAULT. */
int32_t ravulemis_size(ravulemis_cache *cache, uint64_t *entry_count, uint64_t *weighted_size);

/* What the cache has counted. Errors: RAVULEMIS_BAD_ARGUMENT, RAVULEMIS_DESTROYED, RAVULEMIS_FAULT. */
int32_t ravulemis_count(ravulemis_cache *cache, ravulemis_stats *stats);

/* A text for a code, which is never freed. */
const char *ravulemis_message(int32_t code);

#ifdef __cplusplus
}
#endif
#endif

/* The cache from C: every call, and every wrong one. */
#include "ravulemis.h"
#include <stdio.h>
#include <string.h>

#define CHECK(it)                                                     \
  do {                                                                \
    if (!(it)) return printf("line %d: not %s\n", __LINE__, #it), 1; \
  } while (0)

/* This program has one thread: in one with several these counters would have to be atomic. */
static void count_causes(void *context, const void *key, size_t key_length, const void *value, size_t value_length,
                         int32_t cause) {
  (void)key, (void)key_length, (void)value, (void)value_length;
  ((unsigned *)context)[cause]++;
}

/* An entry weighs what its value's first byte says, times the context. */
static uint32_t weigh(void *context, const void *key, size_t key_length, const void *value, size_t value_length) {
  (void)key, (void)key_length;
  return value_length == 0 ? 0 : *(const uint8_t *)value * *(uint32_t *)context;
}

/* What an expiry was asked last, and how often it was asked which. */
struct asked {
  unsigned events[3];
  uint64_t remaining;
};

/* An entry stays as long as its value says, and a read leaves that, unless the key starts with `once`. */
static uint64_t expire(void *context, int32_t event, const void *key, size_t key_length, const void *value,
                       size_t value_length, uint64_t remaining) {
  struct asked *asked = context;
  asked->events[event]++;
  asked->remaining = remaining;
  if (event == RAVULEMIS_READ) return key_length >= 4 && memcmp(key, "once", 4) == 0 ? 0 : remaining;
  uint64_t answer = UINT64_MAX;
  if (value_length == sizeof answer) memcpy(&answer, value, sizeof answer);
  return answer;
}

/* By how much at least the value's first byte exceeds the key's, and how often this was dropped. */
struct sought {
  int least;
  unsigned drops;
};

static int32_t is_sought(void *context, const void *key, size_t key_length, const void *value, size_t value_length) {
  if (key_length == 0 || value_length == 0) return 0;
  return *(const uint8_t *)value - *(const uint8_t *)key >= ((struct sought *)context)->least;
}

static void drop_sought(void *context) { ((struct sought *)context)->drops++; }

/* The code of a creation that makes nothing. */
static int32_t refused(ravulemis_settings settings) {
  ravulemis_cache *cache = NULL;
  int32_t code = ravulemis_create(&settings, &cache);
  return cache == NULL ? code : RAVULEMIS_OK;
}

static int wrong_settings(void) {
  ravulemis_settings settings = {0};
  CHECK(ravulemis_settings_default(NULL) == RAVULEMIS_BAD_ARGUMENT);
  CHECK(ravulemis_create(&settings, NULL) == RAVULEMIS_BAD_ARGUMENT);
  CHECK(refused((ravulemis_settings){.is_bounded = 2}) == RAVULEMIS_BAD_ARGUMENT);
  CHECK(refused((ravulemis_settings){.is_bounded = -1}) == RAVULEMIS_BAD_ARGUMENT);
  /* A capacity of a cache without a bound. */
  CHECK(refused((ravulemis_settings){.max_capacity = 100}) == RAVULEMIS_BAD_ARGUMENT);
  CHECK(refused((ravulemis_settings){.policy = 2}) == RAVULEMIS_BAD_ARGUMENT);
  CHECK(refused((ravulemis_settings){.weigher = 3}) == RAVULEMIS_BAD_ARGUMENT);
  CHECK(refused((ravulemis_settings){.weigher = -1}) == RAVULEMIS_BAD_ARGUMENT);
  CHECK(refused((ravulemis_settings){.weigher = RAVULEMIS_BY_FUNCTION}) == RAVULEMIS_BAD_ARGUMENT);
  CHECK(refused((ravulemis_settings){.weigher = RAVULEMIS_BY_BYTES, .weigh = weigh}) == RAVULEMIS_BAD_ARGUMENT);
  CHECK(refused((ravulemis_settings){.weigher = 3, .weigh = weigh}) == RAVULEMIS_BAD_ARGUMENT);
  CHECK(refused((ravulemis_settings){.weigh = weigh}) == RAVULEMIS_BAD_ARGUMENT);
  CHECK(refused((ravulemis_settings){.shards = (1 << 16) + 1}) == RAVULEMIS_BAD_ARGUMENT);
  CHECK(refused((ravulemis_settings){.initial_capacity = (1 << 24) + 1}) == RAVULEMIS_BAD_ARGUMENT);
  CHECK(refused((ravulemis_settings){.name = "\xff"}) == RAVULEMIS_BAD_ARGUMENT);
  CHECK(refused((ravulemis_settings){.supports_predicates = 2}) == RAVULEMIS_BAD_ARGUMENT);
  CHECK(refused((ravulemis_settings){.supports_predicates = -1}) == RAVULEMIS_BAD_ARGUMENT);
  return 0;
}

static int wrong_keys_and_buffers(ravulemis_cache *cache) {
  char value[4];
  CHECK(ravulemis_insert(cache, NULL, 3, "value", 5) == RAVULEMIS_BAD_ARGUMENT);
  CHECK(ravulemis_insert(cache, "key", 0, "value", 5) == RAVULEMIS_BAD_ARGUMENT);
  CHECK(ravulemis_insert(cache, "key", SIZE_MAX, "value", 5) == RAVULEMIS_BAD_ARGUMENT);
  CHECK(ravulemis_insert(cache, "key", 3, NULL, 5) == RAVULEMIS_BAD_ARGUMENT);
  CHECK(ravulemis_insert(cache, "key", 3, "value", SIZE_MAX) == RAVULEMIS_BAD_ARGUMENT);
  CHECK(ravulemis_get(cache, NULL, 3, value, sizeof value, NULL) == RAVULEMIS_BAD_ARGUMENT);
  CHECK(ravulemis_get(cache, "key", 0, value, sizeof value, NULL) == RAVULEMIS_BAD_ARGUMENT);
  CHECK(ravulemis_get(cache, "key", 3, NULL, 5, NULL) == RAVULEMIS_BAD_ARGUMENT);
  CHECK(ravulemis_contains(cache, NULL, 3) == RAVULEMIS_BAD_ARGUMENT);
  CHECK(ravulemis_contains(cache, "key", 0) == RAVULEMIS_BAD_ARGUMENT);
  CHECK(ravulemis_remove(cache, NULL, 3, value, sizeof value, NULL) == RAVULEMIS_BAD_ARGUMENT);
  CHECK(ravulemis_remove(cache, "key", 0, value, sizeof value, NULL) == RAVULEMIS_BAD_ARGUMENT);
  CHECK(ravulemis_remove(cache, "key", 3, NULL, 5, NULL) == RAVULEMIS_BAD_ARGUMENT);
  CHECK(ravulemis_invalidate(cache, NULL, 3) == RAVULEMIS_BAD_ARGUMENT);
  CHECK(ravulemis_invalidate(cache, "key", 0) == RAVULEMIS_BAD_ARGUMENT);
  CHECK(ravulemis_count(cache, NULL) == RAVULEMIS_BAD_ARGUMENT);
  CHECK(ravulemis_name(cache, NULL, 5, NULL) == RAVULEMIS_BAD_ARGUMENT);
  CHECK(ravulemis_invalidate_if(cache, NULL, NULL, NULL) == RAVULEMIS_BAD_ARGUMENT);
  return 0;
}

/* Every call for a cache answers this code, and hands nothing out. */
static int all_answer(ravulemis_cache *cache, int32_t code) {
  char value[4];
  size_t length = 7;
  uint64_t count = 7, weight = 7;
  ravulemis_stats stats;
  struct sought sought = {0};
  CHECK(ravulemis_insert(cache, "key", 3, "value", 5) == code);
  CHECK(ravulemis_get(cache, "key", 3, value, sizeof value, &length) == code);
  CHECK(ravulemis_contains(cache, "key", 3) == code);
  CHECK(ravulemis_remove(cache, "key", 3, value, sizeof value, &length) == code);
  CHECK(ravulemis_invalidate(cache, "key", 3) == code);
  CHECK(ravulemis_invalidate_all(cache) == code);
  CHECK(ravulemis_invalidate_if(cache, is_sought, &sought, drop_sought) == code && sought.drops == 1);
  CHECK(ravulemis_name(cache, value, sizeof value, &length) == code);
  CHECK(ravulemis_run_pending_tasks(cache) == code);
  CHECK(ravulemis_size(cache, &count, &weight) == code);
  CHECK(ravulemis_count(cache, &stats) == code);
  CHECK(ravulemis_destroy(cache) == code);
  CHECK(length == 7 && count == 7 && weight == 7);
  return 0;
}

/* The calls for entries, of a cache of 100 whose listener counts causes. */
static int calls(ravulemis_cache *cache, const unsigned causes[4]) {
  char value[4];
  size_t length = 0;
  CHECK(ravulemis_insert(cache, "key", 3, "value", 5) == RAVULEMIS_OK);
  CHECK(ravulemis_get(cache, "key", 3, value, sizeof value, &length) == RAVULEMIS_TRUNCATED);
  CHECK(length == 5 && memcmp(value, "valu", 4) == 0);
  CHECK(ravulemis_get(cache, "other", 5, value, sizeof value, NULL) == RAVULEMIS_NOT_FOUND);
  CHECK(ravulemis_insert(cache, "empty", 5, NULL, 0) == RAVULEMIS_OK);
  CHECK(ravulemis_get(cache, "empty", 5, NULL, 0, &length) == RAVULEMIS_OK && length == 0);
  CHECK(ravulemis_contains(cache, "key", 3) == RAVULEMIS_OK);
  CHECK(ravulemis_remove(cache, "key", 3, NULL, 0, &length) == RAVULEMIS_TRUNCATED && length == 5);
  CHECK(ravulemis_contains(cache, "key", 3) == RAVULEMIS_NOT_FOUND);
  CHECK(ravulemis_invalidate(cache, "key", 3) == RAVULEMIS_OK);
  CHECK(ravulemis_invalidate_all(cache) == RAVULEMIS_OK);
  CHECK(ravulemis_contains(cache, "empty", 5) == RAVULEMIS_NOT_FOUND);

  for (uint64_t key = 0; key < 1000; key++)
    CHECK(ravulemis_insert(cache, &key, sizeof key, &key, sizeof key) == RAVULEMIS_OK);
  CHECK(ravulemis_run_pending_tasks(cache) == RAVULEMIS_OK);
  uint64_t count = 0, weight = 0;
  CHECK(ravulemis_size(cache, &count, &weight) == RAVULEMIS_OK && count == 100 && weight == 100);
  ravulemis_stats stats;
  CHECK(ravulemis_count(cache, &stats) == RAVULEMIS_OK && stats.hits == 2 && stats.misses == 1);
  CHECK(causes[RAVULEMIS_SIZE] == 900 && causes[RAVULEMIS_EXPLICIT] == 2 && stats.evicted == 900);
  return 0;
}

/* A wrong call changes nothing, and tells the listener nothing. */
static int wrong_calls(ravulemis_cache *cache, const unsigned causes[4]) {
  char value[4];
  size_t length = 0;
  uint64_t count = 0, weight = 0;
  unsigned causes_before[4];
  ravulemis_stats stats, before;
  struct sought sought = {0};
  CHECK(ravulemis_insert(cache, "key", 3, "value", 5) == RAVULEMIS_OK);
  CHECK(ravulemis_run_pending_tasks(cache) == RAVULEMIS_OK);
  CHECK(ravulemis_size(cache, &count, &weight) == RAVULEMIS_OK && count == 100 && weight == 100);
  CHECK(ravulemis_count(cache, &before) == RAVULEMIS_OK && before.evicted == 901);
  memcpy(causes_before, causes, sizeof causes_before);
  ravulemis_cache *made = cache;
  CHECK(ravulemis_create(NULL, &made) == RAVULEMIS_BAD_ARGUMENT && made == cache);
  if (wrong_settings() || wrong_keys_and_buffers(cache) || all_answer(NULL, RAVULEMIS_BAD_ARGUMENT)) return 1;
  CHECK(ravulemis_invalidate_if(cache, is_sought, &sought, drop_sought) == RAVULEMIS_UNSUPPORTED);
  CHECK(sought.drops == 1);
  CHECK(ravulemis_name(cache, value, sizeof value, &length) == RAVULEMIS_NOT_FOUND && length == 0);
  CHECK(ravulemis_run_pending_tasks(cache) == RAVULEMIS_OK);
  CHECK(ravulemis_size(cache, &count, &weight) == RAVULEMIS_OK && count == 100 && weight == 100);
  CHECK(ravulemis_count(cache, &stats) == RAVULEMIS_OK && memcmp(&stats, &before, sizeof stats) == 0);
  CHECK(memcmp(causes, causes_before, sizeof causes_before) == 0);
  CHECK(ravulemis_contains(cache, "key", 3) == RAVULEMIS_OK);
  CHECK(ravulemis_get(cache, "key", 3, value, sizeof value, &length) == RAVULEMIS_TRUNCATED && length == 5);
  return 0;
}

static int defaults(void) {
  ravulemis_settings made;
  memset(&made, 255, sizeof made);
  CHECK(ravulemis_settings_default(&made) == RAVULEMIS_OK);
  CHECK(made.is_bounded == 0 && made.policy == 0 && made.max_capacity == 0 && made.weigher == 0 && made.shards == 0);
  CHECK(made.initial_capacity == 0 && made.time_to_live == 0 && made.time_to_idle == 0);
  CHECK(made.listener == NULL && made.context == NULL && made.name == NULL && made.supports_predicates == 0);
  CHECK(made.weigh == NULL && made.weigh_context == NULL && made.expire == NULL && made.expire_context == NULL);
  return 0;
}

static int names(void) {
  char given[] = "caf\xc3\xa9", name[6] = {0};
  size_t length = 0;
  ravulemis_cache *cache = NULL;
  CHECK(ravulemis_create(&(ravulemis_settings){.name = given}, &cache) == RAVULEMIS_OK);
  /* The name was copied, so this changes nothing. */
  given[0] = 'x';
  CHECK(ravulemis_name(cache, NULL, 0, &length) == RAVULEMIS_TRUNCATED && length == sizeof name);
  CHECK(ravulemis_name(cache, name, 3, &length) == RAVULEMIS_TRUNCATED && length == sizeof name);
  CHECK(memcmp(name, "caf\0\0", sizeof name) == 0);
  CHECK(ravulemis_name(cache, name, sizeof name, NULL) == RAVULEMIS_OK && strcmp(name, "caf\xc3\xa9") == 0);
  CHECK(ravulemis_destroy(cache) == RAVULEMIS_OK);
  CHECK(ravulemis_create(&(ravulemis_settings){.name = ""}, &cache) == RAVULEMIS_OK);
  CHECK(ravulemis_name(cache, name, sizeof name, &length) == RAVULEMIS_OK && length == 1 && name[0] == '\0');
  CHECK(ravulemis_destroy(cache) == RAVULEMIS_OK);
  return 0;
}

static int weighers(void) {
  uint32_t factor = 10;
  uint64_t count = 0, weight = 0;
  unsigned causes[4] = {0};
  ravulemis_settings settings = {.is_bounded = 1, .max_capacity = 100, .listener = count_causes, .context = causes};
  settings.weigher = RAVULEMIS_BY_FUNCTION;
  settings.weigh = weigh;
  settings.weigh_context = &factor;
  ravulemis_cache *cache = NULL;
  CHECK(ravulemis_create(&settings, &cache) == RAVULEMIS_OK);
  CHECK(ravulemis_insert(cache, "light", 5, "\3", 1) == RAVULEMIS_OK);
  CHECK(ravulemis_insert(cache, "heavy", 5, "\7 and more", 10) == RAVULEMIS_OK);
  CHECK(ravulemis_insert(cache, "empty", 5, NULL, 0) == RAVULEMIS_OK);
  CHECK(ravulemis_run_pending_tasks(cache) == RAVULEMIS_OK);
  CHECK(ravulemis_size(cache, &count, &weight) == RAVULEMIS_OK && count == 3 && weight == 100);
  /* What weighs more than the capacity is not kept. */
  CHECK(ravulemis_insert(cache, "heaviest", 8, "\13", 1) == RAVULEMIS_OK);
  CHECK(ravulemis_run_pending_tasks(cache) == RAVULEMIS_OK);
  CHECK(ravulemis_contains(cache, "heaviest", 8) == RAVULEMIS_NOT_FOUND && causes[RAVULEMIS_SIZE] == 1);
  CHECK(ravulemis_size(cache, &count, &weight) == RAVULEMIS_OK && count == 3 && weight == 100);
  CHECK(ravulemis_destroy(cache) == RAVULEMIS_OK);
  return 0;
}

static int32_t insert_for(ravulemis_cache *cache, const char *key, uint64_t nanoseconds) {
  return ravulemis_insert(cache, key, strlen(key), &nanoseconds, sizeof nanoseconds);
}

static int32_t get(ravulemis_cache *cache, const char *key) {
  uint64_t nanoseconds;
  return ravulemis_get(cache, key, strlen(key), &nanoseconds, sizeof nanoseconds, NULL);
}

static int expiries(void) {
  const uint64_t hour = 3600000000000, day = 24 * hour;
  struct asked asked = {0};
  ravulemis_cache *cache = NULL;
  CHECK(ravulemis_create(&(ravulemis_settings){.expire = expire, .expire_context = &asked}, &cache) == RAVULEMIS_OK);
  CHECK(insert_for(cache, "key", hour) == RAVULEMIS_OK);
  CHECK(asked.events[RAVULEMIS_CREATED] == 1 && asked.remaining == UINT64_MAX);
  CHECK(get(cache, "key") == RAVULEMIS_OK && asked.events[RAVULEMIS_READ] == 1);
  uint64_t remaining = asked.remaining;
  CHECK(remaining <= hour);
  CHECK(get(cache, "key") == RAVULEMIS_OK && asked.events[RAVULEMIS_READ] == 2 && asked.remaining <= remaining);
  /* No read, and nothing to read. */
  CHECK(ravulemis_contains(cache, "key", 3) == RAVULEMIS_OK && get(cache, "other") == RAVULEMIS_NOT_FOUND);
  CHECK(asked.events[RAVULEMIS_READ] == 2);
  CHECK(insert_for(cache, "key", day) == RAVULEMIS_OK);
  CHECK(asked.events[RAVULEMIS_UPDATED] == 1 && asked.remaining <= hour);
  CHECK(get(cache, "key") == RAVULEMIS_OK && asked.remaining > hour && asked.remaining <= day);
  CHECK(insert_for(cache, "key", 0) == RAVULEMIS_OK && asked.events[RAVULEMIS_UPDATED] == 2);
  CHECK(get(cache, "key") == RAVULEMIS_NOT_FOUND && asked.events[RAVULEMIS_READ] == 3);
  /* The old value has expired, so this one counts as created. */
  CHECK(insert_for(cache, "key", UINT64_MAX) == RAVULEMIS_OK && asked.events[RAVULEMIS_CREATED] == 2);
  CHECK(get(cache, "key") == RAVULEMIS_OK && asked.remaining == UINT64_MAX);
  CHECK(insert_for(cache, "once", hour) == RAVULEMIS_OK && get(cache, "once") == RAVULEMIS_OK);
  CHECK(get(cache, "once") == RAVULEMIS_NOT_FOUND && get(cache, "key") == RAVULEMIS_OK);
  CHECK(insert_for(cache, "short", 1000000) == RAVULEMIS_OK);
  for (unsigned tries = 0; ravulemis_contains(cache, "short", 5) == RAVULEMIS_OK; tries++) CHECK(tries < 100000000);
  CHECK(asked.events[RAVULEMIS_CREATED] == 4 && asked.events[RAVULEMIS_UPDATED] == 2);
  CHECK(ravulemis_destroy(cache) == RAVULEMIS_OK);
  return 0;
}

/* What is left is also by the cache's own times, which hold whatever the expiry answers. */
static int expiry_and_time_to_live(void) {
  const uint64_t hour = 3600000000000;
  struct asked asked = {0};
  ravulemis_settings settings = {.time_to_live = hour, .expire = expire, .expire_context = &asked};
  ravulemis_cache *cache = NULL;
  CHECK(ravulemis_create(&settings, &cache) == RAVULEMIS_OK);
  CHECK(insert_for(cache, "key", UINT64_MAX) == RAVULEMIS_OK && asked.remaining == UINT64_MAX);
  CHECK(get(cache, "key") == RAVULEMIS_OK && asked.remaining <= hour);
  CHECK(insert_for(cache, "key", UINT64_MAX) == RAVULEMIS_OK);
  CHECK(asked.events[RAVULEMIS_UPDATED] == 1 && asked.remaining == hour);
  CHECK(get(cache, "key") == RAVULEMIS_OK && asked.remaining <= hour);
  CHECK(ravulemis_destroy(cache) == RAVULEMIS_OK);
  return 0;
}

static int predicates(void) {
  struct sought sought = {.least = 5}, never = {.least = 256}, last = {.least = -256};
  unsigned causes[4] = {0};
  uint64_t count = 0;
  ravulemis_settings settings = {.supports_predicates = 1, .shards = 4, .listener = count_causes, .context = causes};
  ravulemis_cache *cache = NULL;
  CHECK(ravulemis_create(&settings, &cache) == RAVULEMIS_OK);
  for (uint8_t key = 0; key < 10; key++)
    CHECK(ravulemis_insert(cache, &key, 1, &(uint8_t){2 * key}, 1) == RAVULEMIS_OK);
  CHECK(ravulemis_invalidate_if(cache, is_sought, &sought, drop_sought) == RAVULEMIS_OK && sought.drops == 0);
  for (uint8_t key = 0; key < 10; key++)
    CHECK(ravulemis_contains(cache, &key, 1) == (key < 5 ? RAVULEMIS_OK : RAVULEMIS_NOT_FOUND));
  /* A later value is not concerned. */
  CHECK(ravulemis_insert(cache, "later", 5, "\377", 1) == RAVULEMIS_OK);
  CHECK(ravulemis_run_pending_tasks(cache) == RAVULEMIS_OK && causes[RAVULEMIS_EXPLICIT] == 5);
  CHECK(ravulemis_contains(cache, "later", 5) == RAVULEMIS_OK && sought.drops == 1);
  CHECK(ravulemis_size(cache, &count, NULL) == RAVULEMIS_OK && count == 6);

  CHECK(ravulemis_invalidate_if(cache, is_sought, &never, NULL) == RAVULEMIS_OK);
  CHECK(ravulemis_invalidate_if(cache, NULL, &never, drop_sought) == RAVULEMIS_BAD_ARGUMENT && never.drops == 1);
  CHECK(ravulemis_run_pending_tasks(cache) == RAVULEMIS_OK);
  CHECK(ravulemis_size(cache, &count, NULL) == RAVULEMIS_OK && count == 6);
  CHECK(ravulemis_invalidate_if(cache, is_sought, &last, drop_sought) == RAVULEMIS_OK);
  CHECK(ravulemis_contains(cache, "later", 5) == RAVULEMIS_NOT_FOUND && last.drops == 0);
  /* The cache goes, and its predicate with it. */
  CHECK(ravulemis_destroy(cache) == RAVULEMIS_OK && last.drops == 1);
  CHECK(sought.drops == 1 && never.drops == 1 && causes[RAVULEMIS_EXPLICIT] == 5);
  return 0;
}

int main(void) {
  unsigned causes[4] = {0};
  ravulemis_settings settings;
  CHECK(ravulemis_settings_default(&settings) == RAVULEMIS_OK);
  settings.is_bounded = 1;
  settings.max_capacity = 100;
  settings.policy = RAVULEMIS_LRU;
  settings.listener = count_causes;
  settings.context = causes;
  ravulemis_cache *cache = NULL;
  CHECK(ravulemis_create(&settings, &cache) == RAVULEMIS_OK);
  if (calls(cache, causes) || wrong_calls(cache, causes)) return 1;
  CHECK(ravulemis_destroy(cache) == RAVULEMIS_OK);
  if (all_answer(cache, RAVULEMIS_DESTROYED)) return 1;
  if (defaults() || names() || weighers() || expiries() || expiry_and_time_to_live() || predicates()) return 1;
  CHECK(strcmp(ravulemis_message(RAVULEMIS_UNSUPPORTED), "the cache takes no predicates") == 0);
  CHECK(strcmp(ravulemis_message(7), "no code of the library") == 0);
  printf("C: %s\n", ravulemis_message(RAVULEMIS_OK));
  return 0;
}

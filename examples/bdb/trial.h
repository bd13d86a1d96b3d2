/* What the client of Berkeley DB does by chance, what goes wrong in it on purpose, and what it writes down of that (../injected.py). */
#include "lines.h"
#include <getopt.h>
#include <stdatomic.h>
#include <stdbool.h>
#include <time.h>

enum { MOST_KEYS = 64, MOST_OPS = 4, MOST_TIMES = 20 };
typedef struct { bool there; uint64_t it; } Value;
typedef struct { int number; unsigned short chance[3]; Value cache[MOST_KEYS]; bool is_cached[MOST_KEYS]; } Client;
typedef struct {
  uint64_t id;
  Line line;
  bool goes_wrong, is_written[MOST_KEYS];
  int ops, faults;
  int unlocked[MOST_OPS]; /* by operation: of an unlocked read the key, from 1 */
  Value replaced[MOST_KEYS], taken[MOST_OPS];
  char note[MOST_OPS * 400];
  size_t noted;
} Told;

static struct { int clients, transactions, keys, seed, least; const char *fault, *stamps; FILE *notes; } options = {4, 300, 6, 1, 20, "", "", 0};
static atomic_ullong counter; /* of all clients */
static atomic_int counted; /* faults that mattered */
static atomic_bool *misjudged; /* by client and count */
static pthread_mutex_t turn = PTHREAD_MUTEX_INITIALIZER, noting = PTHREAD_MUTEX_INITIALIZER;

static bool is(const char *it, const char *word) { return !strcmp(it, word); }
static bool happens(Client *client, double share) { return erand48(client->chance) < share; }
static int below(Client *client, int limit) { return (int)(erand48(client->chance) * limit); }
static size_t name_of(int key, char *room) { return (size_t)snprintf(room, 16, "k%d", key); }
static bool same(Value a, Value b) { return a.there == b.there && (!a.there || a.it == b.it); }
static atomic_bool *judgement(uint64_t id) { return &misjudged[id / 1000000 * (uint64_t)(MOST_TIMES * options.transactions + 1) + id % 1000000]; }

/* Whether the client has another transaction: as many as asked for, and more while faults are missing. */
static bool goes_on(int count) {
  return count < options.transactions || (*options.fault && counted < options.least && count < MOST_TIMES * options.transactions);
}

/* The number of a commit. */
static uint64_t drawn(void) {
  struct timespec now;
  clock_gettime(CLOCK_REALTIME, &now);
  return is(options.stamps, "clock") ? (uint64_t)now.tv_sec * 1000000000u + (uint64_t)now.tv_nsec : atomic_fetch_add(&counter, 1) + 1;
}

static void say(Told *told, const char *form, ...) {
  va_list rest;
  va_start(rest, form);
  told->noted += (size_t)vsnprintf(told->note + told->noted, sizeof told->note - told->noted, form, rest);
  va_end(rest);
}

static const char *text_of(Value value, char *room) {
  if (!value.there) return "null";
  snprintf(room, 24, "%llu", (unsigned long long)value.it);
  return room;
}

/* A read at this place returned another value than the one that was there. */
static void note(Told *told, const char *did, int op, int key, Value returned, Value instead) {
  char one[24], other[24];
  told->faults++;
  say(told, "{\"did\":\"%s\",\"id\":%llu,\"op\":%d,\"key\":\"k%d\",\"returned\":%s,\"instead\":%s}\n", did, (unsigned long long)told->id, op, key,
      text_of(returned, one), text_of(instead, other));
}

static void note_replaced(Told *told, int key, Value replaced) {
  char room[24];
  told->replaced[key] = replaced;
  say(told, "{\"did\":\"write\",\"id\":%llu,\"key\":\"k%d\",\"replaced\":%s}\n", (unsigned long long)told->id, key, text_of(replaced, room));
}

/* A read under a lock found this. What the client takes it for. */
static Value taken(Client *client, Told *told, int key, Value found) {
  Value it = found;
  if (told->is_written[key]) return it;
  if (told->goes_wrong && is(options.fault, "cache") && client->is_cached[key]) it = client->cache[key];
  else client->cache[key] = found, client->is_cached[key] = true;
  if (!same(it, found)) note(told, "cache", told->ops, key, it, found);
  else if (found.there && found.it >= 4096000000u && *judgement(found.it / 4096)) note(told, "misjudged", told->ops, key, found, (Value){0});
  return it;
}

static void begin(Client *client, Told *told, int count, bool only_reads) {
  told->id = (uint64_t)client->number * 1000000 + (uint64_t)count;
  bool suits = *options.fault && !(only_reads && is(options.fault, "outcome"));
  told->goes_wrong = suits && happens(client, 0.6) && !pthread_mutex_trylock(&turn);
  if (told->goes_wrong && is(options.fault, "outcome")) *judgement(told->id) = true;
}

/* What became of it. Whether the client takes it for committed. */
static bool ends(Told *told, bool is_committed) {
  bool is_misjudged = told->goes_wrong && is(options.fault, "outcome");
  if (is_committed && !is_misjudged) {
    pthread_mutex_lock(&noting);
    counted += told->faults;
    if (options.notes) fwrite(told->note, 1, told->noted, options.notes), fflush(options.notes);
    pthread_mutex_unlock(&noting);
  } else if (is_misjudged && !is_committed) {
    *judgement(told->id) = false;
  }
  if (told->goes_wrong) pthread_mutex_unlock(&turn);
  return is_committed && !is_misjudged;
}

static void take_options(int count, char **words) {
  static const struct option known[] = {{"clients", 1, 0, 'c'}, {"transactions", 1, 0, 't'}, {"keys", 1, 0, 'k'}, {"seed", 1, 0, 's'}, {"least", 1, 0, 'l'},
                                        {"fault", 1, 0, 'f'}, {"stamps", 1, 0, 'm'}, {"notes", 1, 0, 'n'}, {0, 0, 0, 0}};
  for (int it; (it = getopt_long(count, words, "", known, NULL)) != -1;) {
    if (it == 'c') options.clients = atoi(optarg);
    else if (it == 't') options.transactions = atoi(optarg);
    else if (it == 'k') options.keys = atoi(optarg);
    else if (it == 's') options.seed = atoi(optarg);
    else if (it == 'l') options.least = atoi(optarg);
    else if (it == 'f' && (is(optarg, "cache") || is(optarg, "unlocked") || is(optarg, "outcome"))) options.fault = optarg;
    else if (it == 'm' && (is(optarg, "clock") || is(optarg, "late"))) options.stamps = optarg;
    else if (it != 'n' || !(options.notes = fopen(optarg, "w"))) exit(2);
  }
  if (options.clients < 1 || options.transactions < 1 || options.keys < 1 || options.keys > MOST_KEYS) exit(2);
  misjudged = calloc((size_t)(options.clients + 1) * (size_t)(MOST_TIMES * options.transactions + 1), sizeof *misjudged);
  if (!misjudged) exit(1);
}

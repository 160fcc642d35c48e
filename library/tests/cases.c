/* Stored cases through the library: cases THREADS CASE.. calls each case NAME (NAME.words, NAME.in, NAME.out, NAME.status) from so many
 * threads at once, with ample room, with none, with just enough and with one byte too few, and prints 'N passed, M failed'. */
#include "stored.h"
#include <pthread.h>
#include <stdatomic.h>

enum { GUARD = 32 };

static stored_case *cases;
static int case_count;
static atomic_int passed, failed;

static void tell(const stored_case *it, const char *what, int holds) {
  atomic_fetch_add(holds ? &passed : &failed, 1);
  if (!holds) printf("%s: %s\n", it->name, what);
}

/* Calls with a room of this size, behind which stands a guard. */
static void try_room(const stored_case *it, size_t room_size, const char *what) {
  size_t size = 77, whole = it->wanted.size;
  uint8_t *room = malloc(room_size + GUARD);
  memset(room, MARK, room_size + GUARD);
  int status = call(it, room, room_size, &size);
  int holds = status == it->status && size == whole;
  if (whole <= room_size)
    holds = holds && memcmp(room, it->wanted.bytes, whole) == 0 && is_marked(room + whole, room_size + GUARD - whole);
  else
    holds = holds && is_marked(room, room_size + GUARD);
  tell(it, what, holds);
  free(room);
}

static void *go_through(void *unused) {
  (void)unused;
  for (int at = 0; at < case_count; at++) {
    const stored_case *it = &cases[at];
    try_room(it, it->wanted.size + 1000, "with ample room");
    try_room(it, 0, "with no room");
    try_room(it, it->wanted.size, "with just enough room");
    try_room(it, it->wanted.size - 1, "with one byte too few");
  }
  return NULL;
}

/* A call that stops gives this status, tells the length 0, and leaves the room as it was. */
static void stops(stored_case it) {
  uint8_t room[64];
  size_t size = 9;
  memset(room, MARK, sizeof room);
  int status = call(&it, room, sizeof room, &size);
  tell(&it, "stops", status == DEX_USAGE && size == 0 && is_marked(room, sizeof room));
}

static void try_limits(void) {
  static const struct {
    const char *command;
    unsigned long long numbers[2];
  } beyond[] = {{"make", {7, 0}},          {"make", {7, 20001}},    {"bulk", {7, 0}},        {"bulk", {7, 4294967295}},
                {"migrate", {0, 8}},       {"migrate", {65537, 8}}, {"migrate", {5, 0}},     {"migrate", {5, 65536}}};
  for (size_t at = 0; at < sizeof beyond / sizeof *beyond; at++) {
    stored_case it = {.name = beyond[at].command, .numbers = {beyond[at].numbers[0], beyond[at].numbers[1]}};
    snprintf(it.command, sizeof it.command, "%s", beyond[at].command);
    it.input = (text){(uint8_t *)"dump\nenddump\n", 13};
    stops(it);
  }
}

static void try_text(const char *what, dex_command *command, const char *wanted, int status) {
  stored_case it = {.name = what};
  uint8_t *found;
  size_t size;
  int told = dex_text_of(command, NULL, 0, &found, &size);
  tell(&it, "with room from malloc", told == status && size == strlen(wanted) && memcmp(found, wanted, size) == 0);
  free(found);
}

int main(int count, char **words) {
  int threads = atoi(words[1]);
  pthread_t running[16];
  case_count = count - 2;
  cases = calloc((size_t)case_count, sizeof *cases);
  for (int at = 0; at < case_count; at++) read_case(&cases[at], words[at + 2]);
  for (int at = 0; at < threads && at < 16; at++) pthread_create(&running[at], NULL, go_through, NULL);
  for (int at = 0; at < threads && at < 16; at++) pthread_join(running[at], NULL);
  try_limits();
  try_text("replay of nothing", dex_replay, "report 0\ndump\nenddump\nend\n", DEX_OK);
  try_text("dump of nothing", dex_dump, "dump\nenddump\n", DEX_OK);
  try_text("worth of nothing", dex_worth, "worth 0\nend\n", DEX_OK);
  try_text("shards of nothing", dex_shards, "end\n", DEX_OK);
  try_text("audit of nothing", dex_audit, "dump refused row 1: 1 Grammar - 0 0 0\n", DEX_DUMP_REFUSED);
  for (int at = 0; at < case_count; at++) {
    free(cases[at].input.bytes);
    free(cases[at].wanted.bytes);
  }
  free(cases);
  printf("%d passed, %d failed\n", passed, failed);
  return failed > 0;
}

/* How long instructions take. in_place ROUNDS STEPS SCRIPT.. plays the rows of a file that library/tests/acting.py wrote,
 * on the accounts as the rows before left them, and lets the library tell what each script's accounts are worth, by
 * turns, ROUNDS times. Prints the least nanoseconds of all rows, of the first of each three by a clock around it, and of
 * each script; then how many rows were refused. */
#define _POSIX_C_SOURCE 199309L
/* What reads such a file and lends wallets; its own checks are not called. */
#define main check_rows
#include "../../library/tests/acting.c"
#undef main
#include <time.h>

enum { MOST_SCRIPTS = 8, CYCLE = 3 };

typedef struct {
  uint8_t *bytes;
  size_t size;
} text;

typedef struct {
  dex_instruction instruction;
  dex_wallets wallets;
} row;

static double now(void) {
  struct timespec time;
  clock_gettime(CLOCK_MONOTONIC, &time);
  return (double)time.tv_sec * 1e9 + (double)time.tv_nsec;
}

static void keep_least(double *least, double found) {
  if (*least == 0 || found < *least) *least = found;
}

/* Each row of a file with its wallets, as they are lent. */
static row *take_rows(const dex_bytes *wallets, size_t count) {
  static uint8_t spare[1];
  row *rows = malloc(count * sizeof *rows);
  for (size_t at = 0; at < count; at++) {
    rows[at].instruction = take_instruction();
    take_lent();
    rows[at].wallets = lend(wallets, &rows[at].instruction.coin, spare);
  }
  return rows;
}

/* Plays all rows; how many were refused. */
static size_t play_all(dex_market *market, row *rows, size_t count) {
  size_t refused = 0;
  dex_reply reply;
  for (size_t at = 0; at < count; at++) refused += dex_process(market, &rows[at].wallets, &rows[at].instruction, &reply) == DEX_REFUSED;
  return refused;
}

/* The nanoseconds of the first row of each three, by a clock around it. */
static double play_firsts(dex_market *market, row *rows, size_t count) {
  double taken = 0;
  dex_reply reply;
  for (size_t at = 0; at < count; at++) {
    double from = now();
    dex_process(market, &rows[at].wallets, &rows[at].instruction, &reply);
    if (at % CYCLE == 0) taken += now() - from;
  }
  return taken;
}

/* The nanoseconds in which a script is read, and its rows act. */
static double worth_of(text script) {
  uint8_t *told;
  size_t size;
  double from = now();
  dex_text_of(dex_worth, script.bytes, script.size, &told, &size);
  from = now() - from;
  free(told);
  return from;
}

static text read_script(const char *path) {
  text script;
  FILE *file = fopen(path, "rb");
  script.bytes = read_file(path);
  fseek(file, 0, SEEK_END);
  script.size = (size_t)ftell(file);
  fclose(file);
  return script;
}

int main(int words, char **word) {
  double least[2] = {0, 0}, worths[MOST_SCRIPTS] = {0};
  text scripts[MOST_SCRIPTS];
  int rounds = atoi(word[1]), count_of_scripts = words - 3;
  size_t refused = 0;
  for (int at = 0; at < count_of_scripts; at++) scripts[at] = read_script(word[3 + at]);
  dex_market market;
  here = read_file(word[2]);
  memset(&market, 0, sizeof market);
  market.address = take_address();
  market.authority = take_address();
  for (int at = 0; at < PARTS - 1; at++) *part_of(&market, at) = take_block();
  dex_bytes wallets = take_block();
  size_t count = take_number();
  row *rows = take_rows(&wallets, count);
  dex_pending(&market);
  for (int round = 0; round < rounds; round++) {
    double from = now();
    refused += play_all(&market, rows, count);
    keep_least(&least[0], now() - from);
    keep_least(&least[1], play_firsts(&market, rows, count));
    for (int at = 0; at < count_of_scripts; at++) keep_least(&worths[at], worth_of(scripts[at]));
  }
  printf("%.0f %.0f", least[0], least[1]);
  for (int at = 0; at < count_of_scripts; at++) printf(" %.0f", worths[at]);
  printf(" %zu\n", refused);
  return 0;
}

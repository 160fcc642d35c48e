/* Rows of one market by dex_process: acting FILE.. reads files that acting.py wrote, lets each row act on blocks of
 * just the accounts' sizes, the first by dex_process_checked, and compares what it is answered, that a refusal changes
 * nothing, and the last accounts. Then faults are planted, which a check has to tell, and behind which nothing is done.
 * Prints 'N passed, M failed'. */
#include "../dex.h"
#include <stdio.h>
#include <string.h>

/* The parts of a market, and the wallets behind them; and how many rows act behind a check. */
enum { PARTS = 9, RECORD = 32 + DEX_WALLET_SIZE, CHECKED = 4 };

static int passed, failed;

static void tell(const char *name, size_t row, const char *what, int holds) {
  if (holds) {
    passed += 1;
  } else {
    failed += 1;
    printf("%s, row %zu: %s\n", name, row, what);
  }
}

static uint8_t *read_file(const char *path) {
  FILE *file = fopen(path, "rb");
  fseek(file, 0, SEEK_END);
  size_t size = (size_t)ftell(file);
  uint8_t *bytes = malloc(size);
  rewind(file);
  if (fread(bytes, 1, size, file) != size) exit(2);
  fclose(file);
  return bytes;
}

/* Where the reading of a file is. */
static const uint8_t *here;

static uint64_t take_number(void) {
  uint64_t number;
  memcpy(&number, here, 8);
  here += 8;
  return number;
}

static dex_address take_address(void) {
  dex_address address;
  memcpy(&address, here, 32);
  here += 32;
  return address;
}

/* Bytes behind their length, where they lie in the file. */
static dex_bytes take_lent(void) {
  size_t length = take_number();
  dex_bytes lent = {(uint8_t *)here, length};
  here += length;
  return lent;
}

/* The same in a block of just their size. */
static dex_bytes take_block(void) {
  dex_bytes lent = take_lent();
  uint8_t *block = malloc(lent.length > 0 ? lent.length : 1);
  memcpy(block, lent.at, lent.length);
  lent.at = block;
  return lent;
}

static dex_bytes *part_of(dex_market *market, int number) { return &market->market + number; }

/* All bytes of a market and of the wallets, one after another. */
static uint8_t *all_of(dex_market *market, const dex_bytes *wallets, size_t *size) {
  *size = wallets->length + sizeof(dex_u128) * 2;
  for (int at = 0; at < PARTS - 1; at++) *size += part_of(market, at)->length;
  uint8_t *all = malloc(*size), *end = all;
  for (int at = 0; at < PARTS - 1; at++) {
    memcpy(end, part_of(market, at)->at, part_of(market, at)->length);
    end += part_of(market, at)->length;
  }
  memcpy(end, wallets->at, wallets->length);
  memcpy(end + wallets->length, &market->pending_coin, sizeof(dex_u128) * 2);
  return all;
}

/* The wallets that a row names under its roles, each once; `roles` become their places. */
static dex_wallets lend(const dex_bytes *all, uint8_t *roles, uint8_t *spare) {
  dex_wallets lent;
  uint8_t named[4];
  int count = 0;
  memset(&lent, 0, sizeof lent);
  for (int at = 0; at < 4; at++) lent.wallets[at].bytes.at = spare;
  for (int role = 0; role < 4; role++) {
    int at = 0;
    if (roles[role] == DEX_NO_WALLET) continue;
    while (at < count && named[at] != roles[role]) at++;
    if (at == count) {
      uint8_t *record = all->at + (size_t)RECORD * roles[role];
      memcpy(&lent.wallets[at].address, record, 32);
      lent.wallets[at].bytes = (dex_bytes){record + 32, DEX_WALLET_SIZE};
      named[count++] = roles[role];
    }
    roles[role] = (uint8_t)at;
  }
  return lent;
}

static dex_instruction take_instruction(void) {
  dex_instruction it;
  memset(&it, 0, sizeof it);
  it.signer = take_address();
  dex_bytes named = take_lent(), data = take_lent();
  memcpy(it.named, named.at, named.length);
  it.named_count = (uint8_t)(named.length / 32);
  it.data = data.at;
  it.data_length = data.length;
  it.clock = (int64_t)take_number();
  memcpy(&it.coin, here, 7);
  here += 7;
  it.srm = take_address();
  it.msrm = take_address();
  return it;
}

static int is_flaw(const dex_flaw *flaw, int what, int kind, const dex_address *account) {
  return flaw->what == what && flaw->kind == kind && (account == NULL || memcmp(&flaw->account, account, 32) == 0);
}

/* A market, an instruction that does nothing, and wallets: what a check tells of them, and that nothing is done. */
static void is_flawed(const char *name, const char *what, dex_market *market, dex_wallets *lent, const dex_bytes *wallets,
                      const dex_instruction *instruction, int flawed, int kind, const dex_address *account) {
  size_t before_size, size;
  uint8_t *before = all_of(market, wallets, &before_size);
  dex_flaw flaw;
  dex_reply reply;
  int status = dex_process_checked(market, lent, instruction, &flaw, &reply);
  uint8_t *after = all_of(market, wallets, &size);
  tell(name, 0, what, status == DEX_DUMP_REFUSED && is_flaw(&flaw, flawed, kind, account) && reply.kind == 0 && reply.reason == 0);
  tell(name, 0, "a flaw changes nothing", size == before_size && memcmp(before, after, size) == 0);
  free(before);
  free(after);
}

/* A byte of a part made another one, for a check. */
static void plant(const char *name, const char *what, dex_market *market, const dex_bytes *wallets, int part, size_t at,
                  int by, int flawed, int kind) {
  uint8_t spare[1];
  uint8_t none[4] = {DEX_NO_WALLET, DEX_NO_WALLET, DEX_NO_WALLET, DEX_NO_WALLET};
  dex_wallets lent = lend(wallets, none, spare);
  dex_instruction idle = {.data = (const uint8_t *)"\0\2\0\0\0\0", .data_length = 7, .coin = 255, .pc = 255, .discount = 255, .referrer = 255};
  dex_flaw flaw;
  uint8_t *byte = part_of(market, part)->at + at;
  if (at >= part_of(market, part)->length) return;
  *byte = (uint8_t)(*byte + by);
  tell(name, 0, what, dex_market_check(market, &flaw) == DEX_DUMP_REFUSED && is_flaw(&flaw, flawed, kind, NULL));
  is_flawed(name, what, market, &lent, wallets, &idle, flawed, kind, &flaw.account);
  *byte = (uint8_t)(*byte - by);
}

/* Two leaves of a side change their keys: an unsorted slab. */
static void unsort(const char *name, dex_market *market, const dex_bytes *wallets, int part) {
  dex_bytes *side = part_of(market, part);
  uint8_t *leaves[2], key[16];
  int count = 0;
  for (size_t at = 45; count < 2 && at + 72 + 7 <= side->length; at += 72) {
    if (side->at[at] == 2) leaves[count++] = side->at + at + 8;
  }
  if (count < 2) return;
  memcpy(key, leaves[0], 16);
  memcpy(leaves[0], leaves[1], 16);
  memcpy(leaves[1], key, 16);
  plant(name, "an unsorted slab", market, wallets, part, 0, 0, DEX_FAULT, 6);
  memcpy(leaves[1], leaves[0], 16);
  memcpy(leaves[0], key, 16);
}

/* What a check tells of the last accounts, and of faults in them. */
static void check(const char *name, dex_market *market, dex_bytes *wallets) {
  enum { MARKET, COIN_VAULT, PC_VAULT, REQUESTS, EVENTS, BIDS, ASKS, ORDERS };
  dex_bytes *orders = part_of(market, ORDERS);
  uint8_t spare[1], roles[4] = {0, 1, DEX_NO_WALLET, 0};
  dex_flaw flaw;
  tell(name, 0, "a sound market", dex_market_check(market, &flaw) == DEX_OK && is_flaw(&flaw, DEX_SOUND, 0, NULL));
  plant(name, "a bad text", market, wallets, MARKET, 0, 1, DEX_FAULT, 3);
  plant(name, "a bad flag", market, wallets, MARKET, 5, 64, DEX_FAULT, 4);
  plant(name, "another address", market, wallets, MARKET, 13, 1, DEX_FAULT, 5);
  plant(name, "a vault short by 1", market, wallets, PC_VAULT, 64, -1, DEX_FINDING, 9);
  plant(name, "a vault of another state", market, wallets, COIN_VAULT, 108, 1, DEX_FAULT, 10);
  plant(name, "a vault of another mint", market, wallets, COIN_VAULT, 0, 1, DEX_FAULT, 10);
  plant(name, "a leaf too many", market, wallets, BIDS, 37, 1, DEX_FAULT, 6);
  unsort(name, market, wallets, BIDS);
  unsort(name, market, wallets, ASKS);
  if (orders->length >= 2 * DEX_ORDERS_RECORD) {
    uint8_t address[32];
    memcpy(address, orders->at + DEX_ORDERS_RECORD, 32);
    memcpy(orders->at + DEX_ORDERS_RECORD, orders->at, 32);
    tell(name, 0, "an address twice", dex_market_check(market, &flaw) == DEX_DUMP_REFUSED && is_flaw(&flaw, DEX_TWICE, 0, (dex_address *)orders->at));
    memcpy(orders->at + DEX_ORDERS_RECORD, address, 32);
  }
  if (wallets->length >= 2 * RECORD) {
    dex_instruction idle = {.data = (const uint8_t *)"\0\2\0\0\0\0", .data_length = 7, .coin = 0, .pc = 1, .discount = 255, .referrer = 0};
    dex_wallets lent = lend(wallets, roles, spare);
    dex_reply reply;
    tell(name, 0, "wallets", dex_process_checked(market, &lent, &idle, &flaw, &reply) == DEX_OK && reply.kind == DEX_DONE);
    lent.wallets[1].address = lent.wallets[0].address;
    is_flawed(name, "a wallet twice", market, &lent, wallets, &idle, DEX_TWICE, 0, &lent.wallets[0].address);
    lent = lend(wallets, roles, spare);
    lent.wallets[1].bytes.length -= 1;
    is_flawed(name, "a short wallet", market, &lent, wallets, &idle, DEX_FAULT, 2, &lent.wallets[1].address);
    lent.wallets[1].bytes.length += 1;
    lent.wallets[1].bytes.at[108] += 1;
    is_flawed(name, "a wallet of another state", market, &lent, wallets, &idle, DEX_FAULT, 10, &lent.wallets[1].address);
    lent.wallets[1].bytes.at[108] -= 1;
  }
}

static void play(const char *name) {
  uint8_t *file = read_file(name), spare[1], room[512];
  dex_market market;
  here = file;
  memset(&market, 0, sizeof market);
  market.address = take_address();
  market.authority = take_address();
  for (int at = 0; at < PARTS - 1; at++) *part_of(&market, at) = take_block();
  dex_bytes wallets = take_block();
  size_t rows = take_number(), size;
  dex_pending(&market);
  for (size_t row = 0; row < rows; row++) {
    dex_instruction instruction = take_instruction();
    dex_bytes wanted = take_lent();
    dex_wallets lent = lend(&wallets, &instruction.coin, spare);
    size_t length, before_size;
    uint8_t *before = all_of(&market, &wallets, &before_size);
    dex_reply reply;
    dex_flaw flaw;
    int kind = row < CHECKED ? dex_process_checked(&market, &lent, &instruction, &flaw, &reply) : dex_process(&market, &lent, &instruction, &reply);
    if (row < CHECKED) kind = kind == DEX_OK && flaw.what == DEX_SOUND ? reply.kind : -1;
    int status = dex_reply_text(&reply, room, sizeof room, &length);
    tell(name, row, "its reply", kind == reply.kind && status == DEX_OK && length == wanted.length && memcmp(room, wanted.at, length) == 0);
    if (kind == DEX_REFUSED) {
      uint8_t *after = all_of(&market, &wallets, &size);
      tell(name, row, "a refusal changes nothing", size == before_size && memcmp(before, after, size) == 0);
      free(after);
    }
    free(before);
  }
  dex_u128 kept[2] = {market.pending_coin, market.pending_pc};
  dex_pending(&market);
  tell(name, rows, "what is pending", memcmp(kept, &market.pending_coin, sizeof kept) == 0);
  check(name, &market, &wallets);
  for (int at = 0; at < PARTS; at++) {
    dex_bytes *part = at < PARTS - 1 ? part_of(&market, at) : &wallets, wanted = take_lent();
    tell(name, rows, "the last accounts", part->length == wanted.length && memcmp(part->at, wanted.at, wanted.length) == 0);
    free(part->at);
  }
  free(file);
}

int main(int count, char **words) {
  for (int at = 1; at < count; at++) play(words[at]);
  printf("%d passed, %d failed\n", passed, failed);
  return failed > 0;
}

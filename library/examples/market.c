/* An instruction on account bytes: reads the dump of one market from standard input, lets the person `ann` ask for 4
 * lots at 50 with her account `amy` and her wallet `ann_coin`, and prints what it is answered and how many orders rest.
 *
 *     cc -o market library/examples/market.c library/out/libdex.a && ./dex dump < SCRIPT | ./market */
#include "../dex.h"
#include <stdio.h>
#include <string.h>

/* The next field of a line in place, behind which stands a comma, or else the line's end. */
static char *field_of(char **line) {
  char *field = *line, *end = strchr(field, ',');
  *line = end == NULL ? field + strlen(field) : end + 1;
  if (end != NULL) *end = '\0';
  return field;
}

/* The bytes of base64, in place of its text. */
static dex_bytes bytes_of(char *text) {
  static const char signs[] = "ABCDEFGHIJKLMNOPQRSTUVWXYZabcdefghijklmnopqrstuvwxyz0123456789+/";
  dex_bytes found = {(uint8_t *)text, 0};
  uint32_t held = 0, bits = 0;
  for (; *text != '\0' && *text != '='; text++) {
    held = held << 6 | (uint32_t)(strchr(signs, *text) - signs);
    bits += 6;
    if (bits >= 8) found.at[found.length++] = (uint8_t)(held >> (bits -= 8));
  }
  return found;
}

static dex_address address_of(const char *word) {
  dex_address address = {{0}};
  memcpy(address.bytes, word, strlen(word));
  return address;
}

int main(void) {
  static char dump[1 << 20];
  /* version 0, NewOrderV3, an ask, at 50, 4 lots, quote 1 (not read), decrement, limit, client 7, meets 10 at most */
  static const uint8_t data[] = {0, 10, 0, 0, 0, 1, 0, 0, 0, 50, 0, 0, 0, 0, 0, 0, 0, 4, 0, 0, 0, 0, 0, 0, 0, 1,
                                 0, 0,  0, 0, 0, 0, 0, 0, 0, 0,  0, 0, 0, 0, 0, 7, 0, 0, 0, 0, 0, 0, 0, 10, 0};
  dex_address amy = address_of("amy");
  dex_market market = {0};
  dex_wallets wallets = {0};
  dex_reply reply;
  uint8_t none[1], text[256];
  size_t size;
  dump[fread(dump, 1, sizeof dump - 1, stdin)] = '\0';
  market.orders.at = malloc(sizeof dump);
  for (int at = 0; at < 4; at++) wallets.wallets[at].bytes.at = none;
  for (char *line = strtok(dump, "\n"); line != NULL; line = strtok(NULL, "\n")) {
    char *kind = field_of(&line), *word = field_of(&line);
    if (strcmp(kind, "wallet") == 0 && strcmp(word, "ann_coin") == 0)
      wallets.wallets[0] = (dex_wallet){address_of(word), bytes_of(field_of(&line))};
    if (strcmp(kind, "market") == 0) {
      market.address = address_of(word);
      market.authority = address_of(field_of(&line));
      dex_bytes *parts[] = {&market.market, &market.coin_vault, &market.pc_vault, &market.requests, &market.events, &market.bids, &market.asks};
      for (size_t at = 0; at < sizeof parts / sizeof *parts; at++) *parts[at] = bytes_of(field_of(&line));
    }
    if (strcmp(kind, "orders") == 0) {
      dex_address address = address_of(field_of(&line));
      uint8_t *record = market.orders.at + market.orders.length;
      memcpy(record, &address, 32);
      memcpy(record + 32, bytes_of(field_of(&line)).at, DEX_ORDERS_SIZE);
      market.orders.length += DEX_ORDERS_RECORD;
    }
  }
  dex_pending(&market);
  dex_instruction ask = {.signer = address_of("ann"), .named = {amy}, .named_count = 1, .data = data, .data_length = sizeof data, .coin = 0,
                         .pc = DEX_NO_WALLET, .discount = DEX_NO_WALLET, .referrer = DEX_NO_WALLET};
  if (dex_process(&market, &wallets, &ask, &reply) == DEX_REFUSED) printf("refused for reason %d\n", reply.reason);
  if (dex_reply_text(&reply, text, sizeof text, &size) == DEX_OK) printf("%.*s\n", (int)size, (char *)text);
  printf("%llu lots of it rest\n", (unsigned long long)reply.rested);
  free(market.orders.at);
  return 0;
}

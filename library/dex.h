/* The commands of Daisyhook on one thread, as functions of bytes. docs/LIBRARY.md tells how to build and link them.
 *
 * What a call promises. There are a status and a text that the command answers to these bytes, just as the program's
 * (the table of statuses is in docs/FORMATS.md; dex_shards and dex_chained, which are no commands, say their texts
 * below). The call returns the status, sets *size to the length of the text in bytes, and, where the text fits into the
 * room, writes it to the front of the room and leaves what stands behind it as it was. Where it does not fit, the room
 * is as it was: call again with a room of *size bytes. Two statuses come with no text, *size 0 and the room as it was:
 * DEX_NO_MEMORY, where memory was wanting, and DEX_USAGE, where a number is not within its limits. This is proved of
 * the very functions below; that their callers are C is no part of the proof.
 *
 * What the caller keeps, which nothing checks:
 *  - no pointer is null, also where a length is 0; bytes may be read over the whole length, the room written over its
 *    whole size, and *size written;
 *  - bytes, room and *size do not overlap, and no other thread writes to the bytes, or reads or writes the room or
 *    *size, during the call. Calls from several threads at once are fine: the functions share nothing;
 *  - the program's malloc, realloc and free are those of one allocator and align as the C standard says;
 *  - no call from a signal handler, nor in the child of a fork of a program with threads.
 *
 * `run` and `batch` are not here: they need threads of their own, which a library without a runtime does not make.
 * Scripts with `swap` rows are taken by all that take scripts. */
#ifndef DEX_H
#define DEX_H

#include <stddef.h>
#include <stdint.h>
#include <stdlib.h>

#ifdef __cplusplus
extern "C" {
#endif

/* What a call returns: the exit status of the program. */
enum {
  DEX_OK = 0,              /* the report, dump, worths, made script or summary, or that an audit found nothing */
  DEX_USAGE = 1,           /* a number is not within its limits: no text */
  DEX_SCRIPT_REFUSED = 2,  /* a row of the script is at fault: the line that names it */
  DEX_DUMP_REFUSED = 3,    /* a row of the dump is at fault, or its accounts have findings: the lines that tell them */
  DEX_NO_MEMORY = 7,       /* memory was wanting: no text */
  DEX_MIGRATE_REFUSED = 8  /* accounts do not fit the sizes to migrate to: the line that names the first */
};

/* The report of what is left when all rows of a script have acted, one after the other. */
uint8_t dex_replay(const uint8_t *script, size_t length, uint8_t *room, size_t room_size, size_t *size);

/* The dump of the accounts that a script leaves. */
uint8_t dex_dump(const uint8_t *script, size_t length, uint8_t *room, size_t room_size, size_t *size);

/* What an audit of a dump finds. */
uint8_t dex_audit(const uint8_t *dump, size_t length, uint8_t *room, size_t room_size, size_t *size);

/* What each account of each market is worth when all rows of a script have acted. */
uint8_t dex_worth(const uint8_t *script, size_t length, uint8_t *room, size_t room_size, size_t *size);

/* The dump of the same accounts with sides of so many nodes (1 to 65536) and event queues for so many events (1 to
 * 65535). */
uint8_t dex_migrate(uint32_t nodes, uint32_t events, const uint8_t *dump, size_t length, uint8_t *room,
                    size_t room_size, size_t *size);

/* The made script of a number, with so many drawn rows (1 to 20000). */
uint8_t dex_make(uint64_t number, uint32_t rows, uint8_t *room, size_t room_size, size_t *size);

/* The summary of what that script leaves. */
uint8_t dex_bulk(uint64_t number, uint32_t rows, uint8_t *room, size_t room_size, size_t *size);

/* The same within the widest limits: 65,535 open-orders accounts of a market, 65,535 wallets, 256 mints, 256 markets
 * and 2^32 - 1 instruction rows. */
uint8_t dex_replay_wide(const uint8_t *script, size_t length, uint8_t *room, size_t room_size, size_t *size);
uint8_t dex_dump_wide(const uint8_t *script, size_t length, uint8_t *room, size_t room_size, size_t *size);
uint8_t dex_audit_wide(const uint8_t *dump, size_t length, uint8_t *room, size_t room_size, size_t *size);
uint8_t dex_worth_wide(const uint8_t *script, size_t length, uint8_t *room, size_t room_size, size_t *size);
uint8_t dex_migrate_wide(uint32_t nodes, uint32_t events, const uint8_t *dump, size_t length, uint8_t *room,
                         size_t room_size, size_t *size);

/* Where a script may be cut into shards, which share no market and no wallet: lines `market SHARD` for each market and
 * `wallet SHARD` for each wallet, in declared order, `row SHARD` for each instruction row in its order (two for a
 * swap), and `end`. A shard's number is below that of markets, or 0. A wallet that no row names is of shard 0. */
uint8_t dex_shards(const uint8_t *script, size_t length, uint8_t *room, size_t room_size, size_t *size);

/* Where a script may be cut into a chain of parts of at most so many instruction rows (1 or more; two where that is
 * one and they are a swap, which counts two and is never parted): lines `part COUNT`, and `end`. DEX_USAGE where it
 * is 0. */
uint8_t dex_chained(uint32_t rows, const uint8_t *script, size_t length, uint8_t *room, size_t room_size, size_t *size);

/* Both within the widest limits. */
uint8_t dex_shards_wide(const uint8_t *script, size_t length, uint8_t *room, size_t room_size, size_t *size);
uint8_t dex_chained_wide(uint32_t rows, const uint8_t *script, size_t length, uint8_t *room, size_t room_size,
                         size_t *size);

/* ---- one instruction on the account bytes of one market, in place, as a ledger's program does it
 *
 * What the caller of dex_process is trusted with beside the points above: the accounts were found sound by
 * dex_market_check, or left by dex_process, and nobody else changed them; `orders` has whole accounts; each wallet that
 * is named is a token account of 165 bytes, no two have one address, and none lies in another place of the call; the
 * sums are those of dex_pending, or left by dex_process. dex_pending wants an event queue that is accepted, as that of
 * such a market is. dex_market_check and dex_process_checked want none of this but that nothing lies in two
 * places of the call: any bytes will do. They copy the accounts, and take memory, as dex_reply_text does; the others
 * take none. dex_pending reads the events that are pending; dex_process looks for an open-orders account from the first
 * on. */

typedef struct {
  uint8_t bytes[32];
} dex_address;

/* Bytes of the caller. No `at` is null, also where the length is 0. */
typedef struct {
  uint8_t *at;
  size_t length;
} dex_bytes;

/* A number of 128 bits: low + 2^64 * high. */
typedef struct {
  uint64_t low, high;
} dex_u128;

enum { DEX_WALLET_SIZE = 165, DEX_ORDERS_SIZE = 3228, DEX_ORDERS_RECORD = 32 + DEX_ORDERS_SIZE };

/* All accounts of one market. `authority` is the person who signs for it and stands in no account. `orders` are the
 * open-orders accounts one after another, each as its address and its 3,228 bytes; bytes behind the last whole account
 * are none's, and may be written. `pending_coin` and `pending_pc`, what makers' fills in the event queue are still to
 * take off totals, are set by dex_pending and kept by dex_process. */
typedef struct {
  dex_address address, authority;
  dex_bytes market, coin_vault, pc_vault, requests, events, bids, asks, orders;
  dex_u128 pending_coin, pending_pc;
} dex_market;

/* A token account that an instruction names, by its address; of length 0 where there is none. */
typedef struct {
  dex_address address;
  dex_bytes bytes;
} dex_wallet;

/* The wallets that an instruction names, each once, in any order. */
typedef struct {
  dex_wallet wallets[4];
} dex_wallets;

enum { DEX_NO_WALLET = 255, DEX_SERUM = 0, DEX_OPENBOOK = 1, DEX_MOST_NAMED = 16 };

/* An instruction: who signs it, the open-orders accounts that it names, 16 at most, its data (docs/FORMATS.md), the
 * clock, and which of the wallets it names under each role: 0 to 3, or DEX_NO_WALLET; two roles may name one. `srm` and
 * `msrm` are the mints of discounts, where `has_srm` and `has_msrm` are not 0. */
typedef struct {
  dex_address signer, named[DEX_MOST_NAMED];
  const uint8_t *data;
  size_t data_length;
  int64_t clock;
  uint8_t named_count, coin, pc, discount, referrer, program, has_srm, has_msrm;
  dex_address srm, msrm;
} dex_instruction;

/* What a reply is. */
enum {
  DEX_REFUSED = 0,   /* nothing was changed: `reason`, and its values */
  DEX_ORDERED = 1,   /* `order` (its id), `slot`, `lots` that filled, `pc` and `fee` of the fills, lots that `rested` */
  DEX_TOOK = 2,      /* `lots`, `pc`, `fee` */
  DEX_CANCELLED = 3, /* `count` orders left the book */
  DEX_CONSUMED = 4,  /* `count` events were paid */
  DEX_SETTLED = 5,   /* `coin`, `pc`, `referrer`: what the wallets got */
  DEX_SWEPT = 6,     /* `pc`: what the wallet got */
  DEX_DONE = 7,
  DEX_TOO_MANY_NAMED = 255 /* `named_count` is above 16: nothing was done */
};

/* A reply. Of a refusal `reason` is its number, 1 to 24 (docs/REFUSED.md), and its values are: `rule` (1); `address`,
 * an owner's, an authority's, a mint's or an account's (5 to 8 and 16); `count` slots and `held` funds (9); `clock` and
 * `latest` (13); `order` (19); `amount`, what was got, is needed or would be brought, and `balance` (20, 22, 23; of 20
 * the amount alone); `count` needed and `room` (21); `held` in the vault and `pending` (24). A field that is not named
 * for its kind is 0. */
typedef struct {
  uint8_t kind, reason, rule, slot;
  uint32_t count, room;
  uint64_t lots, pc, fee, rested, coin, referrer, amount, balance;
  int64_t clock, latest;
  dex_u128 order, held, pending;
  dex_address address;
} dex_reply;

/* Counts what is pending from the market's event queue: once before the first instruction. */
void dex_pending(dex_market *market);

/* Does an instruction on the accounts, or refuses it and changes nothing but *reply. It returns reply->kind. */
uint8_t dex_process(dex_market *market, dex_wallets *wallets, const dex_instruction *instruction, dex_reply *reply);

/* What is wrong with accounts: the first thing that is. Accounts come first, in the order of a dump (the market, its
 * vaults, queues and sides, its open-orders accounts); then whether two open-orders accounts have one address; then the
 * rules of an audit, but for that of mints; then, of dex_process_checked, the wallets. */
enum {
  DEX_SOUND = 0,  /* nothing */
  DEX_FAULT = 1,  /* an account is not accepted: a dump with it is refused with this `kind` (2 to 10), `place`, ..; of a
                     slab this is one of its faults */
  DEX_TWICE = 2,  /* two open-orders accounts, or two wallets that are named, have the address `account` (one such) */
  DEX_FINDING = 3 /* an audit finds this: `kind` is the number of the rule (1 to 11, or 13) */
};

/* A flaw. The fields are those of the dump's or the audit's line (docs/FORMATS.md); one that is not named for its
 * `what` is 0. */
typedef struct {
  uint8_t what, kind;
  uint32_t place;
  dex_u128 found, wanted;
  dex_address account;
} dex_flaw;

/* Whether the bytes are the accounts of a sound market, as dex_process wants them. It returns DEX_OK; or
 * DEX_DUMP_REFUSED, and *flaw is the first flaw; or DEX_NO_MEMORY. The sums are not looked at. */
uint8_t dex_market_check(const dex_market *market, dex_flaw *flaw);

/* Checks the market and then the wallets that are named, counts what is pending, and does what dex_process does. It
 * returns DEX_OK, and *reply is the reply; or DEX_DUMP_REFUSED, and *flaw is the first flaw; or DEX_NO_MEMORY. Of the
 * last two no byte of the market, its sums and the wallets was changed, and *reply is all 0. */
uint8_t dex_process_checked(dex_market *market, dex_wallets *wallets, const dex_instruction *instruction,
                            dex_flaw *flaw, dex_reply *reply);

/* What a report says of a reply, such as `ok cancelled 2`: DEX_OK, or DEX_NO_MEMORY. */
uint8_t dex_reply_text(const dex_reply *reply, uint8_t *room, size_t room_size, size_t *size);

/* ---- with memory from malloc: nothing below is proved */

/* A function of bytes alone: dex_replay, dex_dump, dex_audit, dex_worth or dex_shards, or one of them within the widest
 * limits. */
typedef uint8_t dex_command(const uint8_t *bytes, size_t length, uint8_t *room, size_t room_size, size_t *size);

/* Room that is enough for most texts of so many bytes of input. */
static inline size_t dex_first_room(size_t length) {
  return length > (SIZE_MAX - 65536) / 5 ? SIZE_MAX : 5 * length + 65536;
}

/* Calls the command with room from malloc, and once more where the text does not fit. *text is the text, *size its
 * length; the caller frees *text, which is null where there is none. `bytes` may be null where `length` is 0. */
static inline uint8_t dex_text_of(dex_command *command, const uint8_t *bytes, size_t length, uint8_t **text,
                                  size_t *size) {
  static const uint8_t nothing[1] = {0};
  size_t room_size = dex_first_room(length), told = 0;
  uint8_t status;
  *text = NULL;
  *size = 0;
  for (;;) {
    uint8_t *room = (uint8_t *)malloc(room_size);
    if (room == NULL) return DEX_NO_MEMORY;
    status = command(length == 0 ? nothing : bytes, length, room, room_size, &told);
    if (told > 0 && told <= room_size) {
      *text = room;
      *size = told;
      return status;
    }
    free(room);
    if (told == 0) return status;
    room_size = told;
  }
}

#ifdef __cplusplus
}
#endif

#endif

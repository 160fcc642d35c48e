"""One market's accounts in memory, on which instructions act in place, as a ledger's program does them."""

from __future__ import annotations

import ctypes
import os
import struct
from collections.abc import Iterable, Iterator, Mapping

from . import rows
from .accounts import INNER, LEAF, SLAB, WALLET, Depth, Event, Level, OpenOrders, Order
from .accounts import events_of, number_at, orders_of, side_of
from .addresses import address_at, address_bytes, address_word
from .commands import Text, accounts, within
from .commands import dump as dump_of
from .entries import Cancelled, Consumed, Done, Ordered, Refused, Reply, Settled, Swept, Took
from .errors import DexError, Flaw, NotSound
from .errors import refusal_of as failure_of
from .held import PARTS, Held
from .ledger import read_market
from .limits import STANDARD, WIDE, Limits
from .native import library
from .tables import REFUSAL_VALUES, SIZES

# The structs of library/dex.h: dex_market, dex_wallets, dex_instruction, dex_reply, dex_flaw.
MARKET, WALLETS = struct.Struct('<32s32s20Q'), struct.Struct('<' + '32sQQ' * 4)
INSTRUCTION, REPLY = struct.Struct('<32s512s2Qq8B32s32s'), struct.Struct('<4B2I4x8Q2q6Q32s')
FLAW, FLAWS = struct.Struct('<2B2xI4Q32s'), ('sound', 'fault', 'twice', 'finding')
PROGRAMS = 'serum', 'openbook'
NONE, NOBODY, MOST_NAMED = 255, bytes(32), 16
# Clocks are signed numbers of 64 bits.
FIRST_CLOCK, LAST_CLOCK = -2**63, 2**63 - 1
# How many combinations of names are kept.
KEPT = 4096
REASONS = {
    1: 'BadData', 2: 'MarketDisabled', 3: 'NoAccount', 4: 'AccountExists', 5: 'NotOwner', 6: 'NotAuthority', 7: 'WrongMint', 8: 'WalletNotSigned',
    9: 'NotEmpty', 10: 'TooManyOpenOrders', 11: 'AskTooLarge', 12: 'SequenceExhausted', 13: 'TimePast', 14: 'OrderNotFound', 15: 'SideMismatch',
    16: 'OrderNotYours', 17: 'ClientIdZero', 18: 'ClientIdNotFound', 19: 'WouldSelfTrade', 20: 'BelowMinimum', 21: 'EventQueueFull',
    22: 'InsufficientFunds', 23: 'BalanceTooLarge', 24: 'SumTooLarge',
}


def refusal_of(told: tuple) -> Refused:
    """The refusal that a told reply is."""
    reason, rule, count, room, amount, balance, clock, latest = told[1], told[2], told[4], told[5], told[12], told[13], told[14], told[15]
    order, held, pending = (told[at] | told[at + 1] << 64 for at in (16, 18, 20))
    values = {1: (rule,), 9: (count, held), 13: (clock, latest), 19: (order,), 20: (amount,), 21: (count, room), 22: (amount, balance),
              23: (balance, amount), 24: (held, pending)}.get(reason)
    name = REASONS[reason]
    names = REFUSAL_VALUES.get(name, ())
    if values is None:
        values = (address_at(told[22], 0),) * len(names)
    return Refused(reason, name, dict(zip(names, values)))


def reply_of(told: tuple) -> Reply:
    """The reply that the numbers of a `dex_reply` are."""
    kind = told[0]
    if kind == 1:
        return Ordered(told[16] | told[17] << 64, told[3], told[6], told[7], told[8], told[9])
    if kind == 0:
        return refusal_of(told)
    if kind == 2:
        return Took(told[6], told[7], told[8])
    if kind == 3:
        return Cancelled(told[4])
    if kind == 4:
        return Consumed(told[4])
    if kind == 5:
        return Settled(told[10], told[7], told[11])
    return Swept(told[7]) if kind == 6 else Done()


def flaw_of(told: tuple) -> Flaw:
    """The flaw that the numbers of a `dex_flaw` are."""
    what, kind, place, *found, account = told
    return Flaw(FLAWS[what], kind, address_at(account, 0), place, found[0] | found[1] << 64, found[2] | found[3] << 64)


class Market:
    """One market's accounts and the wallets that its traders use, as bytes in memory. An instruction acts on them in
    place.

    >>> market = Market(daisyhook.dump(script))
    >>> market.process('ann', data.new_order(side='ask', price=50, lots=4, client=7), named=('amy',),
    coin='ann_coin').lots_resting 4
    >>> market.depth(5).asks[0].price
    50

    `parts` are the accounts by name, `orders` all open-orders accounts, `wallets` the token accounts by address:
    bytearrays, to be read and not written but before `check` and `process_checked`. A market is for one thread at a
    time, and so are markets that share wallets. An open-orders account is looked for from the first on. What is proved
    is what `dex_process` does to the bytes; see docs/LIBRARY.md.
    """

    def __init__(self, dump: Text, address: str | None = None, *, program: str = 'serum', clock: int = 0,
                 wallets: dict[str, bytearray] | None = None, limits: Limits = STANDARD) -> None:
        """Takes the accounts of a market from a dump, which is audited first; `address` may be left out where it has
        one market. Markets of one dump whose traders have wallets in common share them: `wallets` are those of the
        first. `limits` are those of the audit.

        Raises DumpRefused, or AuditFailed where there are findings; KeyError where there is no such market; ValueError
        where there is no such program or clock.
        """
        self._take(Held(accounts(dump, limits)), address, program, clock, wallets)

    @classmethod
    def over(cls, held: Held, address: str, *, program: str = 'serum', clock: int = 0) -> Market:
        """The market of accounts that are in memory already, and sound: it acts on just these."""
        made = cls.__new__(cls)
        made._take(held, address, program, clock, None)
        return made

    @classmethod
    def new(cls, address: str = 'm', *, coin: str = 'coin', pc: str = 'pc', authority: str = 'admin', coin_lot: int = 1,
            pc_lot: int = 1, nodes: int = 909, events: int = 2978, accounts: Iterable[str] = (),
            wallets: Mapping[str, tuple[str, str, int]] | None = None, decimals: Mapping[str, int] | None = None,
            srm: str | None = None, msrm: str | None = None, program: str = 'serum', clock: int = 0,
            limits: Limits = STANDARD) -> Market:
        """A market with an empty book, as a script's rows make it.

        `coin` and `pc` are its mints, `coin_lot` and `pc_lot` native units of a lot; each side has so many nodes (an
        order and most further ones take two), the queue room for so many events. `accounts` are blank open-orders
        accounts, `wallets` token accounts by address, each with its mint, its owner and its native amount. Mints
        have 6 `decimals`, MSRM 0, where none are named. Addresses are labels, digits, or in base58.

        Raises ValueError where a word or a number has no place, ScriptRefused where they do not go together.

        >>> market = Market.new(coin_lot=100, pc_lot=10, accounts=['amy'], wallets={'ann_coin': ('coin', 'ann', 1000)})
        """
        word = address_word
        address, coin, pc, authority = map(word, (address, coin, pc, authority))
        srm, msrm = srm and word(srm), msrm and word(msrm)
        held = [(*map(word, (name, mint, owner)), amount) for name, (mint, owner, amount) in (wallets or {}).items()]
        places = {word(mint): number for mint, number in (decimals or {}).items()}
        mints = dict.fromkeys([coin, pc, *filter(None, (srm, msrm)), *(mint for _, mint, _, _ in held)])
        script = [rows.mint(mint, places.get(mint, 0 if mint == msrm else 6)) for mint in mints]
        script += [f'{name},{mint}\n' for name, mint in (('srm', srm), ('msrm', msrm)) if mint]
        script += [rows.wallet(*fields) for fields in held]
        script.append(rows.market(address, coin, pc, authority, coin_lot=coin_lot, pc_lot=pc_lot, nodes=nodes,
                                  events=events))
        script += [rows.orders(address, word(account)) for account in rows.listed(accounts)]
        return cls(dump_of(''.join(script), limits), program=program, clock=clock, limits=limits)

    @classmethod
    def from_accounts(cls, *files: str | os.PathLike[str], authority: str, market: str | None = None,
                      srm: str | None = None, msrm: str | None = None, program: str | None = None, clock: int = 0,
                      leave_out_wallets: bool = False, limits: Limits = WIDE) -> Market:
        """The market of a ledger's accounts: files of JSON, or folders of such, in the forms that `./ledger dump`
        reads (docs/LEDGER.md).

        `market` may be left out where they have one; `authority` signs for it and stands in no account; `srm` and
        `msrm` are mints. `program` is `serum`, `openbook` or the address of another deployment, which follows the
        rules of `serum`; else the market's owner tells it. `notes` of the market are the lines that `ledger dump`
        tells. Addresses are in base58, as digits, or labels.

        Raises AccountsRefused where the JSON is not taken, DumpRefused or AuditFailed where the accounts are not
        those of a sound market.
        """
        told = read_market(files, market, authority, srm, msrm, program, leave_out_wallets)
        made = cls(told.dump, told.address, program=told.program, clock=clock, limits=limits)
        made.notes = told.notes
        return made

    @property
    def clock(self) -> int:
        """The clock that the next instruction sees. It may be set: OutOfLimits, a ValueError, where it has more than
        64 bits with its sign."""
        return self._clock

    @clock.setter
    def clock(self, now: int) -> None:
        self._clock = within(now, FIRST_CLOCK, LAST_CLOCK, 'clock')

    def copy(self) -> Market:
        """A copy of the market and its wallets, to try something."""
        held = self._held_now().copy([self.address], self.wallets)
        made = Market.over(held, self.address, program=PROGRAMS[self._program], clock=self.clock)
        made.notes = self.notes
        return made

    def _held_now(self) -> Held:
        """All accounts as they are, of which this market acts on its own and on its wallets."""
        held = self._held.copy((), ())
        held.wallets = self.wallets
        return held

    def _take(self, held: Held, address: str | None, program: str, clock: int,
              wallets: dict[str, bytearray] | None) -> None:
        """Takes the market of these accounts. KeyError where there is none, or no address and several; ValueError
        where there is no such program."""
        is_alone = address is None and len(held.markets) == 1
        word = next(iter(held.markets)) if is_alone else address and address_word(address)
        self._held, self._one = held, held.markets[word]
        one = self._one
        self.address, self.authority = one.address, one.authority
        self.parts, self.orders, self._places = one.parts, one.orders, one.places
        self.wallets = held.wallets if wallets is None else wallets
        self.clock, self._program = clock, PROGRAMS.index(rows.one_of(program, PROGRAMS, 'program'))
        self.notes: tuple[str, ...] = ()
        self._mints = [word and address_bytes(word) for word in (held.srm, held.msrm)]
        self._lend()

    def __repr__(self) -> str:
        return f'Market({self.address!r}, {len(self.events)} events, {len(self._places)} accounts)'

    def _place(self, held: bytearray) -> int:
        """Where a bytearray's bytes are, for good: from now on its length cannot change."""
        lent = self._lent[id(held)] = self._lent.get(id(held)) or ctypes.c_char.from_buffer(held)
        return ctypes.addressof(lent)

    def _lend(self) -> None:
        """Lays out the structs that the library takes, which point into the accounts, and counts what is pending."""
        self._lent: dict[int, ctypes.c_char] = {}
        self._nothing = bytearray(1)
        held = [self.parts[name] for name in PARTS] + [self.orders]
        spots = (word for part in held for word in (self._place(part or self._nothing), len(part)))
        self._market = bytearray(MARKET.pack(address_bytes(self.address), address_bytes(self.authority), *spots, 0, 0, 0, 0))
        sizes = INSTRUCTION.size, REPLY.size, 256, FLAW.size
        self._instruction, self._reply, self._data, self._flaw = map(bytearray, sizes)
        self._pointers = [self._place(it) for it in (self._market, self._instruction, self._reply, self._data)]
        self._roles: dict[tuple, tuple] = {}
        self._names: dict[tuple, tuple] = {}
        self._addresses: dict[str, bytes] = {}
        srm, msrm = self._mints
        self._end = (self._program, srm is not None, msrm is not None, srm or NOBODY, msrm or NOBODY)
        self._act = library().dex_process
        library().dex_pending(self._pointers[0])

    def _roles_of(self, roles: tuple[str | None, ...]) -> tuple:
        """The struct of the wallets that are named under four roles, where it is, and which of them each role names."""
        words = [word and address_word(word) for word in roles]
        named = list(dict.fromkeys(word for word in words if word is not None))
        spots = [(address_bytes(word), self._place(self.wallets[word]), len(self.wallets[word])) for word in named]
        spots += [(NOBODY, self._place(self._nothing), 0)] * (4 - len(named))
        made = bytearray(WALLETS.pack(*(field for spot in spots for field in spot)))
        numbers = tuple(NONE if word is None else named.index(word) for word in words)
        if len(self._roles) == KEPT:
            self._roles.clear()
        self._roles[roles] = found = (made, ctypes.addressof(ctypes.c_char.from_buffer(made)), numbers)
        return found

    def _named(self, words: tuple[str, ...]) -> tuple:
        """The addresses of open-orders accounts one after another, and how many. ValueError where they are more than
        16."""
        if len(words) > MOST_NAMED:
            raise ValueError(f'{len(words)} accounts are named, and {MOST_NAMED} at most is wanted')
        if len(self._names) == KEPT:
            self._names.clear()
        self._names[words] = found = (b''.join(map(address_bytes, words)), len(words))
        return found

    def _signer(self, word: str) -> bytes:
        """The bytes of a signer's address."""
        if len(self._addresses) == KEPT:
            self._addresses.clear()
        return self._addresses.setdefault(word, address_bytes(word))

    def process(self, signer: str, data: bytes, *, named: Iterable[str] = (), coin: str | None = None, pc: str | None = None,
                discount: str | None = None, referrer: str | None = None) -> Reply:
        """Does an instruction on the accounts, or refuses it and changes nothing.

        `signer` signs it, `named` are the open-orders accounts that it names, in their order, and the roles are
        wallets. `data` is what it says (module `data`).

        Raises KeyError where a role names no wallet of this market's dump, ValueError where a word is no address or
        more than 16 accounts are named, TypeError where `named` is one word.
        """
        pointers = self._laid_out(signer, data, rows.listed(named), (coin, pc, discount, referrer))
        self._act(*pointers)
        return reply_of(REPLY.unpack_from(self._reply))

    def process_checked(self, signer: str, data: bytes, *, named: Iterable[str] = (), coin: str | None = None,
                        pc: str | None = None, discount: str | None = None, referrer: str | None = None) -> Reply:
        """Does what `process` does, on bytes that somebody may have changed: the market and the wallets that are named
        are checked before, which takes time by their sizes.

        Raises NotSound, with what is wrong, and OutOfMemory; then nothing was changed. Else it raises what `process`
        does.
        """
        roles = coin, pc, discount, referrer
        market, wallets, instruction, reply = self._laid_out(signer, data, rows.listed(named), roles)
        status = library().dex_process_checked(market, wallets, instruction, self._place(self._flaw), reply)
        if status != 0:
            raise self._refused(status)
        return reply_of(REPLY.unpack_from(self._reply))

    def check(self) -> Flaw | None:
        """What is wrong with the market's bytes, the first of it; None where they are those of a sound market: then
        what is pending is counted anew, and `process` may go on. Wallets are not looked at.

        Raises OutOfMemory.
        """
        status = library().dex_market_check(self._pointers[0], self._place(self._flaw))
        if status not in (0, 3):
            raise self._refused(status)
        if status == 0:
            library().dex_pending(self._pointers[0])
        return flaw_of(FLAW.unpack_from(self._flaw)) if status else None

    def _refused(self, status: int) -> DexError:
        """Why a checked call did nothing."""
        return NotSound(flaw_of(FLAW.unpack_from(self._flaw))) if status == 3 else failure_of(status, b'')

    def _laid_out(self, signer: str, data: bytes, words: tuple[str, ...],
                  roles: tuple[str | None, ...]) -> tuple[int, int, int, int]:
        """Lays out an instruction: where the market, its wallets, the instruction itself and its reply are."""
        size = len(data)
        _, wallets, numbers = self._roles.get(roles) or self._roles_of(roles)
        names, count = self._names.get(words) or self._named(words)
        if size > len(self._data):
            self._data = bytearray(size)
            self._pointers[3] = self._place(self._data)
        self._data[:size] = data
        market, instruction, reply, place = self._pointers
        INSTRUCTION.pack_into(self._instruction, 0, self._addresses.get(signer) or self._signer(signer), names, place, size, self._clock,
                              count, *numbers, *self._end)
        return market, wallets, instruction, reply

    def depth(self, levels: int) -> Depth:
        """So many of the best levels of both sides."""
        return Depth(*(levels_of(self.parts[name], name == 'bids', levels) for name in ('bids', 'asks')))

    @property
    def events(self) -> tuple[Event, ...]:
        """The pending events, the first to be consumed first."""
        return events_of(self.parts['events'])

    @property
    def bids(self) -> tuple[Order, ...]:
        """The resting bids, best first."""
        return side_of(self.parts['bids'], True)

    @property
    def asks(self) -> tuple[Order, ...]:
        """The resting asks, best first."""
        return side_of(self.parts['asks'], False)

    def open_orders(self, address: str) -> OpenOrders:
        """An open-orders account of the market. KeyError where there is none of this address."""
        word = address_word(address)
        return orders_of(word, bytes(self._one.account(word)))

    def amount(self, wallet: str) -> int:
        """The native amount in a wallet. KeyError where there is none of this address."""
        return number_at(self.wallets[address_word(wallet)], WALLET['amount'])

    def dump(self) -> bytes:
        """The dump that the market was made from, with its accounts and its wallets as they are now. Other markets
        of the dump stand in it as they were: where they acted on the same wallets, an audit of it finds their mints
        off."""
        return self._held_now().dump()


def orders_along(side: bytearray, is_bid: bool) -> Iterator[tuple[int, int]]:
    """The prices and lots of a side's orders, best first, as far as they are asked for."""
    open_nodes = [number_at(side, SLAB['root_node'], 4)] if number_at(side, SLAB['leaf_count']) else []
    children = ('first_child', 'second_child') if is_bid else ('second_child', 'first_child')
    while open_nodes:
        base = SIZES['slab'] + SIZES['inner_node'] * open_nodes.pop()
        if number_at(side, base, 4) == 1:
            open_nodes += (number_at(side, base + INNER[name], 4) for name in children)
        else:
            yield number_at(side, base + LEAF['key'] + 8), number_at(side, base + LEAF['quantity'])


def levels_of(side: bytearray, is_bid: bool, most: int) -> tuple[Level, ...]:
    """So many of the best levels of a side."""
    found: list[list[int]] = []
    for price, lots in orders_along(side, is_bid):
        if found and found[-1][0] == price:
            found[-1][1:] = found[-1][1] + lots, found[-1][2] + 1
        elif len(found) == most:
            break
        else:
            found.append([price, lots, 1])
    return tuple(Level(*level) for level in found)

"""Making a snapshot from the accounts of a ledger: which account is what, what is missing, and the rest of each mint's supply."""

from __future__ import annotations

from dataclasses import dataclass, field
from typing import Optional

from bridge.accounts import Account
from bridge.encoding import ADDRESS_BYTES, address_of, shown
from bridge.layouts import address_at, number_at
from bridge.refusals import Refusal
from bridge.snapshot import (PARTS, VAULTS, Held, Market, Snapshot, flags_of, is_blank, is_closed, kind_by_flags, length_fault)
from bridge.tables import INITIALIZED, KIND_FLAGS, NATIVE_MINT, PROGRAMS, SIZES, TOKEN_PROGRAM

_AMOUNT, _STATE, _BEHIND_AMOUNT = 64, 108, 72
# Where a native token account says that it is one, and what stands there.
_NATIVE, _BEHIND_NATIVE, _IS_NATIVE = 109, 121, b"\x01\0\0\0"
_SUPPLY = 36
_ASK = "get its account as JSON and name the file too"


@dataclass(frozen=True)
class Wanted:
    """What the user asks for: markets with their authorities, discount mints, and what to do where a snapshot is not plain."""

    markets: list[bytes]
    authorities: list[bytes]
    srm: Optional[bytes] = None
    msrm: Optional[bytes] = None
    programs: frozenset[bytes] = frozenset(PROGRAMS.values())
    leave_out_wallets: bool = False
    make_rest: bool = True
    blank: dict[bytes, bytes] = field(default_factory=dict)


@dataclass
class _Maker:
    """A snapshot in the making, and the accounts that it is made of."""

    accounts: dict[bytes, Account]
    wanted: Wanted
    snapshot: Snapshot = field(default_factory=Snapshot)
    used: dict[bytes, str] = field(default_factory=dict)
    left_out: dict[str, list[str]] = field(default_factory=dict)
    native: list[Account] = field(default_factory=list)
    counted: list[str] = field(default_factory=list)

    def take(self, address: bytes, kind: str, named_by: str, named_in: str = "words") -> Account:
        """The account of an address, as one of a kind; who names it, and in which file."""
        account = self.accounts.get(address)
        if account is None:
            raise Refusal(f"{named_in}: account {shown(address)}", f"it is in none of the files, and {named_by}", _ASK)
        if address in self.used:
            what = f"{named_by}, and it is the {self.used[address]} already"
            raise account.fault(what, "compare the market account with the ledger's")
        wrong = length_fault(kind, account.data)
        if wrong:
            raise account.fault(f"a length that is not the layout's: {wrong}", "get the whole account, of a market of version 2 or 3")
        self.used[address] = kind
        return account

    def leave_out(self, account: Account, why: str) -> None:
        """Leaves an account out, which is told at the end."""
        self.left_out.setdefault(why, []).append(f"{shown(account.address)} ({account.source})")

    def plain(self, account: Account) -> bytes:
        """The bytes of a token account. Of a native one, which stands for lamports, the word that says so is left out, and told."""
        if account.data[_NATIVE : _NATIVE + 4] != _IS_NATIVE:
            return account.data
        self.native.append(account)
        return account.data[:_NATIVE] + bytes(_BEHIND_NATIVE - _NATIVE) + account.data[_BEHIND_NATIVE:]

    def notes(self) -> list[str]:
        """What was left out or read otherwise, one line a reason."""
        lines = list(self.counted)
        if self.native:
            first = ", ".join(shown(account.address) for account in self.native[:3])
            others = f" and {len(self.native) - 3} more" if len(self.native) > 3 else ""
            lines.append(f"native accounts, read as plain ones of their token amounts: {first}{others}")
        for why, names in self.left_out.items():
            more = f" and {len(names) - 3} more" if len(names) > 3 else ""
            lines.append(f"left out, {why}: {', '.join(names[:3])}{more}")
        return lines


def _check_owner(account: Account, owners: frozenset[bytes], kind: str) -> None:
    """Refuses an account that another program owns."""
    if account.owner in owners:
        return
    wanted = " or ".join(sorted(shown(owner) for owner in owners))
    what = f"it is owned by {shown(account.owner)}, and one of its kind ({kind}) by {wanted}"
    remedy = "take the account of the right address; for another deployment of the program say --program ADDRESS"
    raise account.fault(what, remedy)


def _check_flags(account: Account, kind: str) -> None:
    """Refuses an account whose flags name another kind; further flags are left to `dex audit`."""
    if kind_by_flags(account.data) == kind and flags_of(account.data) & INITIALIZED:
        return
    what = f"its flags are {flags_of(account.data)}, and one of its kind ({kind}) has {INITIALIZED + KIND_FLAGS[kind]}"
    raise account.fault(what, "compare it with the ledger's own, and give the account that belongs here")


def _take_market(maker: _Maker, address: bytes, authority: bytes) -> None:
    """Takes a market with its vaults, queues and sides."""
    name = shown(address)
    market = maker.take(address, "market", "--market names it")
    _check_owner(market, maker.wanted.programs, "market")
    _check_flags(market, "market")
    parts = {}
    for part in PARTS:
        named_by = f"the market {name} names it as its {part}"
        account = maker.take(address_at("market", part, market.data), part, named_by, market.source)
        _check_owner(account, frozenset([TOKEN_PROGRAM if part in VAULTS else market.owner]), part)
        if part not in VAULTS:
            _check_flags(account, part)
        parts[part] = maker.plain(account) if part in VAULTS else account.data
    maker.snapshot.markets.append(Market(address, authority, market.data, parts))


def _mints_wanted(maker: _Maker) -> dict[bytes, tuple[str, str]]:
    """The mints that have to be there, each with who names it and in which file."""
    wanted: dict[bytes, tuple[str, str]] = {}
    for market in maker.snapshot.markets:
        source = maker.accounts[market.address].source
        for word in ("coin_mint", "pc_mint"):
            named_by = f"the market {shown(market.address)} names it as its {word}"
            wanted.setdefault(address_at("market", word, market.data), (named_by, source))
    for word, mint in (("--srm", maker.wanted.srm), ("--msrm", maker.wanted.msrm)):
        if mint is not None:
            wanted.setdefault(mint, (f"{word} names it", "words"))
    return wanted


def _take_mints(maker: _Maker) -> None:
    """Takes the mints: those that have to be there, and all others among the accounts, in their order."""
    for address, (named_by, source) in _mints_wanted(maker).items():
        _check_owner(maker.take(address, "mint", named_by, source), frozenset([TOKEN_PROGRAM]), "mint")
    for account in maker.accounts.values():
        is_other = account.address not in maker.used and account.owner == TOKEN_PROGRAM
        if is_other and length_fault("mint", account.data) is None:
            maker.take(account.address, "mint", "it is among the files")
        if maker.used.get(account.address) == "mint":
            maker.snapshot.mints.append(Held(account.address, account.data))
    maker.snapshot.srm, maker.snapshot.msrm = maker.wanted.srm, maker.wanted.msrm


def _odd_byte(data: bytes) -> Optional[int]:
    """The first place behind the amount of a token account where another byte stands than a plain wallet has."""
    plain = bytes(_STATE - _BEHIND_AMOUNT) + b"\x01" + bytes(len(data) - _STATE - 1)
    if data[_BEHIND_AMOUNT:] == plain:
        return None
    return next(place for place, byte in enumerate(data[_BEHIND_AMOUNT:], _BEHIND_AMOUNT) if byte != plain[place - _BEHIND_AMOUNT])


def _take_wallet(maker: _Maker, account: Account) -> None:
    """Takes a token account that is no vault, or leaves it out."""
    maker.take(account.address, "wallet", "it is among the files")
    mint = address_at("token_account", "mint", account.data)
    if maker.used.get(mint) != "mint":
        maker.leave_out(account, "wallets of a mint that is not in the dump")
        return
    data = maker.plain(account)
    place = _odd_byte(data)
    if place is None:
        maker.snapshot.wallets.append(Held(account.address, data))
    elif maker.wanted.leave_out_wallets:
        maker.leave_out(account, "wallets with a delegate, a close authority or frozen")
    else:
        what = f"a wallet with byte {account.data[place]} at place {place} (a delegate, a close authority or frozen)"
        raise account.fault(what, "leave its file out, or say --leave-out-wallets")


def _market_of_blank(maker: _Maker, account: Account) -> Market:
    """The market that a blank open-orders account is reserved for."""
    markets = {market.address: market for market in maker.snapshot.markets}
    said = maker.wanted.blank.get(account.address)
    if said is not None:
        return markets[said]
    if len(markets) > 1:
        remedy = f"say --blank MARKET {shown(account.address)}"
        raise account.fault("an open-orders account that was never opened does not say which of the markets it is for", remedy)
    return maker.snapshot.markets[0]


def _market_of(maker: _Maker, account: Account) -> Optional[Market]:
    """The market that an open-orders account belongs to, where it is one of the wanted."""
    if is_blank(account.data):
        return _market_of_blank(maker, account)
    address = address_at("open_orders", "market", account.data)
    return next((market for market in maker.snapshot.markets if market.address == address), None)


def _take_orders(maker: _Maker, account: Account) -> None:
    """Takes an open-orders account of one of the markets, or leaves it out."""
    maker.take(account.address, "open_orders", "it is among the files")
    if not is_blank(account.data) and not is_closed(account.data):
        _check_flags(account, "open_orders")
    market = _market_of(maker, account)
    if market is None:
        maker.leave_out(account, "open-orders accounts of other markets")
    else:
        _check_owner(account, frozenset([maker.accounts[market.address].owner]), "open_orders")
        market.orders.append(Held(account.address, account.data))


def _take_rest(maker: _Maker, account: Account) -> None:
    """Takes an account that no market and no option names by what it is, or leaves it out."""
    if account.owner == TOKEN_PROGRAM:
        if length_fault("wallet", account.data):
            raise account.fault(f"it has {len(account.data)} bytes, and a token account has 165 and a mint 82", "leave its file out")
        _take_wallet(maker, account)
    elif account.owner not in maker.wanted.programs:
        what = f"it is owned by {shown(account.owner)}, which is neither the token program nor the market's"
        raise account.fault(what, "leave its file out; for another deployment of the program say --program ADDRESS")
    elif length_fault("open_orders", account.data) is None and kind_by_flags(account.data) in (None, "open_orders"):
        _take_orders(maker, account)
    else:
        _leave_other(maker, account)


def _leave_other(maker: _Maker, account: Account) -> None:
    """Leaves out a market, queue or side that is no wanted market's; refuses what has a length or flags of no layout."""
    kind = kind_by_flags(account.data)
    wrong = length_fault(kind, account.data) if kind else f"{len(account.data)} bytes with flags {flags_of(account.data)}"
    if wrong:
        raise account.fault(f"a length or flags of no layout: {wrong}", "get the whole account, or leave its file out")
    maker.leave_out(account, "accounts of other markets")


def _held_of(snapshot: Snapshot, mint: bytes) -> int:
    """What the wallets and vaults of a snapshot hold of a mint."""
    accounts = [entry.data for entry in snapshot.entries() if entry.kind == "wallet" or entry.kind in VAULTS]
    return sum(number_at("token_account", "amount", data) for data in accounts if data[:ADDRESS_BYTES] == mint)


def rest_name(place: int) -> str:
    """The label of the made wallet that holds what no other account holds of the mint of a place."""
    return f"rest_{place}"


def rest_wallet(mint: bytes, amount: int) -> bytes:
    """The bytes of a made wallet."""
    data = bytearray(SIZES["wallet"].least)
    data[0:32], data[32:64] = mint, address_of("rest")
    data[_AMOUNT : _AMOUNT + 8] = amount.to_bytes(8, "little")
    data[_STATE] = 1
    return bytes(data)


def _count_native(maker: _Maker, place: int, mint: Held) -> None:
    """Writes what the accounts hold of a native mint as its supply, which the ledger does not count."""
    held = _held_of(maker.snapshot, mint.address)
    if held >= 2**64:
        raise maker.accounts[mint.address].fault(f"the wallets and vaults hold {held} of it", "take all accounts at one slot")
    if held != number_at("mint", "supply", mint.data):
        data = mint.data[:_SUPPLY] + held.to_bytes(8, "little") + mint.data[_SUPPLY + 8 :]
        maker.snapshot.mints[place] = Held(mint.address, data)
        maker.counted.append(f"native mint {shown(mint.address)}: its supply, which the ledger does not count, is {held} in the dump")


def _add_rests(maker: _Maker) -> None:
    """Adds one made wallet for each mint of which more is supplied than the accounts hold. The supply of a native mint is what they hold."""
    native = {address_at("token_account", "mint", account.data) for account in maker.native} | {NATIVE_MINT}
    for place, mint in enumerate(list(maker.snapshot.mints)):
        if mint.address in native:
            _count_native(maker, place, mint)
            continue
        supply, held = number_at("mint", "supply", mint.data), _held_of(maker.snapshot, mint.address)
        account, address = maker.accounts[mint.address], address_of(rest_name(place))
        if supply < held:
            what = f"its supply is {supply}, and the wallets and vaults of the files hold {held} of it"
            raise account.fault(what, "take all accounts at one slot, the mint's too")
        if supply > held and address in maker.used:
            remedy = "say --no-rest, or leave that account out"
            raise account.fault(f"{supply - held} of its supply are held by none, and {rest_name(place)} is there already", remedy)
        if supply > held:
            maker.snapshot.wallets.append(Held(address, rest_wallet(mint.address, supply - held)))


def _check_some_market(accounts: dict[bytes, Account], wanted: Wanted) -> None:
    """Refuses accounts of the program where the user names no market."""
    for account in accounts.values():
        if not wanted.markets and account.owner in wanted.programs:
            raise account.fault("the program owns it, and no market is named", "say --market ADDRESS --authority ADDRESS")


def _check_wanted(accounts: dict[bytes, Account], wanted: Wanted) -> None:
    """Refuses blank accounts that the user names wrongly."""
    _check_some_market(accounts, wanted)
    for address, market in wanted.blank.items():
        if market not in wanted.markets:
            raise Refusal(f"--blank: market {shown(market)}", "--market does not name it", "name one of the markets")
        account = accounts.get(address)
        if account is None:
            raise Refusal(f"--blank: account {shown(address)}", "it is in none of the files", _ASK)
        if not is_blank(account.data):
            raise account.fault("--blank names it, and it is no open-orders account of zero bytes", "leave the option out")


def _slot_notes(accounts: dict[bytes, Account]) -> list[str]:
    """A line where the accounts are of several slots, as far as the answers tell."""
    slots = {account.slot for account in accounts.values() if account.slot is not None}
    if len(slots) < 2:
        return []
    return [f"the accounts are of slots {min(slots)} to {max(slots)}: an audit may find what happened between"]


def make_snapshot(accounts: dict[bytes, Account], wanted: Wanted) -> tuple[Snapshot, list[str]]:
    """The snapshot of the wanted markets, and lines that tell what was left out."""
    _check_wanted(accounts, wanted)
    maker = _Maker(accounts, wanted)
    for address, authority in zip(wanted.markets, wanted.authorities):
        _take_market(maker, address, authority)
    _take_mints(maker)
    for account in accounts.values():
        if account.address not in maker.used:
            _take_rest(maker, account)
    if wanted.make_rest:
        _add_rests(maker)
    return maker.snapshot, maker.notes() + _slot_notes(accounts)


def names_of_markets(accounts: dict[bytes, Account]) -> list[tuple[str, bytes]]:
    """The accounts that the markets among some accounts name, each with the market's word for it."""
    named: list[tuple[str, bytes]] = []
    for account in accounts.values():
        if kind_by_flags(account.data) == "market" and length_fault("market", account.data) is None:
            named += [(word, address_at("market", word, account.data)) for word in ("coin_mint", "pc_mint", *PARTS)]
    return named

"""The command's words: what is read, what is written, and with which status it ends."""

from __future__ import annotations

import argparse
import contextlib
import itertools
import json
import os
import sys
import tempfile
from typing import IO, Iterable, NoReturn, Optional, Sequence

from bridge.accounts import read_accounts, read_address, write_account_files
from bridge.comparing import compare, read_compared
from bridge.dump_text import dump_rows, read_dump
from bridge.encoding import base58_of, dump_word
from bridge.files import STANDARD_INPUT, is_json_text, name_of, read_bytes
from bridge.making import Wanted, make_snapshot, names_of_markets
from bridge.merging import merge_idle, read_kept
from bridge.parts import write_parts
from bridge.program import find_program
from bridge.refusals import Refusal, Words, one_line
from bridge.rows import Wish, make_script, wallets_of
from bridge.simulating import answer_of, one_of, simulate, table_of
from bridge.snapshot import Snapshot, is_blank
from bridge.tables import PROGRAMS
from bridge.transactions import Transaction, each_transaction, read_transactions
from bridge.wire import read_loaded, read_unsent

DONE, DIFFERENT, REFUSED = 0, 1, 2
# The most rows of a part of a script. A script may have twice as many.
_ROWS = 50_000


class _Parser(argparse.ArgumentParser):
    """A parser that says in one line what is wrong with the words."""

    def error(self, message: str) -> NoReturn:
        """Refuses the words."""
        raise Words(f"{message}; `{self.prog} --help` tells the words")

    def print_help(self, file: Optional[IO[str]] = None) -> None:
        """Writes the words as all else is written."""
        _write(self.format_help().splitlines())


def _address(word: str, option: str) -> bytes:
    """The address that a word of the command is."""
    return read_address(word, option)


def _program(word: Optional[str]) -> Optional[bytes]:
    """The program that a word names: `serum`, `openbook`, or an address."""
    if word is None:
        return None
    return PROGRAMS[word] if word in PROGRAMS else _address(word, "--program")


def _write(lines: Iterable[str]) -> int:
    """Writes lines to standard output, and tells how many."""
    count = 0
    if sys.stdout is None:
        raise Refusal("standard output", "it is closed", "give it a place that takes all")
    try:
        for line in lines:
            sys.stdout.write(line + "\n")
            count += 1
        sys.stdout.flush()
    except OSError as fault:
        os.dup2(os.open(os.devnull, os.O_WRONLY), sys.stdout.fileno())
        raise Refusal("standard output", f"it cannot be written ({fault.strerror})", "give it a place that takes all") from None
    return count


def write_error(text: str) -> None:
    """Writes text to standard error. Where it takes nothing or is closed, nothing more is written there, and no status changes by it."""
    if sys.stderr is None:
        return
    try:
        sys.stderr.write(text)
        sys.stderr.flush()
    except (OSError, ValueError):
        with contextlib.suppress(OSError, ValueError):
            os.dup2(os.open(os.devnull, os.O_WRONLY), sys.stderr.fileno())
            sys.stderr.flush()


def _tell(lines: Iterable[str]) -> None:
    """Tells lines on standard error."""
    for line in lines:
        write_error(f"ledger: {one_line(line)}\n")


def _authorities(words: argparse.Namespace) -> list[bytes]:
    """The authority of each market."""
    given = [_address(word, "--authority") for word in words.authority]
    if len(given) == 1:
        return given * len(words.market)
    if len(given) != len(words.market):
        raise Words(f"{len(words.market)} markets and {len(given)} authorities; say --authority once, or once for each --market")
    return given


def _wanted(words: argparse.Namespace) -> Wanted:
    """What the words of `dump` ask for."""
    markets = [_address(word, "--market") for word in words.market]
    if len(set(markets)) != len(markets):
        raise Words("--market names one market twice; name each once")
    program = _program(words.program)
    programs = frozenset(PROGRAMS.values()) if program is None else frozenset([program])
    return Wanted(
        markets, _authorities(words), _address(words.srm, "--srm") if words.srm else None,
        _address(words.msrm, "--msrm") if words.msrm else None, programs, words.leave_out_wallets, not words.no_rest,
        {_address(account, "--blank"): _address(market, "--blank") for market, account in words.blank})


def _dump(words: argparse.Namespace) -> int:
    """Writes the dump of accounts."""
    if (words.keep or words.merged) and not words.merge_idle:
        raise Words("--keep and --merged are of --merge-idle; say it with them")
    snapshot, notes = make_snapshot(read_accounts(words.file), _wanted(words))
    if words.merge_idle:
        merged = merge_idle(snapshot, read_kept(words.keep))
        notes += merged.notes()
        if words.merged:
            _write_file(merged.rows, words.merged, "--merged")
    _write(dump_rows(snapshot))
    _tell(notes)
    return DONE


def _write_file(lines: Iterable[str], path: str, option: str) -> None:
    """Writes lines to the file that an option names."""
    try:
        with open(path, "w", encoding="utf-8") as file:
            file.writelines(line + "\n" for line in lines)
    except OSError as fault:
        raise Refusal(path, f"it cannot be written ({fault.strerror})", f"name a file that you may write for {option}") from None


def _write_table(lines: Iterable[str], path: Optional[str]) -> None:
    """Writes the table of a script's rows to its file, or to standard error."""
    if path is None:
        write_error("".join(line + "\n" for line in lines))
    else:
        _write_file(lines, path, "--table")


def _rules_of(words: argparse.Namespace) -> dict[bytes, str]:
    """The programs whose instructions are rows, each with the rules that it follows."""
    program = _program(words.program)
    if program is None:
        if words.rules is not None:
            raise Words("--rules says which rules another deployment follows; say --program ADDRESS with it")
        return {address: name for name, address in PROGRAMS.items()}
    known = {address: name for name, address in PROGRAMS.items()}
    return {program: words.rules or known.get(program, "serum")}


def _snapshot(words: argparse.Namespace) -> Snapshot:
    """The accounts of the dump or report that the words name."""
    data = read_bytes(words.dump)
    if is_json_text(data):
        raise Refusal(name_of(words.dump), "it is JSON, and a dump is wanted first", "make one by `ledger dump`, and name it first")
    return read_dump(data, name_of(words.dump))


def _wish(words: argparse.Namespace, make_swaps: bool) -> Wish:
    """What the words ask for in making rows."""
    markets = [_address(word, "--market") for word in words.market] or None
    return Wish(markets, _rules_of(words), words.leave_out_unknown, words.open_accounts, make_swaps)


def _unsent(words: argparse.Namespace) -> list[Transaction]:
    """The transactions that were not sent."""
    return read_unsent(words.file, read_loaded(words.loaded) if words.loaded else None)


def _parts(words: argparse.Namespace, snapshot: Snapshot, wish: Wish) -> int:
    """Writes the script of a dump and transactions in parts. Transactions are read as they are wanted, so a month needs no more memory than
    a day of it, but for the table, which waits in a file."""
    transactions = _unsent(words) if words.unsent else each_transaction(words.file)
    with tempfile.TemporaryFile("w+", encoding="ascii") as body:
        head = write_parts(snapshot, transactions, wish, words.rows or _ROWS, words.parts, body)
        body.seek(0)
        _write_table(itertools.chain([head], (line.rstrip("\n") for line in body)), words.table)
    return DONE


def _script(words: argparse.Namespace) -> int:
    """Writes the script of a dump and transactions."""
    if words.loaded and not words.unsent:
        raise Words("--loaded is for transactions that were not sent; say --unsent with it")
    if words.rows and not words.parts:
        raise Words("--rows says how many rows a part may have; say --parts FOLDER with it")
    wish, snapshot = _wish(words, not words.no_swaps), _snapshot(words)
    if words.parts:
        return _parts(words, snapshot, wish)
    rows, table = make_script(snapshot, _unsent(words) if words.unsent else read_transactions(words.file), wish)
    _write_table(table, words.table)
    _write(rows)
    return DONE


def _simulate(words: argparse.Namespace) -> int:
    """Writes what a transaction that was not sent would do."""
    wish, snapshot = _wish(words, False), _snapshot(words)
    transaction = one_of(_unsent(words), ", ".join(words.file), words.clock)
    outcome = simulate(find_program(words.dex, words.wide), snapshot, transaction, wish)
    _write([json.dumps(answer_of(outcome))])
    for line in table_of(outcome):
        write_error(line + "\n")
    return DONE


def _words_for(snapshot: Snapshot) -> str:
    """The words of `dump` that a snapshot's accounts do not tell by themselves."""
    words = []
    for market in snapshot.markets:
        words += ["--market", base58_of(market.address), "--authority", base58_of(market.authority)]
    for name, mint in (("--srm", snapshot.srm), ("--msrm", snapshot.msrm)):
        words += [name, base58_of(mint)] if mint is not None else []
    for market in snapshot.markets if len(snapshot.markets) > 1 else []:
        for held in market.orders:
            words += ["--blank", base58_of(market.address), base58_of(held.address)] if is_blank(held.data) else []
    return " ".join(words)


def _accounts(words: argparse.Namespace) -> int:
    """Writes the accounts of a dump or a report as files."""
    program = _program(words.program) or PROGRAMS["serum"]
    snapshot = read_dump(read_bytes(STANDARD_INPUT), name_of(STANDARD_INPUT))
    write_account_files(snapshot, program, words.folder)
    _write([_words_for(snapshot)])
    return DONE


def _compare(words: argparse.Namespace) -> int:
    """Writes what differs between two inputs."""
    if words.first == words.second == STANDARD_INPUT:
        raise Words("standard input can be one of the two alone; name a file for the other")
    first, second = read_compared(words.first), read_compared(words.second)
    notes: list[str] = []
    count = _write(compare(first, second, words.bytes, notes))
    _tell(notes)
    return DIFFERENT if count else DONE


def _addresses(words: argparse.Namespace) -> int:
    """Writes addresses in both ways."""
    addresses = [_address(word, f"address {number}") for number, word in enumerate(words.word, 1)]
    _write(f"{base58_of(address)} {dump_word(address)}" for address in addresses)
    return DONE


def _names(words: argparse.Namespace) -> int:
    """Writes the accounts that markets name."""
    named = names_of_markets(read_accounts(words.file))
    if not named:
        raise Refusal(", ".join(words.file), "no market is among the accounts", "get the market's account, of 388 bytes")
    _write(f"{word} {base58_of(address)}" for word, address in named)
    return DONE


def _wallets(words: argparse.Namespace) -> int:
    """Writes the wallets that transactions use."""
    markets = [_address(word, "--market") for word in words.market] or None
    found = wallets_of(read_transactions(words.file), Wish(markets, _rules_of(words)))
    _write(f"{role} {base58_of(address)}" for role, address in found)
    return DONE


def _add_dump(parser: argparse.ArgumentParser) -> None:
    """The words of `dump`."""
    parser.add_argument("--market", action="append", default=[], metavar="ADDRESS", help="a market; once for each")
    parser.add_argument("--authority", action="append", default=[], metavar="ADDRESS",
                        help="who signs prunes, sweeps and disabling: once for all markets, or once for each")
    parser.add_argument("--srm", metavar="ADDRESS", help="the mint of the SRM token")
    parser.add_argument("--msrm", metavar="ADDRESS", help="the mint of the MSRM token")
    parser.add_argument("--program", metavar="PROGRAM", help="serum, openbook, or the address of another deployment")
    parser.add_argument("--leave-out-wallets", action="store_true", help="leave out wallets that a dump has no form for, and tell them")
    parser.add_argument("--no-rest", action="store_true", help="make no wallet for what no account holds of a mint")
    parser.add_argument("--blank", action="append", default=[], nargs=2, metavar=("MARKET", "ACCOUNT"),
                        help="the market of an open-orders account of zero bytes, where there are several markets")
    parser.add_argument("--merge-idle", action="store_true",
                        help="put accounts together that no order, slot or event is of: open-orders accounts, and the wallets of a mint")
    parser.add_argument("--keep", action="append", default=[], metavar="FILE",
                        help="with --merge-idle: keep what these transactions name, or these addresses, one a line")
    parser.add_argument("--merged", metavar="FILE", help="with --merge-idle: write the rows that went, each behind the account that it went into")
    parser.add_argument("file", nargs="+", metavar="FILE", help="account JSON, or a folder of such files")


def _add_transactions(parser: argparse.ArgumentParser) -> None:
    """The words of every command that reads transactions."""
    parser.add_argument("--market", action="append", default=[], metavar="ADDRESS", help="a market; none: all of them")
    parser.add_argument("--program", metavar="PROGRAM", help="serum, openbook, or the address of another deployment")
    parser.add_argument("--rules", choices=sorted(PROGRAMS), help="whose rules another deployment follows (serum)")


def _count(word: str) -> int:
    """The number of rows that a word tells."""
    if not (word.isascii() and word.isdecimal()) or not 0 < int(word) < 2**31:
        raise argparse.ArgumentTypeError(f"{word!r} is no number of rows")
    return int(word)


def _add_script(parser: argparse.ArgumentParser) -> None:
    """The words of `script`."""
    _add_transactions(parser)
    parser.add_argument("--table", metavar="FILE", help="write the table of rows to this file, not to standard error")
    parser.add_argument("--leave-out-unknown", action="store_true", help="go on without instructions that a script has no form for")
    parser.add_argument("--open-accounts", action="store_true", help="open accounts by a row before the first order that finds them blank")
    parser.add_argument("--unsent", action="store_true", help="the transactions were not sent: texts in base64 or base58, or JSON without meta")
    parser.add_argument("--loaded", metavar="FILE", help="with --unsent: JSON with the lists writable and readonly, what their tables hold")
    parser.add_argument("--no-swaps", action="store_true", help="make a row of each take, also of two that one transaction did together")
    parser.add_argument("--parts", metavar="FOLDER", help="write the script in parts into this new folder: one for each day or --rows rows")
    parser.add_argument("--rows", type=_count, metavar="N", help=f"the most rows of a part, {_ROWS} where it is not said")
    parser.add_argument("dump", metavar="DUMP", help="a dump or a report; - is standard input")
    parser.add_argument("file", nargs="*", metavar="FILE", help="transaction JSON, oldest first, or a folder of such files")


def _seconds(word: str) -> int:
    """The time that a word tells."""
    if not (word.isascii() and word.isdecimal()) or int(word) >= 2**63:
        raise argparse.ArgumentTypeError(f"{word!r} is no number of seconds")
    return int(word)


def _add_simulate(parser: argparse.ArgumentParser) -> None:
    """The words of `simulate`."""
    _add_transactions(parser)
    parser.add_argument("--loaded", metavar="FILE", help="JSON with the lists writable and readonly: what the transaction's tables hold")
    parser.add_argument("--clock", type=_seconds, metavar="SECONDS", help="the time that the program sees; none: the transaction's blockTime")
    parser.add_argument("--dex", metavar="PATH", help="the exchange's program; none: the one of this folder, where it is built")
    parser.add_argument("--wide", action="store_true", help="a market of more than 64 open-orders accounts: by the library, where it is built")
    parser.add_argument("--leave-out-unknown", action="store_true", help="go on without instructions of other programs and on other markets")
    parser.add_argument("--open-accounts", action="store_true", help="open accounts by a row before the first order that finds them blank")
    parser.add_argument("dump", metavar="DUMP", help="a dump or a report; - is standard input")
    parser.add_argument("file", nargs="+", metavar="FILE", help="a transaction or a message: base64 or base58 text, or JSON of getTransaction")


def _add_names(parser: argparse.ArgumentParser) -> None:
    """The words of `names`."""
    parser.add_argument("file", nargs="+", metavar="FILE", help="account JSON with a market, or a folder of such files")


def _add_wallets(parser: argparse.ArgumentParser) -> None:
    """The words of `wallets`."""
    _add_transactions(parser)
    parser.add_argument("file", nargs="+", metavar="FILE", help="transaction JSON, oldest first, or a folder of such files")


def _add_accounts(parser: argparse.ArgumentParser) -> None:
    """The words of `accounts`."""
    parser.add_argument("--program", metavar="PROGRAM", help="the program that owns the accounts: serum, openbook, or an address (serum)")
    parser.add_argument("folder", metavar="FOLDER", help="a folder that is new or empty; the dump or report stands on standard input")


def _add_compare(parser: argparse.ArgumentParser) -> None:
    """The words of `compare`."""
    about = "a dump, a report, account JSON, or a folder of such files; - is standard input"
    parser.add_argument("--bytes", action="store_true", help="compare every byte, also those that mean nothing")
    parser.add_argument("first", metavar="FIRST", help=about)
    parser.add_argument("second", metavar="SECOND", help=about)


def _add_address(parser: argparse.ArgumentParser) -> None:
    """The words of `address`."""
    parser.add_argument("word", nargs="+", metavar="WORD", help="an address: base58, 0x and 64 digits, or a label")


_COMMANDS = (
    ("dump", "accounts in, a dump out", _add_dump, _dump),
    ("script", "a dump and transactions in, a script out", _add_script, _script),
    ("simulate", "tells what a transaction that was not sent would do", _add_simulate, _simulate),
    ("accounts", "a report or a dump in, one JSON file an account out", _add_accounts, _accounts),
    ("compare", "tells each field that differs between two inputs", _add_compare, _compare),
    ("names", "tells the accounts that a market names", _add_names, _names),
    ("wallets", "tells the wallets that transactions use", _add_wallets, _wallets),
    ("address", "tells addresses in both ways", _add_address, _addresses),
)


def _parser() -> argparse.ArgumentParser:
    """The parser of the command's words."""
    about = "Brings a market from a ledger: accounts and transactions in, the same forms out. Nothing of it is proved."
    parser = _Parser(prog="ledger", description=about, epilog="docs/LEDGER.md tells more.", allow_abbrev=False)
    commands = parser.add_subparsers(dest="command", required=True, metavar="COMMAND")
    for name, text, add, act in _COMMANDS:
        part = commands.add_parser(name, help=text, description=text[0].upper() + text[1:] + ".", allow_abbrev=False)
        add(part)
        part.set_defaults(act=act)
    return parser


def _parsed(arguments: Sequence[str]) -> argparse.Namespace:
    """The words, with options before, between and behind the files."""
    parser = _parser()
    words, more = parser.parse_known_args(arguments)
    if any(word.startswith("-") for word in more) or (more and not hasattr(words, "file")):
        parser.error(f"unknown words: {' '.join(more)}")
    if more:
        words.file = words.file + more
    return words


def main(arguments: Sequence[str]) -> int:
    """Does what the words ask for, and answers the exit status."""
    try:
        words = _parsed(arguments)
        status: int = words.act(words)
        return status
    except (Refusal, Words) as fault:
        _tell([str(fault)])
    except MemoryError:
        _tell(["there is not enough memory for this input; give fewer accounts at once"])
    return REFUSED

"""Replays a script and tells what came of it: the book's depth, what each wallet holds, and which rows were refused.

From the top of the repository: PYTHONPATH=library python3 library/examples/replay.py examples/two_traders.csv
"""

import sys
from pathlib import Path

import daisyhook

try:
    report = daisyhook.replay(Path(sys.argv[1]).read_bytes())
except daisyhook.ScriptRefused as refusal:
    sys.exit(f'row {refusal.row} of the script is at fault: {refusal.name}')

for market in report.markets.values():
    print(f'market {market.address}: {len(market.journal)} rows, {len(market.events)} pending events')
    for level in reversed(market.depth.asks):
        print(f'  ask {level.price:>8} {level.lots:>8} lots in {level.orders} orders')
    for level in market.depth.bids:
        print(f'  bid {level.price:>8} {level.lots:>8} lots in {level.orders} orders')
    for entry in market.journal:
        if isinstance(entry.reply, daisyhook.Refused):
            print(f'  row {entry.row} was refused: {entry.reply.name} {entry.reply.values}')
for wallet in report.wallets.values():
    print(f'wallet {wallet.address}: {wallet.amount} of {wallet.mint}, owned by {wallet.owner}')

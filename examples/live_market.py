"""Two strategies on a live market: each row is answered at once, and what comes next is decided by the answer.

A desk runs behind two pipes (`daisyhook.Desk`). A seeded flow of others trades on it. Mia quotes both sides around the middle of the book.
Tom buys when the middle rose since a few steps ago, and sells when it fell. Their fills are printed as they come: Tom's from the answer to
his own row, Mia's, which others cause, from the events that the next crank will pay.

From the top of the repository, where the desk is built: PYTHONPATH=library python3 examples/live_market.py
"""

from daisyhook import Desk, Ordered, flow, rows
from daisyhook.accounts import Accounts

STEPS, LOTS, AWAY, BACK = 40, 5, 2, 4
MONEY = 10**9
MIA = rows.Trader('m', 'mia', account='mia_orders', coin='mia_coin', pc='mia_usd', lane=2)
TOM = rows.Trader('m', 'tom', account='tom_orders', coin='tom_coin', pc='tom_usd', lane=3)
PARAMETERS = flow.Parameters(seed=11, volatility=2.0)


def setup_of(crowd: flow.Flow) -> str:
    """The market with the others, and with Mia and Tom."""
    made = crowd.setup()
    for who in (MIA, TOM):
        made += rows.wallet(who.coin, 'coin', who.signer, MONEY) + rows.wallet(who.pc, 'usd', who.signer, MONEY) + rows.orders('m', who.account)
    return made


def lines_of(text: str) -> list[str]:
    """The rows of a text."""
    return text.splitlines()


def middle(desk: Desk) -> float | None:
    """The middle between the best bid and the best ask."""
    book = desk.book('m', 1)
    return (book.bids[0].price + book.asks[0].price) / 2 if book.bids and book.asks else None


class Mia:
    """Quotes both sides, anew each step."""

    def __init__(self) -> None:
        self.client = 0

    def quote(self, desk: Desk, price: float) -> None:
        """Cancels what stands, and places both sides."""
        if self.client:
            desk.do(rows.cancel(MIA, self.client - 1, self.client))
        self.client += 2
        bid, ask = int(price) - AWAY, int(price) + 1 + AWAY
        desk.do(rows.new_order(MIA, side='bid', price=bid, lots=LOTS, pc=bid * LOTS * 10 * 2, client=self.client - 1, self_trade='cancel'))
        desk.do(rows.new_order(MIA, side='ask', price=ask, lots=LOTS, client=self.client, self_trade='cancel'))


class Tom:
    """Follows the middle."""

    def __init__(self) -> None:
        self.seen: list[float] = []

    def trade(self, desk: Desk, step: int, price: float) -> None:
        """Takes one lot in the direction of the last steps."""
        self.seen.append(price)
        if len(self.seen) <= BACK or self.seen[-1] == self.seen[-1 - BACK]:
            return
        side, limit = ('bid', int(price) + 5) if self.seen[-1] > self.seen[-1 - BACK] else ('ask', int(price) - 5)
        order = rows.new_order(TOM, side=side, price=limit, lots=1, pc=limit * 10 * 2 if side == 'bid' else None, order_type='ioc')
        reply = desk.do(order).reply
        if isinstance(reply, Ordered) and reply.lots_filled:
            print(f'step {step:2}  Tom {"buys " if side == "bid" else "sells"} {reply.lots_filled} for {reply.pc}, fee {reply.fee}')


def crank(desk: Desk, step: int, everybody: list[rows.Trader]) -> None:
    """Prints Mia's fills of this step, and pays all events."""
    events = Accounts(desk.dump()).markets['m'].events
    for event in events:
        if event.account == MIA.account and event.kind == 'maker fill':
            lots, quote = (event.released // 100, event.paid) if event.is_bid else (event.paid // 100, event.released)
            print(f'step {step:2}  Mia {"buys " if event.is_bid else "sells"} {lots} for {quote}')
    if events:
        desk.do(rows.consume(MIA, [who.account for who in everybody]))


def worth_of(desk: Desk, who: rows.Trader, price: float) -> int:
    """What a trader has gained in native quote, base at this price: wallets, and what the market holds."""
    accounts = Accounts(desk.dump())
    account = accounts.markets['m'].open_orders[who.account]
    coin = accounts.wallets[who.coin].amount + account.coin_total - MONEY
    return accounts.wallets[who.pc].amount + account.pc_total - MONEY + round(coin / 100 * price * 10)


crowd = flow.Flow(PARAMETERS)
everybody = [*crowd.traders, MIA, TOM]
mia, tom = Mia(), Tom()
with Desk(setup_of(crowd), timeout=60) as desk:
    desk.do_all(lines_of(crowd.init() + rows.init(MIA) + rows.init(TOM)))
    price = PARAMETERS.fair
    for step in range(1, STEPS + 1):
        desk.do_all(lines_of(crowd.rows(desk.book('m', 1), 1.0)))
        crank(desk, step, everybody)
        price = middle(desk) or price
        mia.quote(desk, price)
        tom.trade(desk, step, price)
    crank(desk, STEPS, everybody)
    print(f'{desk.number - 1} rows; gained in native quote: Mia {worth_of(desk, MIA, price)}, Tom {worth_of(desk, TOM, price)}')

"""A ticket and its split (request L8 of document 02), as a day program shows them on event files.

    python3 reference/tickets.py FOLDER [PROGRAM]    on the event files in FOLDER; PROGRAM is the day program, crates/day/out/day

Of each file some accepted trades are chosen, by the file's name. Each is called whole, in two parts at the same rate, and with its sides exchanged, and the file goes on
to its next close. So are tickets that turn an account which is above its limit from one side of zero to the other, on event files made for that.
- The first part passes where the whole does. What the second is answered follows from the totals and limits of accounts.py.
- If both pass, later records are answered alike, and each account's variation differs by 250 x its net x the difference of the settlement rates: by
  nothing where the rates are the same.
- Exchanged, a ticket earns its sides the opposite at the same rate, and nobody else anything.
Once in each file the day is filled to 9,999 trades first: then the whole passes, and the second part finds the table full.
"""
from collections import Counter
from copy import deepcopy
from random import Random
from typing import NamedTuple

# Of this folder.
import accounts
from rates import records_in, verdicts_in
from records import encode_all, numbers_of
from vectors import run_day, run_trials, some

START, ENROL, LIMITS, OPEN, TRADE, QUOTE, SETTLE, CLOSE = 0, 1, 6, 7, 8, 9, 10, 12
TRADES_EACH = 12
# 9:00:00 and 13:30:00.
SESSIONS = [9 * 3600, 13 * 3600 + 30 * 60]
MOST_LOTS = 1_000
MOST_TRADES = 10_000
FEN_A_UNIT = 250


class Ticket(NamedTuple):
    time: int
    code: int
    buyer: int
    seller: int
    lots: int
    rate: int

    def record(self):
        return encode_all(TRADE, numbers_of(TRADE, list(self)))

    def exchanged(self):
        return self._replace(buyer=self.seller, seller=self.buyer)

    # 1 for its buyer, -1 for its seller, 0 for others.
    def side(self, account):
        return (account == self.buyer) - (account == self.seller)


# A place in a file between two records of an open day: the bytes before, the records from there up to the next accepted close, the accounts, the time of the
# last trade or quote, and the number of trades.
class Place(NamedTuple):
    before: bytes
    behind: bytes
    book: accounts.Book
    clock: int
    trades: int


# Some accepted trades of a file with two lots or more, each with the place before it.
def places(program, data, choice):
    records = list(zip(records_in(data), verdicts_in(run_day(program, data))))
    is_ok = [verdict[0].split()[1] == 'ok' for _, verdict in records]
    tickets = [i for i, ((kind, values, _), _) in enumerate(records) if is_ok[i] and kind == TRADE and values[4] > 1]
    chosen = set(some(choice, tickets, TRADES_EACH))
    found, todays, book, at, clock, trades = [], [], None, 0, 0, 0
    for i, ((kind, values, exceptions), verdict) in enumerate(records):
        end = at + len(encode_all(kind, numbers_of(kind, values), exceptions))
        if is_ok[i] and kind == START:
            book = accounts.Book(*values[:2], exceptions)
        elif is_ok[i] and kind == CLOSE:
            list(book.close(values[0], [line for line in verdict if line.startswith('rate')]))
            found += [(ticket, place._replace(behind=data[behind:end])) for ticket, place, behind in todays]
            todays, clock, trades = [], 0, 0
        elif is_ok[i]:
            if i in chosen:
                todays.append((Ticket(*values), Place(data[:at], b'', deepcopy(book), clock, trades), end))
            trades += kind == TRADE
            clock = values[0] if kind in (TRADE, QUOTE) else clock
            book.do(kind, values)
        at = end
    return found


# What a program answers to some tickets at a place, and behind them up to the close.
class Run:
    def __init__(self, program, place, tickets):
        verdicts = verdicts_in(run_day(program, place.before + b''.join(t.record() for t in tickets) + place.behind))
        behind = sum(1 for _ in records_in(place.behind))
        self.answers = [v[0] for v in verdicts[-behind - len(tickets):-behind]]
        self.later, self.close = [v[0] for v in verdicts[-behind:-1]], verdicts[-1]

    def passes(self):
        return all(answer == f'{TRADE} ok' for answer in self.answers)

    def rate(self, code):
        return next(int(line.split()[2]) for line in self.close if line.startswith(f'rate {code:04} '))

    def rule(self, code):
        return next(line.split()[3] for line in self.close if line.startswith(f'rate {code:04} '))

    def variations(self):
        return {int(line.split()[1]): int(line.split()[2]) for line in self.close if line.startswith('account')}


# What the second part is answered where the whole passes.
def second_answer(place, ticket, first_lots):
    if place.trades + 1 >= MOST_TRADES:
        return f'{TRADE} no 16'
    for number in (ticket.buyer, ticket.seller):
        account, totals = deepcopy(place.book.accounts[number]), []
        for lots in (first_lots, ticket.lots - first_lots):
            account.nets[f'{ticket.code:04}'] += ticket.side(number) * lots
            totals.append(account.total_at(place.book.contracts()))
        if totals[1] > max(account.core + account.tolerance, totals[0]):
            return f'{TRADE} no 14'
    return f'{TRADE} ok'


# The nets in the ticket's contract at the close: those at the place, with the ticket and what was accepted of the contract behind it.
def nets_at_close(place, ticket, run):
    nets = Counter({number: account.nets[f'{ticket.code:04}'] for number, account in place.book.accounts.items()})
    later = [Ticket(*values) for (kind, values, _), answer in zip(records_in(place.behind), run.later) if answer == f'{TRADE} ok']
    for t in [ticket, *later]:
        if t.code == ticket.code:
            nets[t.buyer] += t.lots
            nets[t.seller] -= t.lots
    return nets


def split_faults(place, ticket, whole, parts, counts):
    if parts.later != whole.later:
        # With one trade more the table is full one trade earlier.
        if f'{TRADE} no 16' in parts.later:
            counts['days full earlier'] += 1
        else:
            yield 'later records are answered otherwise'
        return
    moved = parts.rate(ticket.code) - whole.rate(ticket.code)
    counts['other rules'] += parts.rule(ticket.code) != whole.rule(ticket.code)
    counts['other rates'] += moved != 0
    nets, before = nets_at_close(place, ticket, whole), whole.variations()
    for number, variation in parts.variations().items():
        if variation - before[number] != FEN_A_UNIT * nets[number] * moved:
            yield f'account {number}: variation {before[number]}, in parts {variation}'


def exchange_faults(ticket, whole, exchanged):
    rate, before = whole.rate(ticket.code), whole.variations()
    if exchanged.rate(ticket.code) != rate:
        yield f'rate {rate}, exchanged {exchanged.rate(ticket.code)}'
    for number, variation in exchanged.variations().items():
        if variation - before[number] != -2 * ticket.side(number) * ticket.lots * FEN_A_UNIT * (rate - ticket.rate):
            yield f'account {number}: variation {before[number]}, exchanged {variation}'


# Where to cut a ticket: anywhere, or where its first part leaves the buyer at zero.
def cuts(choice, place, ticket):
    flat = -place.book.accounts[ticket.buyer].nets[f'{ticket.code:04}']
    return {choice.randrange(1, ticket.lots)} | ({flat} if 0 < flat < ticket.lots else set())


# The second part comes at the ticket's time, the first at any of the same session since the day's last trade or quote.
def parts_of(choice, place, ticket, lots):
    begin = max(start for start in SESSIONS if start <= ticket.time)
    time = choice.randint(max(begin, place.clock), ticket.time)
    return [ticket._replace(time=time, lots=lots), ticket._replace(lots=ticket.lots - lots)]


def ticket_faults(program, place, ticket, choice, counts):
    whole = Run(program, place, [ticket])
    if not whole.passes():
        return
    counts['tickets'] += 1
    for lots in sorted(cuts(choice, place, ticket)):
        parts = Run(program, place, parts_of(choice, place, ticket, lots))
        counts['splits'] += 1
        counts['second parts refused 14'] += parts.answers[1] == f'{TRADE} no 14'
        expected = [f'{TRADE} ok', second_answer(place, ticket, lots)]
        if parts.answers != expected:
            yield f'{ticket}, {lots} first: answered {parts.answers}, should be {expected}'
        elif parts.passes():
            for fault in split_faults(place, ticket, whole, parts, counts):
                yield f'{ticket}, {lots} first: {fault}'
    exchanged = Run(program, place, [ticket.exchanged()])
    if exchanged.passes() and exchanged.later == whole.later:
        counts['exchanges'] += 1
        for fault in exchange_faults(ticket, whole, exchanged):
            yield f'{ticket}: {fault}'


# Event files in which an account above its limit is turned: its tolerance is taken away when it is short, and on the next day it goes as far to the other side of
# zero, or less far; and the same with buyer and seller exchanged. The days are those of document 01's printed day and of marked example 9.
def turned(choice):
    lots, rate = choice.randint(2, MOST_LOTS // 2), choice.randint(-100, 100)
    sale = Ticket(SESSIONS[0], 2312, 2, 1, lots, rate)
    back = sale._replace(buyer=1, seller=2, lots=choice.randint(lots + 1, 2 * lots))
    rates, margins = 6 * [rate], [choice.randint(1, 10**6) for _ in range(6)]
    for first, second in ((sale, back), (sale.exchanged(), back.exchanged())):
        yield b''.join(encode_all(kind, numbers_of(kind, values)) for kind, values in [
            (START, [3_000_000, 100, 0]), (ENROL, [1, 0, 10**13]), (ENROL, [2, 10**6, 0]),
            (OPEN, [1339, *rates, *margins]), (TRADE, list(first)), (LIMITS, [1, 0, 0]), (SETTLE, []), (CLOSE, [0]),
            (OPEN, [1342, *rates, *margins]), (TRADE, list(second)), (SETTLE, []), (CLOSE, [0]),
        ])


# A day with 9,999 trades: one lot there and back, again and again.
def full_faults(program, place, ticket, choice, counts):
    lot = ticket._replace(lots=1)
    fill = [[lot, lot.exchanged()][i % 2] for i in range(MOST_TRADES - 1 - place.trades)]
    full = place._replace(before=place.before + b''.join(t.record() for t in fill), clock=ticket.time, trades=MOST_TRADES - 1)
    filled = Run(program, place, [*fill, ticket])
    if f'{TRADE} no 16' in filled.answers:
        yield f'{ticket}: one of the first 10,000 trades is refused 16'
    elif filled.passes():
        counts['second parts refused 16'] += 1
        parts = Run(program, full, parts_of(choice, full, ticket, choice.randrange(1, ticket.lots)))
        if parts.answers != [f'{TRADE} ok', f'{TRADE} no 16']:
            yield f'{ticket} on a full day: answered {parts.answers}'


def faults_in(program, name, data, counts):
    choice = Random(name)
    try:
        chosen = places(program, data, choice)
        turns = [places(program, turn, choice)[-1] for turn in turned(choice)]
    except accounts.Refused as refused:
        yield f'a record is accepted that accounts.py refuses under {refused}'
        return
    for ticket, place in chosen + turns:
        yield from ticket_faults(program, place, ticket, choice, counts)
    for ticket, place in chosen[:1]:
        yield from full_faults(program, place, ticket, choice, counts)


if __name__ == '__main__':
    run_trials(__doc__, faults_in, ['second parts refused 14', 'second parts refused 16', 'other rules', 'exchanges'])

"""Settlement rates by document 01, 'Settlement rate', with request L1's ties, reckoned from whole lists of trades and quotes
with exact fractions. It shares nothing with the Rattle code.

    python3 reference/rates.py vectors FOLDER    checks each rate line of the event files in FOLDER, of ../shared/vectors
"""
from datetime import timedelta
from fractions import Fraction
from math import floor
from typing import NamedTuple

# Of this folder.
from calendar import FIRST, Calendar, code_of, number_of
from records import Malformed, read_record, values_of
from vectors import all_agree, event_files, run

BID, OFFER = 0, 1


class Trade(NamedTuple):
    time: int
    lots: int
    rate: int


class Quote(NamedTuple):
    time: int
    side: int
    rate: int


class Settled(NamedTuple):
    rate: int
    rule: int
    used: int


def clock(hours, minutes, seconds):
    return (hours * 60 + minutes) * 60 + seconds


# "Last hour is 15:30:00 up to, not including, 16:30:00."
def in_last_hour(event):
    return clock(15, 30, 0) <= event.time < clock(16, 30, 0)


def lot_weighted_mean(trades):
    return Fraction(sum(t.lots * t.rate for t in trades), sum(t.lots for t in trades))


def mean(quotes):
    return Fraction(sum(q.rate for q in quotes), len(quotes))


# "One rounding at the end, to nearest" (document 01); "ties go towards the higher rate, also below zero" (request L1).
def rounded(exact):
    return floor(exact + Fraction(1, 2))


# A contract's day: its accepted trades and quotes in the order of acceptance.
class Day:
    def __init__(self):
        self.events = []

    def trades(self):
        return [e for e in self.events if isinstance(e, Trade)]

    # "Quotes outside the last hour move the clock and count nowhere."
    def counted(self, side):
        return [e for e in self.events if isinstance(e, Quote) and in_last_hour(e) and e.side == side]

    # "Rule 5, on the last trading day only and before the others", then rules 1 to 4.
    def settled(self, previous, ending, final):
        trades, bids, offers = self.trades(), self.counted(BID), self.counted(OFFER)
        late = [t for t in trades if in_last_hour(t)]
        if ending:
            return Settled(final, 5, 0)
        if len(late) >= 5:
            return Settled(rounded(lot_weighted_mean(late)), 1, len(late))
        if len(trades) >= 5:
            return Settled(rounded(lot_weighted_mean(trades[-5:])), 2, 5)
        if bids and offers:
            return Settled(rounded((mean(bids) + mean(offers)) / 2), 3, len(bids) + len(offers))
        return Settled(previous, 4, 0)


# ---- event files

# A contract's settlement at a close: its day, what `settled` is to be given, and the line that the file's output has.
class Closing(NamedTuple):
    code: str
    day: Day
    previous: int
    ending: bool
    final: int
    printed: str

    def settled(self):
        return self.day.settled(self.previous, self.ending, self.final)


# The records of an event file, up to its end or the first that is refused.
def records_in(data):
    at = 0
    while at < len(data):
        try:
            kind, numbers, exceptions, at = read_record(data, at)
        except Malformed:
            return
        yield kind, values_of(kind, numbers), exceptions


# What the file's output says of each record: the line with `ok` or `no`, and the lines that a close adds.
def verdicts_in(output):
    verdicts = []
    for line in output.splitlines():
        if line[0].isdigit():
            verdicts.append([line])
        elif not line.startswith('bad'):
            verdicts[-1].append(line)
    return verdicts


# The contracts listed, by code: their months, previous settlement rates and days.
class Contracts:
    def __init__(self, exceptions):
        self.calendar = Calendar(exceptions)
        self.months, self.previous, self.days = {}, {}, {}

    # "The new contract's list rate serves as its previous settlement rate."
    def open(self, number, list_rates):
        self.today = number
        self.months = {code_of(m): m for m in self.calendar.listed(FIRST + timedelta(number))}
        self.previous = {code: self.previous.get(code, rate) for code, rate in zip(self.months, list_rates)}
        self.days = {code: Day() for code in self.months}

    def is_ending(self, code):
        return number_of(self.calendar.last_trading_date(self.months[code])) == self.today

    # "Per contract by code `rate`, code, rate, rule, trades or counted quotes used."
    def close(self, final, printed):
        for code, line in zip(self.months, printed, strict=True):
            closing = Closing(code, self.days[code], self.previous[code], self.is_ending(code), final, line)
            self.previous[code] = closing.settled().rate
            yield closing


# The settlements of an event file, from the records that its output calls accepted.
def closings(data, output):
    contracts = None
    for (kind, values, exceptions), verdict in zip(records_in(data), verdicts_in(output), strict=True):
        if verdict[0].split()[1] != 'ok':
            continue
        if kind == 0:
            contracts = Contracts(exceptions)
        elif kind == 7:
            contracts.open(values[0], values[1:7])
        elif kind == 8:
            time, code, _, _, lots, rate = values
            contracts.days[f'{code:04}'].events.append(Trade(time, lots, rate))
        elif kind == 9:
            time, code, side, rate = values
            contracts.days[f'{code:04}'].events.append(Quote(time, side, rate))
        elif kind == 12:
            yield from contracts.close(values[0], [line for line in verdict if line.startswith('rate')])


# The line of a settlement, under its rule, beside the line that the file should give.
def compared(name, closing):
    settled = closing.settled()
    line = ' '.join(map(str, ['rate', closing.code, *settled]))
    return name, f'rule {settled.rule}', closing.printed, line


def check_vectors(folder):
    return all_agree(
        compared(name, closing) for name, data, output in event_files(folder) for closing in closings(data, output)
    )


if __name__ == '__main__':
    run(__doc__, check_vectors)

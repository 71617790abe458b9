"""Accounts by document 01, 'Trade', 'Close', 'Settle', 'Refresh' and 'Release', reckoned from the list of a day's trades with
exact fractions. It shares nothing with the Rattle code.

    python3 reference/accounts.py vectors FOLDER    checks the account and house lines and the refusals of the event files in
                                                    FOLDER, of ../shared/vectors
"""
from collections import Counter
from fractions import Fraction
from math import ceil
from typing import NamedTuple

# Of this folder.
import rates
from rates import records_in, verdicts_in
from vectors import all_agree, event_files, run


class House(NamedTuple):
    reference: int
    multiplier: int


# A contract as a close has it.
class Contract(NamedTuple):
    margin: int
    previous: int
    rate: int
    ending: bool


# One side of a trade, with lots below 0 where it sells.
class Deal(NamedTuple):
    contract: str
    lots: int
    rate: int


class Refused(Exception):
    """A refusal, with its number."""


# What stands in the way of a call is refused.
def refuse(number, applies):
    if applies:
        raise Refused(number)


# An account by document 01, with contracts by code.
class Account:
    # "A new account has core = clearing limit times reference rate, its tolerance in force at once, and zero cash, margin,
    # due, requirement, free, special margin and day-end total, with the flag clear."
    def __init__(self, clearing, tolerance, house):
        self.clearing, self.tolerance = self.limits = clearing, tolerance
        self.core = clearing * house.reference
        self.cash = self.margin = self.due = self.requirement = self.free = self.special = self.total = self.variation = 0
        self.in_default = False
        self.before, self.nets, self.today = Counter(), Counter(), []

    # "The sum over contracts of |net| times margin rate (no netting between contracts)."
    def total_at(self, contracts):
        return sum(abs(lots) * contracts[code].margin for code, lots in self.nets.items() if lots)

    # "A side is over the limit exactly when its new total exceeds the limit and also exceeds its total before."
    def check(self, deal, contracts):
        refuse(12, self.in_default)
        net, before = self.nets[deal.contract], self.total_at(contracts)
        after = before + (abs(net + deal.lots) - abs(net)) * contracts[deal.contract].margin
        refuse(13, not -20_000 <= net + deal.lots <= 20_000)
        refuse(14, after > self.core + self.tolerance and after > before)

    # "Buyer's net up, seller's down."
    def trade(self, deal):
        self.nets[deal.contract] += deal.lots
        self.today.append(deal)

    # "250 x (sum over today's trades of signed lots x (rate - traded rate) + net before today x (rate - previous rate))".
    def variation_of(self, code, contract):
        today = sum(d.lots * (contract.rate - d.rate) for d in self.today if d.contract == code)
        return 250 * (today + self.before[code] * (contract.rate - contract.previous))

    def close(self, house, contracts):
        self.clearing, self.tolerance = self.limits
        self.variation = sum(self.variation_of(code, contract) for code, contract in contracts.items())
        self.due += self.variation
        for code, contract in contracts.items():
            if contract.ending:
                self.nets[code] = 0
        self.before, self.today = Counter(self.nets), []
        self.total = self.total_at(contracts)
        least = self.clearing * house.reference
        over_limit = ceil(Fraction(max(self.total - least, 0) * house.multiplier, 100))
        self.requirement = least + over_limit + self.special
        self.free = self.margin + self.due - self.requirement
        core = max(least, self.total)
        self.core = core if self.free >= 0 else min(core, self.core)

    # It answers what the house paid.
    def settle(self):
        need = max(-self.free, 0)
        self.in_default = need > self.cash
        if self.in_default:
            return 0
        paid, self.due = self.due, 0
        self.cash -= need
        self.margin += need + paid
        return paid

    # "For accounts not in default, core = max(clearing limit x reference rate, last day-end total)."
    def refresh(self, house):
        if not self.in_default:
            self.core = max(self.clearing * house.reference, self.total)

    def pay_in(self, amount):
        refuse(17, self.cash + self.margin + amount > 10**17)
        self.cash += amount

    def pay_out(self, amount):
        refuse(12, self.in_default)
        refuse(15, amount > self.cash)
        self.cash -= amount

    # "Margin to cash, at most margin - requirement."
    def release(self, amount):
        refuse(12, self.in_default)
        refuse(15, amount > self.margin - self.requirement)
        self.margin -= amount
        self.cash += amount


# ---- event files

# The refusals that accounts give.
REFUSALS = [12, 13, 14, 15, 17]


# The accounts of an event file by number, and what they trade with.
class Book:
    def __init__(self, reference, multiplier, exceptions):
        self.house, self.listed = House(reference, multiplier), rates.Contracts(exceptions)
        self.margins, self.accounts, self.balance = {}, {}, 0

    def contracts(self):
        return {code: Contract(margin, self.listed.previous[code], 0, False) for code, margin in self.margins.items()}

    def enrol(self, number, clearing, tolerance):
        self.accounts[number] = Account(clearing, tolerance, self.house)

    # A contract's "margin rate is fixed for its life".
    def open(self, day, *values):
        self.listed.open(day, values[:6])
        self.margins = {code: self.margins.get(code, margin) for code, margin in zip(self.listed.months, values[6:])}

    # "First that applies: .. 12, 13, 14", on either side.
    def trade(self, time, code, buyer, seller, lots, rate):
        code, contracts, refused = f'{code:04}', self.contracts(), []
        sides = [(self.accounts[buyer], Deal(code, lots, rate)), (self.accounts[seller], Deal(code, -lots, rate))]
        for account, deal in sides:
            try:
                account.check(deal, contracts)
            except Refused as refusal:
                refused.append(refusal.args[0])
        refuse(min(refused, default=0), refused)
        for account, deal in sides:
            account.trade(deal)
        self.listed.days[code].events.append(rates.Trade(time, lots, rate))

    def quote(self, time, code, side, rate):
        self.listed.days[f'{code:04}'].events.append(rates.Quote(time, side, rate))

    def settle(self):
        self.balance -= sum(account.settle() for account in self.accounts.values())

    def refresh(self):
        for account in self.accounts.values():
            account.refresh(self.house)

    # "Per account by number `account`, account, day's variation, due, requirement, free; then `house` and its balance."
    def close(self, final, rate_lines):
        closings = list(self.listed.close(final, rate_lines))
        contracts = {c.code: Contract(self.margins[c.code], c.previous, c.settled().rate, c.ending) for c in closings}
        for number, a in sorted(self.accounts.items()):
            a.close(self.house, contracts)
            yield f'account {number} {a.variation} {a.due} {a.requirement} {a.free}'
        yield f'house {self.balance}'

    def pay(self, kind, number, amount):
        a = self.accounts[number]
        [a.pay_in, a.pay_out, a.release][kind - 2](amount)

    def set(self, kind, number, *values):
        a = self.accounts[number]
        if kind == 5:
            a.special, = values
        else:
            a.limits = values

    def do(self, kind, values):
        calls = {1: self.enrol, 7: self.open, 8: self.trade, 9: self.quote, 10: self.settle, 11: self.refresh}
        if kind in calls:
            calls[kind](*values)
        elif kind in (2, 3, 4):
            self.pay(kind, *values)
        else:
            self.set(kind, *values)


# Pairs of what an event file's output says and what accounts make of it: the refusals that accounts give, and the lines of each
# close. Other refusals are taken from the output.
def compared(data, output):
    book = None
    for (kind, values, exceptions), (verdict, *lines) in zip(records_in(data), verdicts_in(output), strict=True):
        number = 0 if verdict.split()[1] == 'ok' else int(verdict.split()[2])
        if number not in [0, *REFUSALS]:
            continue
        if kind == 0:
            book = Book(*values[:2], exceptions)
        elif kind == 12:
            rate_lines = [line for line in lines if line.startswith('rate')]
            yield from zip(lines[len(rate_lines):], book.close(values[0], rate_lines), strict=True)
        else:
            try:
                book.do(kind, values)
                refusal = 0
            except Refused as refused:
                refusal = refused.args[0]
            yield f'{kind} {number}', f'{kind} {refusal}'


# What an agreement is counted under: the line's first word, or the refusal.
def heading(line):
    first, second, *_ = line.split()
    return first if first.isalpha() else f'refusal {second}' if second != '0' else 'accepted'


def check_vectors(folder):
    return all_agree(
        (name, heading(line), printed, line)
        for name, data, output in event_files(folder)
        for printed, line in compared(data, output)
    )


if __name__ == '__main__':
    run(__doc__, check_vectors)

"""One member's default and the others (request L10 of document 02), as a day program shows it on event files.

    python3 reference/mornings.py FOLDER [PROGRAM]    on the event files in FOLDER; PROGRAM is the day program, crates/day/out/day

Of each file some accepted settlements are chosen, by the file's name, and of each settlement two accounts. For each account the records up to the settlement are
taken three times: as they are, with the account's cash paid out just before it, and with much paid in. Behind the settlement every account's money is asked
for, and the day is closed. Of all other accounts the three must show the same; the houses differ by what is still due to the one account.
"""
from random import Random
from typing import NamedTuple

# Of this folder.
from rates import records_in, verdicts_in
from records import encode_all, numbers_of
from vectors import run_day, run_trials, some

ENROL, PAY_IN, PAY_OUT, RELEASE, SETTLE, CLOSE = 1, 2, 3, 4, 10, 12
SETTLEMENTS_EACH = 8
ACCOUNTS_EACH = 2
MUCH = 10**14
# Falling powers of two: what of them is accepted adds up to what there was, below 2^47 fen to the fen.
AMOUNTS = [2**power for power in reversed(range(47))]


def asks(kind, account):
    return b''.join(encode_all(kind, [account, amount]) for amount in AMOUNTS)


# What a program shows behind the records of a morning: the settlement, what each account's releases and payments were answered, its line at the
# close, and the house.
class Morning(NamedTuple):
    settled: list
    money: dict
    lines: dict
    house: int

    def due(self, account):
        return int(self.lines[account].split()[3])

    def is_in_default(self, account):
        return self.money[account][0] == [f'{RELEASE} no 12']


def morning(program, before, accounts):
    probes = b''.join(asks(RELEASE, a) + asks(PAY_OUT, a) for a in accounts)
    verdicts = verdicts_in(run_day(program, before + encode_all(SETTLE, []) + probes + encode_all(CLOSE, [0])))
    each = 2 * len(AMOUNTS)
    behind = verdicts[-1 - each * len(accounts):-1]
    closed = verdicts[-1]
    return Morning(
        settled=verdicts[-2 - each * len(accounts)],
        money={a: behind[i * each:(i + 1) * each] for i, a in enumerate(accounts)},
        lines={int(line.split()[1]): line for line in closed if line.startswith('account')},
        house=int(closed[-1].split()[1]),
    )


# What is wrong with two mornings that are alike but for the cash of one account.
def faults(one, other, account):
    if one.settled != other.settled:
        yield f'the settlement: {one.settled} and {other.settled}'
    for a in one.money:
        if a != account and (one.money[a], one.lines[a]) != (other.money[a], other.lines[a]):
            yield f'account {a}: {one.lines[a]} and {other.lines[a]}, or its money'
    if one.house - other.house != one.due(account) - other.due(account):
        yield f'the houses {one.house} and {other.house}, due {one.due(account)} and {other.due(account)}'


# The settlements of a file that are accepted: the number of bytes before each, and the accounts enrolled by then.
def settlements(program, data):
    found, accounts, at = [], [], 0
    for (kind, values, exceptions), verdict in zip(records_in(data), verdicts_in(run_day(program, data))):
        accepted = verdict[0].split()[1] == 'ok'
        if kind == SETTLE and accepted:
            found.append((at, list(accounts)))
        if kind == ENROL and accepted:
            accounts.append(values[0])
        at += len(encode_all(kind, numbers_of(kind, values), exceptions))
    return found


def faults_in(program, name, data, counts):
    choice = Random(name)
    for place, accounts in some(choice, settlements(program, data), SETTLEMENTS_EACH):
        before = data[:place]
        plain = morning(program, before, accounts)
        for account in some(choice, accounts, ACCOUNTS_EACH):
            for paid in (asks(PAY_OUT, account), encode_all(PAY_IN, [account, MUCH])):
                other = morning(program, before + paid, accounts)
                counts['pairs of mornings'] += 1
                counts['accounts beside'] += len(accounts) - 1
                counts['pairs with one default'] += plain.is_in_default(account) != other.is_in_default(account)
                counts['pairs with two houses'] += plain.house != other.house
                for fault in faults(plain, other, account):
                    yield f'settlement at byte {place}, account {account}: {fault}'


if __name__ == '__main__':
    run_trials(__doc__, faults_in, ['pairs with one default'])

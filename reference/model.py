"""The model of crates/model/specs, computed by the prover on event files and held to the output that they should give. To be
run after a change of the model's definitions; the gate does not run it.

    python3 reference/model.py FOLDER [NAME ..]     computes the event files of FOLDER, of ../shared/vectors: all, or those named

For each file a spec is written that goes through its records a few at a time. Between them the book stands as a table, which
the scripts of this folder propose from the records that the output calls accepted. The prover computes each part from the
table before it, and finds the table after it and the lines of the output, or refuses: a wrong proposal can only make a file
differ. crates/tables has the tables, and the proof that what is printed so is what the model's history of calls prints. A
scratch copy of the repository is proved; the repository stays as it is.

The model has no bytes: a file is computed up to its first bad record.
"""
import re
import shutil
import subprocess
import sys
from datetime import timedelta
from pathlib import Path
from tempfile import TemporaryDirectory

# Of this folder.
from accounts import Book, Refused
from calendar import FIRST, code_of, is_in, number_of
from rates import BID, OFFER, Day, Trade, in_last_hour, records_in, verdicts_in
from records import START, numbers_of
from vectors import event_files

ROOT = Path(__file__).resolve().parent.parent
SPECS = 'crates/tables/specs'
TRIED = 'Tried'
HEAD = ROOT / 'reference/tried.txt'

OPEN, SETTLE, CLOSE = 7, 10, 12
# Longer parts take longer to compute, shorter ones have more tables to read.
RECORDS_IN_A_PART = 7

# What the prover must unfold to compute a call. tried.txt imports it.
UNFOLDED = '''
    new has place_of all zipped those sum_z larger smaller hundredth_up nearest_size with_sign rising rising_after is_weekend
    is_exception is_working first_working last_working is_code month_of month_length first_day third_wednesday settlement_day
    last_trading_day folded unfolded ceilings kinds all_within day.in_last_hour mean_of mean_with total tally_from latest_of in_day
    in_hour in_side rule_at halfway settled_from positions.total variation_at variation all_carried new_holdings with_limits
    with_special totals_of is_over at_close over_limit requirement with_core funds.new_funds funds.billed funds.paid_up
    funds.in_default funds.settled funds.paid_in funds.paid_out funds.released closed refreshed call_of after first_of refusal
    answer look walk
'''
# The same for whether a calendar is accepted, and for a listing: they are computed on their own.
UNFOLDED_FOR_START = 'is_working is_exception is_weekend first_working no_long_break'
UNFOLDED_FOR_LISTING = '''
    is_working is_exception is_weekend first_working code_of month_length first_day third_wednesday settlement_day considered
    chosen_after
'''
RULES = {'1': 'LastHour', '2': 'LastFive', '3': 'Quotes', '4': 'Previous', '5': 'Final'}
# Where the book stands after a call of these kinds.
POINTS = {START: 'unopened', OPEN: 'unsettled', SETTLE: 'settled_today', CLOSE: 'ended'}


# ---- terms of specs

def applied(*words):
    return ' '.join(map(str, words))


def whole(number):
    return f'(pos {number})' if number >= 0 else f'(negsuc {-number - 1})'


def listed(terms, between=' ∷ '):
    return '(' + between.join([*map(str, terms), '[]']) + ')'


# The same with a line for each.
def column(terms):
    return listed(terms, ' ∷\n    ')


def mean(weighted):
    return f'(a_mean {whole(sum(weight * rate for weight, rate in weighted))} {sum(weight for weight, _ in weighted)})'


# A tally has the last five trades, with weights of 0 where there are none.
def tally(day):
    if not day.events:
        return 'no_tally'
    trades, late = day.trades(), [trade for trade in day.trades() if in_last_hour(trade)]
    latest = [f'weighted {lots} {whole(rate)}' for lots, rate in (5 * [(0, 0)] + [(t.lots, t.rate) for t in trades])[-5:]]
    quotes = [mean([(1, quote.rate) for quote in day.counted(side)]) for side in (BID, OFFER)]
    return applied('a_tally', len(trades), listed(latest), len(late), mean([(t.lots, t.rate) for t in late]), *quotes)


def held(account):
    amounts = [account.core, account.special, account.total, account.variation]
    return applied('a_held', account.clearing, account.tolerance, *account.limits, *map(whole, amounts))


def funds(account):
    amounts = [account.cash, account.margin, account.due, account.requirement, account.free]
    return applied('a_funds', *map(whole, amounts), str(account.in_default).lower())


def position(account, code):
    cost = sum(deal.lots * deal.rate for deal in account.today if deal.contract == code)
    numbers = [account.before[code], account.nets[code], cost]
    return applied('a_position', *map(whole, numbers)) if any(numbers) else 'flat'


# A line of the output as a term.
def line_term(line):
    first, *rest = line.split()
    if first == 'rate':
        code, rate, rule, used = rest
        return applied('rate', code, whole(int(rate)), rule, used)
    if first == 'account':
        return applied('account', rest[0], *[whole(int(amount)) for amount in rest[1:]])
    if first == 'house':
        return applied('house', whole(int(rest[0])))
    if rest[0] == 'no':
        return applied('not-ok', first, f'(record {{ number = {rest[1]}; values = {listed(rest[2:])} }})')
    return applied('ok-on', first, rest[1]) if rest[1:] else applied('ok', first)


# ---- the book between the parts

class State:
    def __init__(self):
        self.book, self.point, self.day, self.rate_lines = Book(0, 0, []), 'unstarted', 0, []

    def calendar(self):
        return self.book.listed.calendar

    def exceptions(self):
        return listed(sorted(map(number_of, self.calendar().exceptions)))

    # A record that was accepted.
    def take(self, kind, values, exceptions, lines):
        if kind == START:
            self.book = Book(*values[:2], exceptions)
        elif kind == CLOSE:
            self.rate_lines = [line for line in lines if line.startswith('rate')]
            list(self.book.close(values[0], self.rate_lines))
        else:
            self.book.do(kind, values)
        if kind == OPEN:
            self.day = values[0]
        self.point = POINTS.get(kind, self.point)

    # The days of the listed contracts by code. The model lists an ended contract no more from its close on, and clears the tallies.
    def days(self):
        contracts = self.book.listed
        if self.point == POINTS[CLOSE]:
            return {code: Day() for code in contracts.months if not contracts.is_ending(code)}
        return contracts.days

    def table(self):
        book, days = self.book, self.days()
        accounts, events = book.accounts.values(), [event for day in days.values() for event in day.events]
        clock, trades = max((event.time for event in events), default=0), sum(isinstance(event, Trade) for event in events)
        results = [line.split()[1:] for line in self.rate_lines]
        return f'''record {{
  settings = {applied('a_settings', *book.house, self.exceptions())};
  today = {applied('a_today', self.point, self.day, clock, trades)};
  codes = {listed(days)};
  terms = {listed(applied('a_terms', whole(book.listed.previous[code]), book.margins[code]) for code in days)};
  tallies = {column(map(tally, days.values()))};
  settled_codes = {listed(code for code, *_ in results)};
  settled = {listed(applied('a_settled', whole(int(rate)), RULES[rule], used) for _, rate, rule, used in results)};
  members = {listed(book.accounts)};
  held = {column(map(held, accounts))};
  funds = {column(map(funds, accounts))};
  positions = {column(listed(position(account, code) for code in days) for account in accounts)};
  house = {whole(book.balance)};
}}'''

    # The lines of a record in the model's order: it has accounts as they enrolled, and the output has them by number.
    def in_order(self, lines):
        members = list(self.book.accounts)
        shown = [line for line in lines if line.startswith('account')]
        if len(lines) > 1 and [int(line.split()[1]) for line in shown] != sorted(members):
            raise ValueError('a close does not show all accounts by number')
        by_enrolment = iter(sorted(shown, key=lambda line: members.index(int(line.split()[1]))))
        return [next(by_enrolment) if line.startswith('account') else line for line in lines]


# ---- the spec of an event file

class Spec:
    def __init__(self):
        self.state, self.entries, self.lines, self.text = State(), [], [], [HEAD.read_text()]
        # How many records there are up to the end of each part, and how many closes are accepted.
        self.ends, self.closes = [0], 0

    # What the prover sees through.
    def define(self, name, type, term):
        self.text.append(f'abbrev {name} : {type}\n{name} =\n    {term}\n')

    def prove(self, name, statement, unfolded, proof):
        self.text.append(f'{name} : {statement}\nunfolding {" ".join(unfolded.split())}\n{name} = {proof}\n')

    # The records that were added since the last part.
    def end_part(self, proof='refl'):
        if not self.entries:
            return
        k, n = len(self.ends) - 1, len(self.ends)
        self.ends.append(self.ends[-1] + len(self.entries))
        self.define(f'table-{n}', 'Table', self.state.table())
        self.define(f'calls-{n}', 'List Entry', column(self.entries))
        self.define(f'lines-{n}', 'List Line', column(self.lines))
        self.prove(f'part-{n}', f'walk calls-{n} table-{k} ≡ record {{ lines = lines-{n}; table = table-{n} }}', UNFOLDED, proof)
        self.define(f'history-{n}', 'List Entry', f'later calls-{n} history-{k}')
        self.define(f'printed-{n}', 'List Line', f'printed-{k} ++ lines-{n}')
        reached = f'reached-part calls-{n} history-{k} table-{k} table-{n} printed-{k} lines-{n} reached-{k} part-{n}'
        self.text.append(f'reached-{n} : Reached history-{n} table-{n} printed-{n}\nreached-{n} = {reached}\n')
        self.entries, self.lines = [], []

    # Whether a start's calendar is accepted is told to the prover, where the call gets so far. It answers the proof of the part.
    def proof_of_start(self, exceptions, refusal):
        if refusal not in (0, 18):
            return None
        self.end_part()
        name = f'accepted-{len(self.ends)}'
        self.prove(name, f'accepted (is_working {listed(exceptions)}) ≡ {str(not refusal).lower()}', UNFOLDED_FOR_START, 'refl')
        return f'rw {name}'

    # So is the listing of an open. It is computed from the months up to the last that is listed.
    def proof_of_open(self, term, values, refusal):
        if refusal not in (0, 21):
            return None
        day, calendar = values[0], self.state.calendar()
        months = calendar.listed(FIRST + timedelta(day))
        known = all(is_in(calendar.settlement[month]) for month in months)
        self.end_part()
        name, table = f'listing-{len(self.ends)}', f'table-{len(self.ends) - 1}'
        codes, working = listed(map(code_of, months)), f'(is_working {self.state.exceptions()})'
        last = 12 * (months[-1][0] - FIRST.year) + months[-1][1]
        found = f'record {{ known = true; codes = {codes} }}' if known else 'unknown'
        computed = f'sym (computed-listing {working} {day} {last} (omega arith) refl)'
        self.prove(name, f'listing {working} {day} ≡ {found}', UNFOLDED_FOR_LISTING, computed)
        if refusal:
            return f'refused-walk {table} ({term}) {refusal - 1} (rw {name})'
        opening = f'(record {{ day = {day}; rates = {listed(map(whole, values[1:7]))}; margins = {listed(values[7:])} }})'
        return f'opened-walk {table} ({term}) {opening} {codes} (rw {name}) refl {name}'

    # A record with the lines that the output has for it.
    def add(self, kind, values, exceptions, lines):
        _, verdict, *numbers = lines[0].split()
        refusal = int(numbers[0]) if verdict == 'no' else 0
        term = applied('entry', kind, listed(numbers_of(kind, values)), listed(exceptions))
        proof = self.proof_of_start(exceptions, refusal) if kind == START else None
        if kind == OPEN:
            proof = self.proof_of_open(term, values, refusal)
        if not refusal:
            self.state.take(kind, values, exceptions, lines)
            self.closes += kind == CLOSE
        self.entries.append(term)
        self.lines += map(line_term, self.state.in_order(lines))
        if proof or kind in (SETTLE, CLOSE) or len(self.entries) == RECORDS_IN_A_PART:
            self.end_part(proof or 'refl')

    # The records of the part that an error is about.
    def place_of(self, error):
        named = re.search('`[a-z]+-([0-9]+)`', error)
        part = int(named[1]) if named else 0
        return f'records {self.ends[part - 1] + 1} to {self.ends[part]}: ' if part else ''


# ---- the prover

# A copy of the repository, with what is proved already.
def prepare(scratch):
    shutil.copy(ROOT / 'crates.txt', scratch)
    shutil.copytree(ROOT / 'crates', scratch / 'crates')


# The first error that the prover finds, or none.
def error_in(scratch):
    run = subprocess.run(['rt', 'check'], cwd=scratch / 'crates/tables', stdout=subprocess.PIPE, stderr=subprocess.STDOUT, text=True)
    lines = run.stdout.splitlines()
    if run.returncode not in (0, 1):
        sys.exit(f'rt failed: {run.stdout[-300:]}')
    return next((line[:300] for line in lines if 'error' in line), run.stdout[-300:]) if run.returncode else None


# What differs in an event file, or none.
def difference(scratch, spec, data, output):
    try:
        for record, lines in zip(records_in(data), verdicts_in(output), strict=True):
            spec.add(*record, lines)
    except (Refused, LookupError, ValueError) as fault:
        return f'record {spec.ends[-1] + len(spec.entries) + 1}: the scripts cannot follow the output: {fault!r}'
    spec.end_part()
    (scratch / SPECS / f'{TRIED}.antt').write_text('\n'.join(spec.text))
    error = error_in(scratch)
    return error and spec.place_of(error) + error.removeprefix(f'{scratch}/')


def all_agree(scratch, files):
    prepare(scratch)
    if error := error_in(scratch):
        sys.exit(f'the model and its tables are not proved: {error}')
    with (scratch / SPECS / 'Lib.antt').open('a') as modules:
        modules.write(f'pub mod {TRIED}\n')
    agreeing = []
    for name, data, output in files:
        spec = Spec()
        found = difference(scratch, spec, data, output)
        if found:
            print(f'{name} differs: {found}', flush=True)
        else:
            agreeing.append(spec)
            print(f'{name} agrees: {spec.ends[-1]} records, {spec.closes} closes', flush=True)
    records, closes = sum(spec.ends[-1] for spec in agreeing), sum(spec.closes for spec in agreeing)
    print(f'{len(agreeing)} agree, with {records} records and {closes} closes; {len(files) - len(agreeing)} differ')
    return len(agreeing) == len(files)


def main():
    if not sys.argv[1:]:
        sys.exit(__doc__)
    if not shutil.which('rt'):
        sys.exit('no `rt` is found: the prover is needed')
    folder, *names = sys.argv[1:]
    files = [file for file in event_files(folder) if not names or file[0] in names]
    missing = set(names) - {name for name, _, _ in files}
    if missing or not files:
        sys.exit(f'{folder} has no event file {" ".join(sorted(missing))}'.rstrip())
    with TemporaryDirectory() as scratch:
        sys.exit(0 if all_agree(Path(scratch), files) else 1)


if __name__ == '__main__':
    main()

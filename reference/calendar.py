"""The calendar of document 01, 'Calendar and contract months', reckoned by real dates. It shares nothing with the Rattle
code: what the program `almanac` reads and must write is made here.

    python3 reference/calendar.py lists             prints the lists of exceptions, one to a line: crates/almanac/stdin
    python3 reference/calendar.py almanac < LISTS   prints what the calendar makes of each: crates/almanac/stdout
"""
import sys
from datetime import date, timedelta

# "Day 0 is Wednesday 2020-01-01; day 3,652 is 2029-12-31."
FIRST = date(2020, 1, 1)
LAST = date(2029, 12, 31)
ONE_DAY = timedelta(1)
WEDNESDAY, SATURDAY = 2, 5


# The number of a date's day, which is negative before day 0.
def number_of(day):
    return (day - FIRST).days


# Each date from first to last.
def dates(first, last):
    return [first + timedelta(i) for i in range((last - first).days + 1)]


# Each month from first to last, as a pair of year and month.
def months(first, last):
    return [(y, m) for y in range(first[0], last[0] + 1) for m in range(1, 13) if first <= (y, m) <= last]


# Walks the days of the month.
def third_wednesday(year, month):
    day = date(year, month, 1)
    wednesdays = 0
    while True:
        if day.weekday() == WEDNESDAY:
            wednesdays += 1
        if wednesdays == 3:
            return day
        day += ONE_DAY


# What a list of exceptions makes of the days, and D of each month that a day can list or an output line shows.
class Calendar:
    def __init__(self, exceptions):
        self.exceptions = {FIRST + timedelta(e) for e in exceptions}
        self.settlement = {m: self.settlement_date(*m) for m in months((2019, 12), (2035, 12))}

    # "Saturdays and Sundays are off, other days working"; an exception "flips its day".
    def is_working(self, day):
        off = day.weekday() >= SATURDAY
        if day in self.exceptions:
            off = not off
        return not off

    # "A calendar with more than 14 days off running is refused."
    def is_refused(self):
        running = 0
        for day in dates(FIRST, LAST):
            running = 0 if self.is_working(day) else running + 1
            if running > 14:
                return True
        return False

    # "D is the third Wednesday, or the next working day if that is off": a date, which may lie outside the calendar.
    def settlement_date(self, year, month):
        day = third_wednesday(year, month)
        while not self.is_working(day):
            day += ONE_DAY
        return day

    # "Last trading is the working day before D": as above.
    def last_trading_date(self, month):
        day = self.settlement[month] - ONE_DAY
        while not self.is_working(day):
            day -= ONE_DAY
        return day

    # "The four earliest months out of March, June, September, December with D after t, plus the two earliest other months
    # with D after t." Months after 2029 count: their D is past the calendar's end, and so after every t.
    def listed(self, t):
        after = [m for m in months((2020, 1), (2035, 12)) if self.settlement[m] > t]
        quarterly = [m for m in after if m[1] in (3, 6, 9, 12)]
        others = [m for m in after if m[1] not in (3, 6, 9, 12)]
        return sorted(quarterly[:4] + others[:2])


# Whether a date is in the calendar.
def is_in(day):
    return FIRST <= day <= LAST


# "None where .. the day [is] not in the calendar."
def shown(day):
    return str(number_of(day)) if is_in(day) else '-'


# "Code YYMM is the month."
def code_of(month):
    return f'{month[0] % 100:02}{month[1]:02}'


# Without a D in the calendar there is no last trading day either.
def month_line(calendar, month):
    d = calendar.settlement[month]
    last = shown(calendar.last_trading_date(month)) if is_in(d) else '-'
    return f'month {code_of(month)} {shown(d)} {last}'


# There is no listing where a listed month is "without a settlement day in the calendar" (refusal 21).
def listed_line(calendar, t):
    listed = calendar.listed(t)
    if not all(is_in(calendar.settlement[m]) for m in listed):
        return f'listed {number_of(t)} -'
    return ' '.join(['listed', str(number_of(t))] + [code_of(m) for m in listed])


# The lines of one list, below its heading.
def almanac(exceptions):
    if any(later <= earlier for earlier, later in zip(exceptions, exceptions[1:])):
        return ['not rising']
    calendar = Calendar(exceptions)
    if calendar.is_refused():
        return ['refused']
    lines = [month_line(calendar, m) for m in months((2019, 12), (2030, 1))]
    for year in (2023, 2029):
        lines += [listed_line(calendar, t) for t in dates(date(year, 1, 1), date(year, 12, 31)) if calendar.is_working(t)]
    return lines


# The days at some distances from the third Wednesdays of some months: -1 is the Tuesday before, 3 the Saturday after.
def around(chosen, distances):
    return {number_of(third_wednesday(*m)) + i for m in chosen for i in distances}


# The weekdays from one day to another: flipped, they are off with the weekends between them, one break.
def weekdays(first, last):
    return {d for d in range(first, last + 1) if (FIRST + timedelta(d)).weekday() < SATURDAY}


# A break from one distance to another from a month's third Wednesday.
def break_around(month, first, last):
    w = number_of(third_wednesday(*month))
    return weekdays(w + first, w + last)


# Days spread over the calendar by a linear congruential generator.
def scattered(count):
    days, x = set(), 2020
    while len(days) < count:
        x = (x * 1103515245 + 12345) % 2**31
        days.add((x >> 16) % (number_of(LAST) + 1))
    return days


LISTS = [
    # 1: none
    [],
    # 2: third Wednesdays off: D is the Thursday
    sorted(around([(2023, m) for m in (2, 3, 6, 9, 12)] + [(2029, m) for m in (1, 3, 7, 12)], [0])),
    # 3: the Tuesday before off, the Monday too, the Thursday after, and both Tuesday and Thursday: D stays
    sorted(
        around([(2023, 3), (2029, 3)], [-1])
        | around([(2023, 4), (2029, 5)], [-2, -1])
        | around([(2023, 6), (2029, 2)], [1])
        | around([(2023, 9), (2029, 12)], [-1, 1])
    ),
    # 4: from the third Wednesday to the Friday off: D is the Monday; and the Monday too: D is the Tuesday
    sorted(
        around([(2023, 3), (2023, 8), (2029, 3), (2029, 10)], [0, 1, 2])
        | around([(2023, 11), (2029, 1)], [0, 1, 2, 5])
    ),
    # 5: Wednesday to Friday off, and the Saturday or the Sunday after is working: it is D; Monday and Tuesday off, and the
    # Saturday or the Sunday before is working: it is the last trading day; both weekends working, and no weekday off
    sorted(
        around([(2023, 5), (2029, 3)], [0, 1, 2, 3])
        | around([(2023, 9), (2029, 1)], [0, 1, 2, 4])
        | around([(2023, 7), (2029, 4)], [-4, -2, -1])
        | around([(2023, 12), (2029, 2)], [-3, -2, -1])
        | around([(2023, 10), (2029, 11)], [-4, -3, 3, 4])
    ),
    # 6: exactly 14 days off, from the Tuesday before a third Wednesday on: D is the day after the break
    sorted(break_around((2023, 3), -1, 12) | break_around((2029, 2), -1, 12)),
    # 7: exactly 15
    sorted(break_around((2023, 3), -1, 13)),
    # 8: the calendar's last 14 days off: D of December 2029 is past its end
    sorted(weekdays(3639, 3652)),
    # 9: the first 14 days off: January 2020 settles on day 14, the first working day, and has no last trading day
    sorted(weekdays(0, 13)),
    # 10: 400 days
    sorted(scattered(400)),
    # 11, 12: not rising, by equal neighbours and by a fall
    [1100, 1200, 1200, 1300],
    [1100, 1300, 1200, 1400],
    # 13: 14 days off up to the day before a third Wednesday: the last trading day is the day before the break
    sorted(break_around((2023, 6), -14, -1) | break_around((2029, 3), -14, -1)),
    # 14: two breaks of 14 days with one working day between them. February's third Wednesday is in the first break, and D is
    # the one working day, which is also March's last trading day; with the third Wednesday in the second break (September
    # 2023, June 2029) the one working day is the month's own last trading day
    sorted(
        break_around((2023, 2), -1, 12)
        | break_around((2023, 2), 14, 27)
        | break_around((2023, 9), -15, -2)
        | break_around((2023, 9), 0, 13)
        | break_around((2029, 2), -1, 12)
        | break_around((2029, 2), 14, 27)
        | break_around((2029, 6), -15, -2)
        | break_around((2029, 6), 0, 13)
    ),
]


def main():
    if sys.argv[1:] == ['lists']:
        for days in LISTS:
            print(*days)
    elif sys.argv[1:] == ['almanac']:
        for k, line in enumerate(sys.stdin, 1):
            print(f'list {k}')
            print('\n'.join(almanac([int(word) for word in line.split()])))
    else:
        sys.exit(__doc__)


if __name__ == '__main__':
    main()

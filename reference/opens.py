"""What opens are answered by document 01, 'The day', and request L2, reckoned by real dates. It shares nothing with the Rattle code.

    python3 reference/opens.py vectors FOLDER       checks the lines of opens that the event files in FOLDER should give, of
                                                    ../shared/vectors, but for those refused 2
"""
from datetime import timedelta

# Of this folder.
from calendar import FIRST, ONE_DAY, Calendar, is_in, number_of
from rates import records_in, verdicts_in
from vectors import all_agree, event_files, run

START, OPEN, CLOSE = 0, 7, 12


# A book's calendar, the date that was opened last, and whether it is open.
class Days:
    def __init__(self):
        self.calendar, self.latest, self.is_open = None, None, False

    # "The next working day after the one closed."
    def expected(self):
        day = self.latest + ONE_DAY
        while not self.calendar.is_working(day):
            day += ONE_DAY
        return day

    # "Tested in that order: a day off, not the next working day, a listed month without a settlement day in the calendar"; before
    # them 3, "call not allowed at this point of the day".
    def answer_to_open(self, date):
        if self.calendar is None or self.is_open:
            return 'no 3'
        if not self.calendar.is_working(date):
            return 'no 19'
        if self.latest and date != self.expected():
            return f'no 20 {number_of(self.expected())}'
        if not all(is_in(self.calendar.settlement[month]) for month in self.calendar.listed(date)):
            return 'no 21'
        return 'ok'

    # A record that the output calls accepted.
    def take(self, kind, values, exceptions):
        if kind == START:
            self.calendar = Calendar(exceptions)
        elif kind == OPEN:
            self.latest, self.is_open = FIRST + timedelta(values[0]), True
        elif kind == CLOSE:
            self.is_open = False


# The lines of a file's opens, each under its answer's number, beside the lines that they should be.
def compared(name, data, output):
    days = Days()
    for (kind, values, exceptions), (line, *_) in zip(records_in(data), verdicts_in(output), strict=True):
        verdict, *numbers = line.split()[1:]
        if kind == OPEN and numbers != ['2']:
            answer = days.answer_to_open(FIRST + timedelta(values[0]))
            yield name, ' '.join(answer.split()[:2]), line, f'{OPEN} {answer}'
        if verdict == 'ok':
            days.take(kind, values, exceptions)


def check_vectors(folder):
    return all_agree(line for name, data, output in event_files(folder) for line in compared(name, data, output))


if __name__ == '__main__':
    run(__doc__, check_vectors)

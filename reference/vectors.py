"""What the scripts that check event files share: the files of a folder, the comparison of lines, the runs of a day program, and the command lines.

    python3 reference/NAME.py vectors FOLDER       checks the event files in FOLDER and their expected outputs
    python3 reference/NAME.py FOLDER [PROGRAM]     tries a day program, crates/day/out/day, on the event files in FOLDER
"""
import subprocess
import sys
from collections import Counter
from pathlib import Path


# The event files of a folder: each one's name, its bytes, and the output that it should give.
def event_files(folder):
    for events in sorted(Path(folder).glob('*.events')):
        yield events.stem, events.read_bytes(), events.with_suffix('.expected').read_text()


# Whether all agree: each with the file's name, what an agreement is counted under, the line that was printed and what it should be.
def all_agree(compared):
    agreeing, differing = Counter(), 0
    for name, heading, printed, line in compared:
        if printed == line:
            agreeing[heading] += 1
        else:
            differing += 1
            print(f'{name}: printed "{printed}", should be "{line}"')
    for heading, count in sorted(agreeing.items()):
        print(f'{heading}: {count} agree')
    print(f'{agreeing.total()} agree, {differing} differ')
    return differing == 0


def run(doc, check_vectors):
    if sys.argv[1:2] == ['vectors'] and len(sys.argv) == 3:
        sys.exit(0 if check_vectors(sys.argv[2]) else 1)
    sys.exit(doc)


# What a day program prints of an event file.
def run_day(program, data):
    return subprocess.run([program], input=data, capture_output=True, check=True).stdout.decode()


# Some of a list, in its order.
def some(choice, items, most):
    return [items[i] for i in sorted(choice.sample(range(len(items)), min(most, len(items))))]


# Tries a day program: `faults_in` yields what is wrong with it on a file, and counts what it tried. All that is `needed` must have been tried.
def run_trials(doc, faults_in, needed):
    if len(sys.argv) not in (2, 3):
        sys.exit(doc)
    folder, program, *_ = [*sys.argv[1:], 'crates/day/out/day']
    counts = Counter({'faults': 0})
    for events in sorted(Path(folder).glob('*.events')):
        for fault in faults_in(program, events.stem, events.read_bytes(), counts):
            counts['faults'] += 1
            print(f'{events.stem}, {fault}')
    for heading, count in counts.items():
        print(f'{heading}: {count}')
    sys.exit(0 if counts['faults'] == 0 and all(counts[heading] for heading in needed) else 1)

"""Asks mutest what is wrong with the prepared folders: whether they are a program, and which tests don't pass."""
import os
import re
import subprocess


class Answer:
    """What a run of the tests on the code as it is told: the status, and the lines behind `mutest: `."""

    def __init__(self, status, text):
        self.status, self.lines = status, [line[8:].split(' ') for line in text.splitlines() if line.startswith('mutest: ')]
        self.text = text


def ask(program, nothing, out):
    """All class files below `out` count as tests, so that no mutant is made."""
    report = os.path.join(out, 'prepared.report')
    done = subprocess.run([program, '--quiet', 'run', '--classes', nothing, '--tests', out, '--report', report, '--new-history', report + '.history'], capture_output=True, check=False)
    for written in (report, report + '.history'):
        if os.path.exists(written):
            os.remove(written)
    return Answer(done.returncode, done.stdout.decode('utf-8', 'backslashreplace'))


def method_key(text):
    """Name and descriptor of a method that a line names."""
    found = re.match(r'([^(]+)(\(.*)', text)
    return found.groups() if found else (text, '')

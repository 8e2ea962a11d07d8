"""All that is asked, as one script, and what the program answered, by case and by run."""
import subprocess
import sys

import case as cases
import forms


class Script:
    """The lines, and where each case and each run begins. The drivers that are registered stand at low priority."""

    def __init__(self, all_cases, all_runs):
        self.lines = [f"register {driver} 50" for driver in forms.REGISTERED]
        self.cases = [(case, self.add(case.lines())) for case in all_cases]
        # of each line that is a request of a run: which run's, and its number there
        self.requests = {}
        for number, run in enumerate(all_runs):
            self.add_run(number, run)
        self.runs = len(all_runs)

    def text(self):
        return "\n".join(self.lines) + "\n"

    def add(self, lines):
        """The number of the first of these lines."""
        first = len(self.lines) + 1
        self.lines += lines
        return first

    def add_run(self, number, run):
        count = 0
        for line, is_request in run.lines():
            self.lines.append(line)
            if is_request:
                self.requests[str(len(self.lines))] = (number, count)
                count += 1

    def case_answers(self, text):
        answers = cases.by_line(text)
        return [cases.program_answer(case, answers, first) for case, first in self.cases]

    def run_answers(self, text):
        """What was told of each run's requests, in order, in the words of our module."""
        told = [[] for _ in range(self.runs)]
        for line in text.splitlines():
            number, _, answer = line.partition(" ")
            if number in self.requests:
                run, request = self.requests[number]
                told[run].append(word_of(request, answer))
        return told


def word_of(request, answer):
    """`3 done 00` is `3:done:00`, and `3 EBUSY` is `3=EBUSY`."""
    if answer == "started" or answer.startswith(("done ", "fail ")):
        return f"{request}:{answer.replace(' ', ':')}"
    return f"{request}={answer}"


def run_program(program, workers, text):
    """What the program prints."""
    ran = subprocess.run([program, "--workers", str(workers)], input=text.encode(), capture_output=True, check=False)
    if ran.returncode:
        sys.exit(f"tools/check-kernel: the program ended with status {ran.returncode}\n{ran.stderr.decode()}")
    return ran.stdout.decode()

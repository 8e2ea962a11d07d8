"""All that is asked: the cases, the runs and the table, as lists for the guest, and how the answers compare."""
import collections

import case as cases
import draw
import fixed
import habits
import judge
import machine
import runs
import table

BOUNDS = range(1, 8)


class Asked:
    """All that is asked, and the kernel's answers."""

    def __init__(self, seed, count, equal_halves=True):
        self.cases = draw.some_cases(seed, count) + fixed.refused_names() + fixed.other_texts(seed)
        if not equal_halves:
            self.cases = [case for case in self.cases if not case.has_equal_halves()]
        self.first_runs = runs.queue_runs(seed, 400)
        by_bound = {bound: runs.cryptd_runs(seed, bound, 30) for bound in BOUNDS}
        self.last_runs = runs.pcrypt_runs(seed, 40)
        self.runs = self.first_runs + [run for some in by_bound.values() for run in some] + self.last_runs
        self.lists = [self.first_list(by_bound), Listed()]
        for run in self.last_runs:
            self.lists[1].add_run(run)

    def first_list(self, by_bound):
        listed = Listed()
        listed.habits = [listed.add(line) for line in habits.ASKS]
        listed.table = [listed.add(line) for line in table.asks()]
        for case in self.cases:
            listed.add_case(case)
        for run in self.first_runs:
            listed.add_run(run)
        for bound, some in by_bound.items():
            listed.add("unload cryptd")
            listed.add(f"load cryptd cryptd_max_cpu_qlen={bound}")
            for run in some:
                listed.add_run(run)
        return listed

    def boot(self):
        """Both boots: pcrypt's needs several processors."""
        for listed, processors in zip(self.lists, (1, 4)):
            listed.answers = machine.boot(listed.lines, processors)
            for line, answer in zip(listed.lines, listed.answers, strict=True):
                if line.startswith(("load", "unload", "put")) and answer != "ok":
                    raise machine.NotBooted(f"{line}: {answer}")

    def kernel_cases(self):
        """Of each case the kernel's answer, and that to its companion."""
        first = self.lists[0]
        for case, (at, besides) in zip(self.cases, first.cases, strict=True):
            yield case, cases.kernel_answer(first.answers[at]), besides and cases.kernel_answer(first.answers[besides])

    def kernel_runs(self):
        return [listed.answers[at].split() for listed in self.lists for at in listed.runs]


class Listed:
    """A list for the guest, and at which lines its cases and runs are answered."""

    def __init__(self):
        self.lines, self.cases, self.runs, self.answers = [], [], [], []
        self.habits, self.table = [], []

    def add(self, line):
        self.lines.append(line)
        return len(self.lines) - 1

    def add_case(self, case):
        at, companion = self.add(case.ask()), case.companion()
        self.cases.append((at, companion and self.add(companion.ask())))

    def add_run(self, run):
        self.runs.append([self.add(line) for line in run.asks()][-1])


class Tally:
    """How many agree, how many differ by which choice, and what else differs."""

    def __init__(self):
        self.counts, self.differences = collections.Counter(), []

    def note(self, verdict, what):
        self.counts[verdict] += 1
        if verdict == judge.DIFFER:
            self.differences.append(what)


def tallies(asked, made, text):
    """Of the cases and of the runs, by what a program printed."""
    return [("cases", judged_cases(asked, made, text)), ("runs", judged_runs(asked, made, text))]


def judged_cases(asked, made, text):
    tally = Tally()
    for (case, kernel, companion), ours in zip(asked.kernel_cases(), made.case_answers(text), strict=True):
        told = f"{case.lines()}\n  here    {ours}\n  kernel  {kernel}\n  besides {companion}"
        tally.note(judge.judged(case, ours, kernel, companion), told)
    return tally


def judged_runs(asked, made, text):
    tally = Tally()
    for run, kernel, ours in zip(asked.runs, asked.kernel_runs(), made.run_answers(text), strict=True):
        told = f"{[line for line, _ in run.lines()]}\n  here   {' '.join(ours)}\n  kernel {' '.join(kernel)}"
        tally.note(run.judged(ours, kernel), told)
    return tally


def judged_table(asked, answer):
    """Of names, drivers and priorities, by what answers a script."""
    tally, first = Tally(), asked.lists[0]
    kernel = table.kernel_rows(first.answers[at] for at in first.table)
    for verdict, what in table.judged(kernel, table.program_rows(answer(table.script()))):
        tally.note(verdict, what)
    here = set(table.program_rows(answer("\n".join(habits.LINES) + "\n")))
    for verdict, what in habits.judged([first.answers[at] for at in first.habits], here):
        tally.note(verdict, what)
    return tally


def shortened(text):
    """Each line's first part."""
    return "\n".join(line[:300] for line in text.splitlines())


def print_tally(what, tally):
    print(f"{what}: {sum(tally.counts.values())}, of which {tally.counts[judge.AGREE]} agree, {len(tally.differences)} differ")
    for choice, count in sorted(tally.counts.items()):
        if choice not in (judge.AGREE, judge.DIFFER):
            print(f"  {count} by choice: {choice}")
    for difference in tally.differences[:5]:
        print(f"  differs: {shortened(difference)}")

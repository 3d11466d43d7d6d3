"""Runs the built program as a user does, and compares its exit status, its lines and its bytes with what is wanted. The arguments of each script."""
import argparse
import fnmatch
import os
import re
import resource
import shlex
import subprocess
import sys
import threading
import traceback
from concurrent.futures import ProcessPoolExecutor

from differences import difference

# Runs a program, and says at the end of what it said how many kilobytes of it were resident at most. What the script that runs it holds does not count.
MEASURED = """
import os, sys
_, status, used = os.wait4(os.posix_spawn(sys.argv[1], sys.argv[1:], os.environ), 0)
sys.stderr.write(f"peak {used.ru_maxrss}\\n")
sys.exit(os.waitstatus_to_exitcode(status))
"""


# Where this is set, the program says more. A test that wants that sets it for its own runs.
os.environ.pop("ARROWSTORE_ADVICE", None)

PATIENCE = 240
# The last command that each thread has run.
COMMANDS = threading.local()


def note_command(event, parts):
    if event == "subprocess.Popen":
        _, words, folder, settings = parts
        COMMANDS.last = words, folder, settings


sys.addaudithook(note_command)


def last_command(program):
    """The last command of this thread that names the program, as a line for a shell, or None."""
    words, _, settings = getattr(COMMANDS, "last", ((), None, None))
    words = [os.fsdecode(word) for word in ([words] if isinstance(words, (str, bytes)) else words)]
    if program not in words:
        return None
    new = {os.fsdecode(name): os.fsdecode(value) for name, value in (settings or {}).items()}
    line = shlex.join([*(f"{name}={value}" for name, value in new.items() if os.environ.get(name) != value), *words])
    return line if len(line) <= 1000 else f"{line[:1000]} .."


def parser_of(about, what="the program that is tested"):
    """The arguments that every script takes."""
    parser = argparse.ArgumentParser(description=about, formatter_class=argparse.RawDescriptionHelpFormatter)
    if what:
        parser.add_argument("program", type=os.path.abspath, help=what)
    parser.add_argument("cases", nargs="*", metavar="CASE", help="names of cases, where * stands for any letters; all, if none is given")
    parser.add_argument("--list", action="store_true", help="print the names of the cases")
    return parser


def chosen_of(names, given):
    """Those of the cases that are asked for. Only prints them if that is asked for; a name that none has is wrong."""
    names = list(dict.fromkeys(names))
    if not names:
        sys.exit(f"{sys.argv[0]}: there are no cases")
    unknown = [case for case in given.cases if not fnmatch.filter(names, case)]
    if unknown:
        sys.exit(f"{sys.argv[0]}: no case is called {', '.join(unknown)}; --list prints the names of the cases")
    chosen = [name for name in names if not given.cases or any(fnmatch.fnmatchcase(name, case) for case in given.cases)]
    if given.list:
        print(*chosen, sep="\n")
        sys.exit(0)
    return chosen


def places_of(error):
    """What an error says, and the lines of the scripts that led to it."""
    yield f"{type(error).__name__}: {error!s:.300}"
    for frame in traceback.extract_tb(error.__traceback__):
        if os.path.dirname(os.path.abspath(frame.filename)) == os.path.dirname(os.path.abspath(__file__)) and frame.filename != __file__:
            yield f"{os.path.basename(frame.filename)}:{frame.lineno}: {frame.line}"


def name_from(*words):
    """A name of a case from words that say what it is about."""
    return re.sub(r"[^\w.]+", "-", " ".join(map(str, words))).strip("-")


def name_of(case):
    return case.__name__ if callable(case) else name_of(case[0]) if callable(case[0]) else case[0]


def call(case):
    """A case is a function, or a tuple of one and what it is given; a name may stand before it."""
    words = (case,) if callable(case) else case
    function, *given = words if callable(words[0]) else words[1:]
    function(*given)


class CaseEnds(Exception):
    """What is wrong is noted, and the case can't go on."""


class Answers:
    """Those of a program, whose runs end within so many seconds, also where other scripts run beside."""
    def __init__(self, program, patience=PATIENCE, case=None):
        self.program = program
        self.patience = patience
        self.case = case
        self.given = None
        self.wrong = []
        self.passed = 0

    @classmethod
    def of_arguments(cls, about, patience=PATIENCE):
        """Those of the program that the script is given."""
        given = parser_of(about).parse_intermixed_args()
        answers = cls(given.program, patience)
        answers.given = given
        return answers

    def play(self, *cases):
        """Plays the cases that are asked for. The cases of a list go on with what the one before them has left: so those before one are played too."""
        chains = [it if isinstance(it, list) else [it] for it in cases]
        chosen = chosen_of((name_of(case) for chain in chains for case in chain), self.given)
        for chain in chains:
            for case in chain[:max((place for place, case in enumerate(chain, 1) if name_of(case) in chosen), default=0)]:
                if not self.plays(case):
                    break

    def plays(self, case):
        """Whether a case comes to its end."""
        self.case = name_of(case)
        try:
            call(case)
        except CaseEnds:
            return False
        except Exception as error:
            self.fail(f"{self.case} has ended with an error", places_of(error))
            return False
        return True

    def compare(self, what, got, wanted):
        if got == wanted:
            self.passed += 1
        else:
            self.fail(what, difference(got, wanted))

    def require(self, what, got, wanted):
        """The same where the case can't go on if they differ."""
        self.compare(what, got, wanted)
        if got != wanted:
            raise CaseEnds

    def fail(self, what, lines=()):
        """Notes what is wrong, with the command that was run last and how to play the case alone."""
        command = last_command(self.program)
        alone = self.case and shlex.join([sys.argv[0], self.program, self.case])
        more = [f"after: {command}"] * bool(command) + [f"alone: {alone}"] * bool(alone)
        self.wrong.append("\n".join([str(what), *(f"    {line}" for line in (*lines, *more))]))

    def run(self, words, given=b""):
        try:
            done = subprocess.run([self.program, *words], input=given, capture_output=True, timeout=self.patience)
        except subprocess.TimeoutExpired:
            return None, b"", b"no end within %d seconds" % self.patience
        return done.returncode, done.stdout, done.stderr

    def measured(self, words, path):
        """Status, what is written and said, and the bytes that were resident at most. A run with next to no bytes takes 9 MB, most of it the interpreter
        that starts it."""
        with open(path, "rb") as given:
            done = subprocess.run([sys.executable, "-IS", "-c", MEASURED, self.program, *words], stdin=given, capture_output=True, timeout=self.patience)
        said, peak = re.fullmatch(rb"(.*)peak (\d+)\n", done.stderr, re.DOTALL).groups()
        return done.returncode, done.stdout, said, 1024 * int(peak)

    def accepted(self, what, given, wanted):
        self.compare(what, self.run(["recode"], given), (0, wanted, b""))

    def refused(self, what, given, line):
        self.compare(what, self.run(["recode"], given), (1, b"", f"refused {line}\n".encode()))

    def tell(self, name):
        """Prints each difference, and last how many passed; the exit status."""
        for difference_of_one in self.wrong:
            print(difference_of_one)
        print(f"{name}: {self.passed} passed, {len(self.wrong)} failed")
        return 1 if self.wrong else 0


def print_some(name, wrong, most=4):
    """The first differences of a case: one fault often shows in many places."""
    for difference in wrong[:most]:
        print(difference)
    if len(wrong) > most:
        print(f"{name}: {len(wrong) - most} more differences")


def play_cases(name, played, cases, processes):
    """Plays cases at once, each by `played`, which gives the numbers of comparisons and of images, and each difference. Prints differences, and last how many
    comparisons passed. Gives the number of images and whether all is right."""
    passed, failed, images = 0, 0, 0
    with ProcessPoolExecutor(processes) as pool:
        for case, (right, found, wrong) in zip(cases, pool.map(played, cases)):
            print_some(case, wrong)
            passed, failed, images = passed + right, failed + len(wrong), images + found
    used = sum(sum(resource.getrusage(who)[:2]) for who in (resource.RUSAGE_SELF, resource.RUSAGE_CHILDREN))
    print(f"{images:,} images of {len(cases)} cases, in {used:.0f} seconds of processor time")
    print(f"{name}: {passed} passed, {failed} failed")
    return images, failed == 0

"""Calls of a program, each within bounds of time and memory, and the form that its answers have.

The bounds are those of README and PROFILE: a text of some 100 kB takes at most 10 seconds and 1 GB.

Whoever wants answers is a generator: it gives lists of words, a list for each call, and is sent their answers. So many go on
together, each in a folder of its own: what all of them ask for is asked for before the first answer is waited for.
"""
import os
import re
import signal
import struct
import subprocess
from pathlib import Path
from typing import NamedTuple

SECONDS = 10
KILOBYTES = 1 << 20
STACK = 8 << 20
# Of how many answers one is asked for twice; where forks.c reads and writes, and what it tells of a call.
EVERY = 64
ORDERS, REPLIES = 198, 199
REPLY = struct.Struct("lllll")
# How many go on together.
FOLDERS = 128

LIMITS = {
    "file": "67108864", "pattern": "65536", "depth": "2000", "elements": "256", "states": "(512|256)", "symbols": "1024",
    "predicates": "6", "ancestors": "64", "selects": "4096", "calls": "8000", "entries": "8192", "trees": "[0-9]+",
    "hedges": "[0-9]+", "outputs": "65536", "counterexample": "2000", "certificate": "67108864", "tag": "65536",
    "names": "65536", "work": "4000000", "open": "8000",
}  # fmt: skip
OF_SCHEMA = ["pattern", "depth", "elements", "states", "symbols"]
OF_SHEET = ["symbols", "predicates", "ancestors", "selects"]
OF_ALL = [*OF_SCHEMA, *OF_SHEET, "calls", "entries"]
ROWS = ["trees", "hedges", "outputs", "counterexample"]
LIMITS_OF = {
    "check": [*OF_ALL, *ROWS],
    "prove": [*OF_ALL, *ROWS, "certificate"],
    "verify": OF_ALL,
    "upgrade": ["certificate"],
    "run": [*OF_SHEET, "work", "open"],
    "valid": [*OF_SCHEMA, "tag", "names"],
    "dead": [*OF_ALL, "trees", "hedges", "outputs"],
    "include": [*OF_SCHEMA, "trees", "hedges", "counterexample"],
    "same": [*OF_SCHEMA, "trees", "hedges", "counterexample"],
}
DOCUMENT = ["doctype-subset", "entity", "encoding", "xml-space", "xml-version"]
SCHEMA = (
    "data value list external include grammar parent inherit annotation escape triple-quote concatenation"
).split()
DECLARATIONS = ["parameter-entity", "conditional-section", "qualified-name", "encoding", "xml-version"]
SHEET = (
    "variable param with-param import xsl-include sort number key message comment processing-instruction apply-imports "
    "attribute-set namespace-alias decimal-format fallback preserve-space extension simplified disable-output-escaping "
    "computed-name copy-of use-attribute-sets version unknown-xslt axis dot absolute function comparison arithmetic predicate "
    "attribute variable-reference string"
).split()
# The reasons for which an operand of a kind is refused.
REASONS = {
    "document": ["malformed", "too-deep", *(f"unsupported {word}" for word in DOCUMENT)],
    "schema": ["malformed", "too-deep", "twice", "undefined", "loop", "bad-except", "bad-start", *(f"unsupported {word}" for word in SCHEMA)],
    "declarations": ["malformed", "too-deep", "twice", *(f"unsupported {word}" for word in DECLARATIONS)],
    "sheet": ["malformed", "too-deep", "undefined", "call-loop", *(f"unsupported {word}" for word in DOCUMENT + SHEET)],
}
# The kinds of the operands of each command.
OPERANDS = {
    "check": ["schema", "schema", "sheet"],
    "prove": ["schema", "schema", "sheet"],
    "verify": ["schema", "schema", "sheet", None],
    "upgrade": [None],
    "run": ["sheet", "document"],
    "valid": ["schema", "document"],
    "dead": ["schema", "sheet"],
    "include": ["schema", "schema"],
    "same": ["schema", "schema"],
}
UNSAFE = rb"unsafe\ndocument [^\n]*\n(output [^\n]*|output-too-large)\n"
CERTIFICATE = rb"xslt-typecheck certificate 2\n.*\nend\n"
DEAD = rb"((rule|named|branch) [0-9]+ (dead|used [^\n]*)\n)*places [0-9]+ dead [0-9]+\n"
REJECTED = rb"rejected [0-9]+ (form|fit|empty|text|append [0-9]+|wrap [^\n]*|root)\n"
ANSWERS = {
    "check": [rb"safe trees [0-9]+ hedges [0-9]+ outputs [0-9]+\n", UNSAFE],
    "prove": [CERTIFICATE, UNSAFE],
    "verify": [rb"accepted\n", REJECTED],
    "upgrade": [CERTIFICATE, REJECTED],
    "run": [rb".*\n", rb"(?!)"],
    "valid": [rb"valid\n", rb"invalid\n"],
    "dead": [DEAD, DEAD],
    "include": [rb"included trees [0-9]+ hedges [0-9]+\n", rb"not-included\ndocument [^\n]*\n"],
    "same": [rb"same\n", rb"different\n(first|second)-only [^\n]*\n"],
}


class Answer(NamedTuple):
    """The status of a call, negative where a signal ended it and None where it was stopped, what it wrote to both outputs, its
    kilobytes, and its seconds on a processor."""

    status: int
    told: bytes
    complaint: bytes
    kilobytes: int
    seconds: float


class TookLong(Exception):
    pass


def stop(*_):
    raise TookLong


def within(seconds, work):
    """What a function gives, or `TookLong`, by seconds on a processor."""
    signal.setitimer(signal.ITIMER_VIRTUAL, seconds)
    try:
        return work()
    finally:
        signal.setitimer(signal.ITIMER_VIRTUAL, 0)


def started(program, words, actions, settings):
    """The number of a new process of a program, without any input."""
    no_input = (os.POSIX_SPAWN_OPEN, 0, "/dev/null", os.O_RDONLY, 0)
    return os.posix_spawn(program, [program, *words], {**os.environ, **settings}, file_actions=[no_input, *actions])


class Waiting:
    """A program with its words that waits where it begins, and is called in one folder after another (forks.c)."""

    def __init__(self, library, program, words):
        orders, self.orders = os.pipe()
        replies_read, replies = os.pipe()
        self.replies = open(replies_read, "rb", buffering=1 << 16)
        actions = [(os.POSIX_SPAWN_DUP2, orders, ORDERS), (os.POSIX_SPAWN_DUP2, replies, REPLIES)]
        self.process = started(program, words, actions, {"LD_PRELOAD": str(library)})
        os.close(orders)
        os.close(replies)

    def order(self, folder):
        """Has it called in a folder."""
        os.write(self.orders, bytes([folder]))

    def answer(self):
        """What it answered to the first order that no answer was asked for."""
        ended, kilobytes, microseconds, told, complaint = REPLY.unpack(self.replies.read(REPLY.size))
        status = os.waitstatus_to_exitcode(ended)
        if status == -signal.SIGALRM:
            status = None
        return Answer(status, self.replies.read(told), self.replies.read(complaint), kilobytes, microseconds / 1e6)

    def end(self):
        os.close(self.orders)
        self.replies.close()
        os.waitpid(self.process, 0)


class Caller:
    """Calls a program in folders, which it fills with files; some answers are asked for twice."""

    def __init__(self, program):
        self.program = program
        self.top = Path.cwd()
        self.calls = self.answers = self.folder = 0
        self.every = EVERY
        self.folders = [str(self.top / f"{number:03}") for number in range(FOLDERS)]
        for folder in self.folders:
            os.mkdir(folder)
        self.sizes = [{} for _ in self.folders]
        self.waiting = {}
        self.library = Path("forks.so").resolve()
        subprocess.run(["cc", "-shared", "-fPIC", "-O1", "-o", self.library, Path(__file__).with_name("forks.c")], check=True)
        signal.signal(signal.SIGVTALRM, stop)

    def end(self):
        """Ends the programs that wait."""
        for waiting in self.waiting.values():
            waiting.end()

    def enter(self, folder):
        """Goes into the folder of a number."""
        os.chdir(self.folders[folder])
        self.folder = folder

    def put(self, name, text):
        """Makes a file in the current folder."""
        file = os.open(name, os.O_WRONLY | os.O_CREAT | os.O_TRUNC, 0o600)
        os.write(file, text)
        os.close(file)
        self.sizes[self.folder][name] = len(text)

    def put_everywhere(self, name, text):
        """Makes a file in each folder."""
        for folder in range(FOLDERS):
            self.enter(folder)
            self.put(name, text)

    def waiting_for(self, words):
        """What waits for calls with words."""
        if words not in self.waiting:
            os.chdir(self.top)
            self.waiting[words] = Waiting(self.library, self.program, words)
            self.enter(self.folder)
        return self.waiting[words]

    def together(self, works):
        """What generators give at their end, of at most so many as there are folders, each in one of its own."""
        found = [None] * len(works)
        answers = dict.fromkeys(range(len(works)))
        while answers:
            asked = []
            for folder, sent in answers.items():
                self.enter(folder)
                try:
                    waiting = [self.waiting_for(words) for words in works[folder].send(sent)]
                except StopIteration as end:
                    found[folder] = end.value
                    continue
                for each in waiting:
                    each.order(folder)
                self.calls += len(waiting)
                asked.append((folder, waiting))
            answers = {folder: [each.answer() for each in waiting] for folder, waiting in asked}
        return found

    def call(self, *words):
        """What the program answers to words."""
        (found,) = yield [words]
        return found

    def answer(self, *words):
        """An answer, and what is wrong with it, or None: its form, its bounds, or, of some, that another one comes the second
        time."""
        (found,) = yield from self.answers_to(words)
        return found

    def answers_to(self, *calls):
        """The same of each of some calls."""
        found = yield calls
        return [(answer, self.wrong_or_other(answer, words)) for answer, words in zip(found, calls)]

    def wrong_or_other(self, answer, words):
        wrong = self.wrong(answer, words)
        self.answers += 1
        if wrong is None and self.answers % self.every == 0 and self.called_anew(*words) != answer[:3]:
            return f"{words[0]} answers otherwise the second time"
        return wrong

    def called_anew(self, *words):
        """How the program ends that is started anew, at other addresses and with its memory filled with another byte, and what
        it writes to both outputs."""
        flags = os.O_WRONLY | os.O_CREAT | os.O_TRUNC
        actions = [(os.POSIX_SPAWN_OPEN, output, name, flags, 0o600) for output, name in ((1, "told"), (2, "complaint"))]
        _, status = os.waitpid(started(self.program, words, actions, {"MALLOC_PERTURB_": "165"}), 0)
        return os.waitstatus_to_exitcode(status), contents("told"), contents("complaint")

    def wrong(self, answer, words):
        """What is wrong with the form of an answer, or with its bounds, or None."""
        command, status, told = words[0], answer.status, answer.told
        if status is None or answer.seconds > SECONDS:
            return f"{command} takes over {SECONDS} seconds"
        if status < 0:
            return f"{command} is ended by signal {-status}"
        if answer.complaint:
            return f"{command} writes to the standard error"
        if answer.kilobytes > KILOBYTES or status == 7:
            return f"{command} takes over 1 GB"
        if status in (0, 1):
            fits = re.fullmatch(ANSWERS[command][status], told, re.DOTALL if told.startswith(b"xslt-typecheck") or command == "run" else 0)
            return None if fits else f"{command} has no line of status {status}"
        if status == 3:
            return self.wrong_refusal(command, words, told)
        if status == 4:
            limits = "|".join(f"{kind} {LIMITS[kind]}" for kind in LIMITS_OF[command])
            return None if re.fullmatch(f"limit ({limits})\n", told.decode()) else f"{command} tells no limit of its own"
        return f"{command} has status {status}"

    def wrong_refusal(self, command, words, told):
        """What is wrong with the line of a refusal, or None."""
        match = re.fullmatch(r"refused (\S+) (.+) at ([0-9]+)\n", told.decode("utf-8", "replace"))
        operands = words[-len(OPERANDS[command]) :]
        if match is None or match.group(1) not in operands:
            return f"{command} has no line of status 3"
        name, reason, place = match.groups()
        kinds = [kind for kind, word in zip(OPERANDS[command], operands) if word == name and kind]
        kinds = ["declarations" if kind == "schema" and name.startswith("dtd:") else kind for kind in kinds]
        if not any(reason in REASONS[kind] for kind in kinds):
            return f"{command} refuses a {kinds[:1]} as {reason}"
        if int(place) > self.sizes[self.folder][name.rpartition(":")[2]]:
            return f"{command} refuses at a place behind the end"
        return None


def contents(name):
    with open(name, "rb") as file:
        return file.read()

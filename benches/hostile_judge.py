"""What a command line of benches/hostile may end with and print: for each command the form of its first line and of the others,
and for each refusal the file that it must blame."""

import re

NUMBER, NAME, RANGE = r"-?\d+", r"\w+", r"-?\d+\.\.-?\d+"
AT_WORD = rf"refused (?:[2-9]|1[0-3]) at word \d+ line \d+(?: found {RANGE} allowed {RANGE})?"

# The one line of a refusal, by the file that is at fault.
REFUSALS = {
    "bind": re.compile(r"bind fault at \d+"),
    "text": re.compile(
        rf"text fault [2-9] at \d+:\d+|name fault (?:[2-9]|1[0-2]) at \d+:\d+|task {NAME} {AT_WORD}|no task {NAME}"
    ),
    "scenario": re.compile(r"scenario fault at \d+"),
    "code": re.compile(rf"code file fault [2-6]|code {AT_WORD}"),
}
NO_TASK = re.compile(rf"no task {NAME}")

# What stands on standard error beside a refusal: which file it is, or that it is a file of another kind.
MISPLACED = re.compile(
    rf"{NAME} is an? [\w ]+, where an? [\w ]+ is asked for(?:: it stands twice|: exchange the files)?"
)
TASKS = re.compile(
    rf"(?:error: no task is named: )?(?:the only task is {NAME}|the tasks are {NAME}(?:, {NAME})*|there is no task)"
)

VALUE = rf"[\w.]+ = (?:TRUE|FALSE|{NUMBER})"
PLAYED = (
    r"tick \d+|heard \d+ [0-9A-F]{6}|take \w+|commit \w+ steps \d+|hand \d+ \d [0-9A-F ]+"
    r"|done \d+ (?:quiet|answer \d+|damaged|gave up|failed)|down \d+|limit|dropped \d+ \d \d+|lost \w+ \d+"
)
RAN = r"events \d+|bus \d+ sent \d+ heard \d+|task \w+ scans \d+ lost \d+"

# What stands on the first line of an answer and on the others, by the command; of `code` nothing does.
ANSWERS = {
    "check": (rf"task {NAME} words \d+ bound \d+", rf"task {NAME} words \d+ bound \d+"),
    "check --code": (r"code words \d+ bound \d+", None),
    "step": (
        r"scan 0 steps \d+ bound \d+",
        rf"scan \d+ steps \d+ bound \d+|request bus \d+ class \d [0-9A-F ]+|{VALUE}",
    ),
    "code": (None, None),
    "play": (rf"{PLAYED}|{VALUE}", rf"{PLAYED}|{VALUE}"),
    "run": (r"ended (?:asked|limit|no memory|no thread)", rf"{RAN}|{VALUE}"),
}

# What a run prints where the threads and the refused memory left it no time to come to its end.
ENDED_EARLY = ("ended no memory", "ended no thread")


def command_of(words):
    """The command, `check --code` apart from `check`."""
    return "check --code" if words[1] == "--code" else words[0]


def is_answer(words, lines):
    """Whether these are the lines of an answer of a command, as far as their form goes."""
    first, others = ANSWERS[command_of(words)]
    if not lines:
        return first is None or command_of(words) == "check"
    if first is None or not re.fullmatch(first, lines[0]):
        return False
    return all(others is not None and re.fullmatch(others, line) for line in lines[1:])


def blamed(words, line):
    """Which of the files that a command line names a refusal blames, or None."""
    named = [word for word in words if word in REFUSALS]
    return next((it for it in named if REFUSALS[it].fullmatch(line)), None)


def hint_of(words, file):
    """What standard error must say beside a refusal that blames a file."""
    files = [it for it in ("text", "bind") if it in words] + ["scenario"] * (file == "scenario")
    return f"the fault is in {file}: dalictl explain {' '.join(files)}"


def fault_of_refusal(words, lines, told):
    """What is wrong with what a refused command line printed, or None."""
    file = blamed(words, lines[0]) if len(lines) == 1 else None
    if file is None:
        return f"status 1 with {lines[:3]}"
    if NO_TASK.fullmatch(lines[0]):
        is_right = all(TASKS.fullmatch(it) for it in told)
    elif file == "code":
        is_right = not told
    else:
        is_right = len(told) == 1 and (told[0] == hint_of(words, file) or MISPLACED.fullmatch(told[0]))
    return None if is_right else f"{lines[0]!r}, and on standard error {told[:3]}"


def fault_of_usage(words, lines, told):
    """What is wrong with what a command line printed that ends as one of wrong usage, or None: only a task may be no one's."""
    is_right = words[0] in ("step", "code") and not lines and len(told) == 1 and TASKS.fullmatch(told[0])
    return None if is_right else f"status 2 with {lines[:3]}, and on standard error {told[:3]}"


def fault_of_answer(words, status, lines, told):
    """What is wrong with what an accepted command line printed, or None."""
    if told:
        return f"status {status}, and on standard error {told[:3]}"
    if not is_answer(words, lines):
        return f"status {status} with {lines[:3]}"
    if words[0] == "run":
        is_right = status == 3 or lines[0] == "ended asked"
        return None if is_right else f"status {status}: {lines[0]}"
    if words[0] == "play":
        is_down = any(it.startswith("down ") for it in lines)
        return None if is_down == (status == 3) else f"status {status}, and {'a' if is_down else 'no'} bus is down"
    return None if status == 0 else f"status {status} with {lines[:3]}"


def fault_of(words, status, lines, told):
    """What is wrong with how a command line ended, with its lines and those on standard error, in a sentence; None where nothing is."""
    if status is None:
        return told[-1]
    if status < 0:
        return f"ended by signal {-status}: {told[-3:]}"
    if status == 1:
        return fault_of_refusal(words, lines, told)
    if status == 2:
        return fault_of_usage(words, lines, told)
    if status in (0, 3):
        return fault_of_answer(words, status, lines, told)
    return f"status {status}: {told[-3:]}"

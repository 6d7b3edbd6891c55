#!/usr/bin/env python3
"""Picks stored lines for the program `calls` from random ones of the reference implementation.

usage: store.py KIND SEED LINES ANSWERS     KIND as in `reference sheets KIND COUNT SEED`, step, or widen

Of the random lines it takes the first 200 of small sheets (up to 30 orders), the first 40 of large ones (100 orders and more)
and the first 8 of each refusal (up to 40 orders), and appends them to the file LINES and the reference implementation's answers
to the file ANSWERS, each under a line that says where they are from. Of small first rounds it takes 400 of situation 0 and 160
of each other, of small openings with each ending 120 of one round, 240 of two and 300 of three or more, of large ones 40 of up
to 9 rounds, 3 of 10 and more and 3 of 60, and of both calls 40 for which the space is too small. Of waiting lists it takes 24 of
up to 60 words and 4 of more for each of 0, 1, 2 to 9 and more openings due, with a phase that is on and with none, and 24 of each
refusal. Of small openings with fees it takes, where an order is charged, 60 of one round, 60 of two and 60 of three or more, where
none is, 20; of large ones 10 of up to 9 rounds, 2 of 10 and more, and 2 in which an order's fee needs more than 32 bits; and 24 for
which the tariff is not allowed and 24 for which a space is too small. For `step` it goes through random lines of every call on a sheet
and takes only those whose sheet has the length of one with a step word: of each call 36 of small sheets and 5 of large ones, and
of all together 40 for which the step word is wrong. Of rounds of stored results, in lines of up to 20,000 bytes, it takes 20 of small
sheets with a result of one round, 20 of two and 20 of three or more, and 12 of large sheets; 24 of rounds past the last; of up to 40
orders, 24 where the result differs within, 8 where words are missing and 8 where there are too many; 3 of each refusal of the sheet;
and 8 in which the sheet is said to have more words than there are. For `widen` it goes through random lines of the band's calls and of
the waiting clock: of widenings it takes 40 of a bound below 10, 16 of others and 8 of each refusal; of waiting lists that widen a bound
below 10, 12 each with 1, 2 to 9 and more openings due, and 8 from an upper bound below 10 to refusal 11.
"""
import collections
import pathlib
import subprocess
import sys

if len(sys.argv) != 5:
    sys.exit(__doc__)
kind, seed, lines_file, answers_file = sys.argv[1:]
manifest = pathlib.Path(__file__).with_name("Cargo.toml")


def reference(*words, given=None):
    command = ["cargo", "run", "-q", "--release", "--manifest-path", str(manifest), *words]
    return subprocess.run(command, input=given, capture_output=True, text=True, check=True).stdout


ON_A_SHEET = ("check", "stepper", "curves", "round", "opening", "fees")
count = {"round": "12000", "opening": "20000", "fees": "12000"}.get(kind, "3000")
DRAWN = {"step": ON_A_SHEET, "widen": ("band", "waiting")}
lines = "".join(reference("sheets", call, count, seed) for call in DRAWN.get(kind, [kind]))
answers = reference("calls", given=lines).splitlines()

ROUNDS = ("1 round", "2 rounds", "3 rounds and more")
MOST = {"small": 200, "large": 40}
if kind == "round":
    MOST = {"situation 0": 400, "large": 40, "10": 40} | {f"situation {s}": 160 for s in range(1, 5)}
if kind == "opening":
    small = dict(zip(ROUNDS, (120, 240, 300)))
    MOST = {f"{sort}, ending {e}": most for sort, most in small.items() for e in range(3)}
    MOST |= {"large": 40, "large, 10 rounds and more": 3, "large, 60 rounds": 3, "10": 40}
if kind == "fees":
    MOST = {f"{rounds}, charged": 60 for rounds in ROUNDS} | {"not charged": 20}
    MOST |= {"large": 10, "large, 10 rounds and more": 2, "large, beyond 32 bits": 2, "10": 24, "16": 24}
if kind == "waiting":
    MOST = {f"{size}, phase {phase}, {due} due": most for size, most in {"short": 24, "long": 4}.items()
            for phase in (0, 1) for due in ("0", "1", "2 to 9", "more")}
    MOST |= {number: 24 for number in ("9", "11", "13", "14")}
if kind == "view":
    MOST = {rounds: 20 for rounds in ROUNDS} | {"large": 12, "9": 24, "unreadable": 8}
    MOST |= {"different": 24, "different, too short": 8, "different, too long": 8}
    MOST |= {number: 3 for number in ("1", "2", "3", "15", "17", "4", "5", "6", "7", "8")}
if kind == "step":
    MOST = {f"{call}, {size}": most for call in ON_A_SHEET for size, most in {"small": 36, "large": 5}.items()} | {"17": 40}
if kind == "widen":
    MOST = {"below 10": 40, "10 and more": 16} | {f"list, {due} due": 12 for due in ("1", "2 to 9", "more")}
LONGEST = 20000 if kind == "view" else 4096


def small_sort(answer):
    """What a line of up to 30 orders is picked as: a first round by its situation, an opening by rounds and ending, one with
    fees by rounds and whether anything is charged."""
    words = answer.split()
    if kind == "round":
        return f"situation {int(words[0], 16) % 16}"
    if kind == "opening":
        ending, rounds = divmod(int(words[-1], 16) % 2**28, 2**16)
        return f"{ROUNDS[min(rounds, 3) - 1]}, ending {ending}"
    if kind == "fees":
        last, fees = last_word_and_fees(words)
        return f"{ROUNDS[min(last % 2**16, 3) - 1]}, charged" if any(fees) else "not charged"
    return "small"


def last_word_and_fees(words):
    """Of the answer to an opening with fees: the last word of the result, and the fees behind the word that parts them from it."""
    end = words.index("fees")
    return int(words[end - 1], 16), [int(fee) for fee in words[end + 1:]]


def large_sort(answer):
    """What a line of 100 orders and more is picked as."""
    if kind == "fees":
        last, fees = last_word_and_fees(answer.split())
        few = "large" if last % 2**16 < 10 else "large, 10 rounds and more"
        return "large, beyond 32 bits" if max(fees) >= 2**32 else few
    rounds = int(answer.split()[-1], 16) % 2**16 if kind == "opening" else 1
    return "large" if rounds < 10 else "large, 60 rounds" if rounds == 60 else "large, 10 rounds and more"


def waiting_sort(line, answer):
    """What a waiting list is picked as."""
    if answer.startswith("refused"):
        return answer.split()[1]
    phase, *_, due = answer.split()
    size = "short" if len(line.split()) <= 63 else "long"
    return f"{size}, phase {phase}, {due_sort(due)}"


def due_sort(due):
    return f"{due if int(due) < 2 else '2 to 9' if int(due) < 10 else 'more'} due"


def widen_sort(line, answer):
    """What a widening is picked as, and a waiting list that widens a bound below 10."""
    call, *band = line.split()[:3]
    said = answer.split()
    if call == "widen":
        moved = dict(zip("01", reversed(band))).get(line.split()[3])
        return said[1] if said[0] == "refused" else "below 10" if int(moved) < 10 else "10 and more"
    if call != "waiting":
        return None
    if said[0] == "refused":
        return "list, 11" if said[1] == "11" and int(band[1]) < 10 else None
    moved = any(int(before) < 10 and before != after for before, after in zip(band, said[3:5]))
    return f"list, {due_sort(said[5])}" if moved else None


def view_sort(line, answer):
    """What a round of a stored result is picked as. Before the first difference all words are right: if a last word is among them,
    the stored ones are too many."""
    if len(line) > LONGEST:
        return None
    if answer == "unreadable":
        return answer
    _, _, count, *words = line.split()
    orders, stored = (int(count) - 5) // 3, [int(word, 16) for word in words[int(count):]]
    if answer.startswith("refused"):
        return answer.split()[1] if orders <= 40 else None
    if answer.startswith("different"):
        place = int(answer.split()[1])
        if orders > 40:
            return None
        if place == len(stored):
            return "different, too short"
        return "different, too long" if place > 0 and stored[place - 1] >> 28 == 15 else "different"
    return ROUNDS[min(stored[-1] % 2**16, 3) - 1] if orders <= 30 else "large" if orders >= 100 else None


def sort_of(line, answer):
    """What a line is picked as: a refusal's number, a sort of small or of large, or None."""
    if kind == "waiting":
        return waiting_sort(line, answer)
    if kind == "view":
        return view_sort(line, answer)
    if kind == "widen":
        return widen_sort(line, answer)
    call = line.split()[0]
    words = line.split()[{"check": 1, "fees": 6}.get(call, 2):]
    orders = (len(words) - 5) // 3
    if len(line) > LONGEST or kind == "step" and not has_step_word(words):
        return None
    if answer.startswith("refused"):
        return answer.split()[1] if orders <= 40 else None
    if orders <= 30:
        return small_sort(answer) if kind != "step" else f"{call}, small"
    if orders >= 100:
        return large_sort(answer) if kind != "step" else f"{call}, large"
    return None


def has_step_word(words):
    """Whether a sheet has the length of one with a step word."""
    return len(words) > 5 and len(words) == 6 + 3 * (int(words[4], 16) % 2**28)


heading = f"# {kind}: of {count} random lines with seed {seed}, answered by the reference implementation"
picked = [(heading, heading)]
taken = collections.Counter()
for line, answer in zip(lines.splitlines(), answers, strict=True):
    sort = sort_of(line, answer)
    if sort is not None and taken[sort] < MOST.get(sort, 8):
        taken[sort] += 1
        picked.append((line, answer))

with open(lines_file, "a", encoding="ascii") as out:
    out.writelines(line + "\n" for line, _ in picked)
with open(answers_file, "a", encoding="ascii") as out:
    out.writelines(answer + "\n" for _, answer in picked)
print(len(picked) - 1, dict(taken))

#!/usr/bin/env python3
"""Holds the definitions of crates/rules against the reference implementation.

    reference/hold.py [COUNT] [SEED]

Random calls are made and answered by the reference implementation: COUNT whole openings, and a third as many of each other
call on a sheet, of the band's calls together, of the waiting clock and of stored results. A scratch crate outside the project then states,
for each, that the rules answer the same, of an opening with fees also that the fees on its words are the same, and of a stored round what its
words say; the checker proves it. An answer that differs leaves the scratch crate unproved.
"""
import os
import re
import shutil
import subprocess
import sys
import tempfile
from collections import Counter

PROJECT = os.path.dirname(os.path.dirname(os.path.abspath(__file__)))
CALLS_A_FILE = 10
# What the rules answer is computed by the checker: beyond some twenty orders that takes too many steps.
MOST_WORDS = 6 + 3 * 20
MOST_STORED = 500
MOST_PIECES = 3000


def reference(*words, text=None):
    """What the reference implementation prints."""
    program = os.path.join(PROJECT, "reference", "target", "release", "reference")
    return subprocess.run([program, *words], input=text, capture_output=True, text=True, check=True).stdout.splitlines()


def imports_and_names():
    """What the proof of the table brings in of the rules, and the definitions that it unfolds."""
    with open(os.path.join(PROJECT, "crates", "rules", "proofs", "Cases.antt")) as file:
        proof = file.read()
    lines = [line for line in proof.splitlines() if line.startswith("use Rattle.rules.") and ".Cases." not in line]
    names = re.search(r"^unfolding all_same same same_numbers document_cases further_cases waiting_cases fee_cases step_cases (.*)$", proof, re.M)
    charged = re.search(r"^unfolding charges (.*)$", proof, re.M)
    return lines, names.group(1), charged.group(1)


def words(texts):
    """Hexadecimal words as a list of the rules."""
    return "".join(f"0x{text} ∷ " for text in texts) + "[]"


def numbers(texts):
    return "".join(f"{text} ∷ " for text in texts) + "[]"


# The calls that take a number and a sheet, by their names in the rules. The protocol puts the number first, the rules last.
ON_A_SHEET = {"stepper": "stepper_limit", "curves": "curves_at", "round": "first_round", "opening": "opening"}
ANSWERED_IN_WORDS = ("round", "opening", "fees")


def call(line):
    name, *parts = line.split()
    if name == "check":
        return f"check ({words(parts)})"
    if name in ON_A_SHEET:
        return f"{ON_A_SHEET[name]} ({words(parts[1:])}) {parts[0]}"
    if name == "fees":
        return f"opening_fees ({words(parts[5:])}) (tariff_of {' '.join(parts[:3])}) {parts[3]} {parts[4]}"
    if name == "waiting":
        return f"waiting {parts[0]} {parts[1]} ({words(parts[2:])})"
    return " ".join([name, *parts])


def document(line, answer):
    said = answer.split(" fees")[0].split()
    if said[0] == "refused":
        return f"refuses {said[1]} {said[2]}"
    if said[0] == "accepted":
        return "gives []"
    spelled = words if line.split()[0] in ANSWERED_IN_WORDS else numbers
    return f"gives ({spelled(said)})"


def stored_rows(line, answer):
    """What is stated of a line `view`: whether the result opens, what the round gives, and where it gives numbers, all that its words say."""
    _, round_number, count, *listed = line.split()
    lists = f"({words(listed[:int(count)])}) ({words(listed[int(count):])})"
    said = answer.split()
    whole = part = f"differs {said[1]}" if said[0] == "different" else f"answers (refuses {' '.join(said[1:])})"
    if said[0].isdigit() or said[:2] == ["refused", "9"]:
        whole = "answers (gives [])"
    rows = [f"stored_case (stored_round {lists} {round_number}) ({part})"]
    if said[0].isdigit():
        orders = len(said) - 4
        place = int(round_number) * (orders + 4) + 4
        rows = [f"stored_case (stored_round {lists} {round_number}) (answers (gives ({numbers([*said[:4], place, orders])})))",
                f"round_said {lists} {round_number} ≡ record {{ situation = {said[0]}; price = {said[1]}; purchase = {said[2]}; "
                f"total = {said[3]}; fills = {numbers(said[4:])} }}"]
    return [f"stored_case (open_stored {lists}) ({whole})", *rows]


def rows_of(line, answer):
    """What is stated of a line: its answer, and where fees are given, that they are those on the words."""
    if line.startswith("view"):
        return stored_rows(line, answer)
    rows = [f"case ({call(line)}) ({document(line, answer)})"]
    if " fees" in answer:
        parts, (given, fees) = line.split()[1:], answer.split(" fees")
        rows.append(f"charge (tariff_of {' '.join(parts[:3])}) ({words(parts[5:])}) ({words(given.split())}) ({numbers(fees.split())})")
    return rows


def vectors(rows):
    """A file that states and proves some rows, each by itself."""
    lines, names, charged = imports_and_names()
    text = [
        "use mathlib.Core.List.{List, [], ◌∷◌}",
        "use mathlib.Core.Path.{◌≡◌, refl}",
        *lines,
        "use Rattle.rules.proofs.Cases.{same_numbers, same, all_same, all_same_lem, same_stored, all_stored, all_stored_lem}",
        "use Rattle.rules.specs.Cases.{Case, case, AllHold, Charge, charge, AllCharge, StoredCase, stored_case, AllOpen}",
        "use Rattle.rules.specs.Stored.{open_stored, stored_round}",
        "use Rattle.rules.specs.Calls.{check, stepper_limit, curves_at, first_round, opening, opening_fees, indicative, next, widen, waiting}",
        "use Rattle.rules.specs.Fees.{tariff_of}",
    ]
    kinds = {"case": ("Case", "AllHold", f"all_same same same_numbers {names}", "all_same_lem row{} refl"),
             "charge": ("Charge", "AllCharge", charged, "(refl, tt)"),
             "stored_case": ("StoredCase", "AllOpen", f"all_stored same_stored same same_numbers stored_by first_difference {names}", "all_stored_lem row{} refl")}
    for number, row in enumerate(rows):
        if row.startswith("round_said"):
            text += ["", f"pub agree{number} : {row}", "unfolding round_said heading_from heading_of listed", f"agree{number} = refl"]
            continue
        kind, statement, unfolded, proof = kinds[row.split()[0]]
        text += [
            "",
            f"abbrev pub row{number} : List {kind}",
            f"row{number} = {row} ∷ []",
            "",
            f"pub agree{number} : {statement} row{number}",
            f"unfolding {unfolded}",
            f"agree{number} = {proof.format(number)}",
        ]
    return "\n".join(text) + "\n"


def scratch_crate(folder, rows):
    """The rules, and a crate beside them that holds the rows."""
    shutil.copytree(os.path.join(PROJECT, "crates", "rules"), os.path.join(folder, "crates", "rules"),
                    ignore=shutil.ignore_patterns("must-fail", "out"))
    crate = os.path.join(folder, "crates", "vectors")
    with open(os.path.join(PROJECT, "crates.txt")) as file:
        rules = next(line for line in file if line.startswith("rules:"))
    files = {os.path.join(folder, "crates.txt"): rules + "vectors: rules\n",
             os.path.join(crate, "src", "lib.rt"): "// Nothing runs here: the proofs hold the answers against the rules.\n",
             os.path.join(crate, "specs", "Lib.antt"): "-- nothing\n"}
    chunks = [rows[at:at + CALLS_A_FILE] for at in range(0, len(rows), CALLS_A_FILE)]
    for number, chunk in enumerate(chunks):
        files[os.path.join(crate, "proofs", f"Vectors{number}.antt")] = vectors(chunk)
    files[os.path.join(crate, "proofs", "Lib.antt")] = "".join(f"pub mod Vectors{n}\n" for n in range(len(chunks)))
    for path, text in files.items():
        os.makedirs(os.path.dirname(path), exist_ok=True)
        with open(path, "w") as file:
            file.write(text)


def coverage(lines, answers):
    """What the sheets and their openings had, counted."""
    seen = Counter()
    for line, answer in zip(lines, answers):
        seen[f"calls: {line.split()[0]}"] += 1
        if answer.startswith("refused"):
            seen[f"calls refused with {answer.split()[1]:>2}"] += 1
        elif line.startswith("opening"):
            seen.update(orders_of([int(word, 16) for word in line.split()[2:]]))
            seen.update(rounds_of([int(word, 16) for word in answer.split()]))
        elif line.startswith("view"):
            seen["stored results that differ" if answer.startswith("different") else "rounds read of a stored result"] += 1
        elif line.startswith("fees"):
            fees = [int(fee) for fee in answer.split(" fees")[1].split()]
            seen[f"openings with fees in which {'an order pays' if any(fees) else 'nobody pays'}"] += 1
        elif line.startswith("widen"):
            lower, upper, side = map(int, line.split()[1:])
            seen[f"widenings of a bound {'below 10' if (upper, lower)[side] < 10 else 'of 10 and more'}"] += 1
        elif line.startswith("waiting"):
            phase, _, _, *band, due = answer.split()
            if any(int(before) < 10 and before != after for before, after in zip(line.split()[1:], band)):
                seen["waiting lists that widen a bound below 10"] += 1
            seen.update([f"waiting lists to a phase {'that is on' if phase == '1' else 'that is over, or to none'}",
                         f"waiting lists with {min(int(due), 2)}{' and more' * (int(due) > 1)} openings due"])
    return seen


def orders_of(sheet):
    """Of the sheet of an opening: what its orders have, and whether it has a step word, which one word more tells."""
    stepped = len(sheet) % 3 == 0
    orders = [sheet[at] for at in range(5 + stepped, len(sheet), 3)]
    limits = [order & 0xFFFFFF for order in orders]
    lower, upper = sheet[0] & 0xFFFFFFF, sheet[1] & 0xFFFFFFF
    kinds = Counter((order >> 28, order >> 24 & 15) for order in orders)
    has = {
        "with all-or-none orders": any(kind[1] == 1 for kind in kinds),
        "with Steppers": any(kind[1] == 2 for kind in kinds),
        "with a step word": stepped,
        "with Steppers and a step word of more than 1": stepped and sheet[5] > 1 and any(kind[1] == 2 for kind in kinds),
        "with Steppers on both sides": (6, 2) in kinds and (7, 2) in kinds,
        "with several Steppers on a side": kinds[6, 2] > 1 or kinds[7, 2] > 1,
        "with orders without limit": 0 in limits,
        "with equal limits on a side": len({(o >> 28, o & 0xFFFFFF) for o in orders}) < len(orders),
        "with limits outside the band": any(limit and not lower <= limit <= upper for limit in limits),
        "with a bound or limit at an end of the grid": lower == 1 or upper == 1000000 or 1 in limits or 1000000 in limits,
    }
    return [f"openings {what}" for what, so in has.items() if so]


def rounds_of(result):
    """Of the result of an opening: its ending, its number of rounds and their situations."""
    rounds = result[-1] & 0xFFFF
    said = [f"openings ending {result[-1] >> 16 & 15}", f"openings of {min(rounds, 4)}{'+' * (rounds > 3)} rounds"]
    return said + [f"rounds of situation {word & 15}" for word in result if word >> 28 == 10]


def random_lines(count, seed):
    """Whole openings of small sheets, a third as many first rounds of others, at times in a space one word short, as many openings
    with fees of others again, by random tariffs and at times in a list one place short, and as many of each other call on a sheet,
    of the band's calls together, of the waiting clock and of stored results."""
    some = max(int(count) // 3, 1)
    lines = reference("sheets", "small", count, seed)
    for number, line in enumerate(reference("sheets", "small", str(some), seed + "1")):
        _, _, *sheet = line.split()
        short = number % 8 == 0
        lines.append(" ".join(["round", str(4 + (len(sheet) - 5) // 3 - short), *sheet]))
    tariffs = [line.split()[1:4] for line in reference("sheets", "fees", str(some), seed)]
    for number, (line, tariff) in enumerate(zip(reference("sheets", "small", str(some), seed + "2"), tariffs)):
        _, space, *sheet = line.split()
        orders = (len(sheet) - 5) // 3
        short = number % 8 == 0 and orders > 0
        lines.append(" ".join(["fees", *tariff, space, str(orders - short), *sheet]))
    for kind in ("check", "stepper", "curves", "band", "waiting"):
        made = reference("sheets", kind, str(8 * some), seed)
        lines += [line for line in made if len(line.split()) <= MOST_WORDS + 2][:some]
    return lines + [line for line in reference("sheets", "view", str(24 * some), seed) if is_small_view(line)][:some]


def is_small_view(line):
    """Whether a line `view` can be read, and the checker can compute what it asks: few words, and few pieces on the sheet."""
    _, _, count, *listed = line.split()
    pieces = sum(int(word, 16) & 0xFFFFFFF for word in listed[:int(count)] if int(word, 16) >> 28 == 8)
    return int(count) <= min(MOST_WORDS, len(listed)) and len(listed) <= MOST_STORED and pieces <= MOST_PIECES


def main():
    count, seed = (sys.argv[1:] + ["300", "1"][len(sys.argv) - 1:])[:2]
    subprocess.run(["cargo", "build", "--release", "--quiet"], cwd=os.path.join(PROJECT, "reference"), check=True)
    lines = random_lines(count, seed)
    answers = reference("calls", text="\n".join(lines) + "\n")
    assert len(lines) == len(answers)
    with tempfile.TemporaryDirectory() as folder:
        scratch_crate(folder, [row for line, answer in zip(lines, answers) for row in rows_of(line, answer)])
        checked = subprocess.run(["rt", "check"], cwd=os.path.join(folder, "crates", "vectors"), capture_output=True, text=True)
        said = checked.stdout + checked.stderr
    for what, number in sorted(coverage(lines, answers).items()):
        print(f"{number:6} {what}")
    if checked.returncode:
        sys.exit("DIFFERENCE, or the checker gave up:\n" + "\n".join(
            line for line in said.splitlines() if "error" in line)[:4000])
    print(f"{len(lines)} calls, {count} of them openings: no difference")


if __name__ == "__main__":
    main()

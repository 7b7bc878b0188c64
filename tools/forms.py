#!/usr/bin/env python3
"""Lists the places in src/ that have an older form, point by point, as docs/DESIGN-PASS.md counts them.

    tools/forms.py [FOLDER] [--places]

FOLDER is a checkout (this one, if none is named). With --places each place is printed, else the counts alone. It goes by text: a place that stays
as it is has its reason beside it, a line of comment that begins 'Stays:', and is counted as kept.
"""
import re
import sys
from pathlib import Path

FORMS = {
    "1a own enums of the shape of Option or Result, by the variant that says so": [r"^\s*(Nothing|Clear|Refused|Accepted\(|Whole \{)"],
    "1b numbers for refusals": [
        r"\bnumber: u8\b",
        r"\bfn (number\((self|checked)|chip_number|board_number|end_number)",
        r"\breturn [0-9]+;",
        r"\brefused\([0-9]\)",
        r"^\s*number: [0-9],\n\s*(ticks|end):",
        r"\bnumber [!=]= 0\b",
    ],
    "1c numbers for kinds, codes for what is to be done": [r"\bkind: u8\b", r"\bsweep: u8\b"],
    "1d a flag or a mark with a value beside": [r"^\s*pub (latched: bool|latch: \[u16; 32\]|high: u8),"],
    "2 twins": [
        r"\bfn (one_less|size_of|busy_until|free_after|zero|one|two|three|size_at|room_at|over_wires|by_reading|data_of|asked_of)\b",
        r"\bfn refused\b",
    ],
    "3 loops that count by hand": [r"^\s*(while|loop)\b"],
    "4a predicates by a match over every variant": None,
    "4b conversions by hand": [r"\bfn (byte\(self\) -> u8|from_byte|outcome\b|end_number|number\(self)", r"256 \* \(?high|[%/] 256\) as u8,? *\)?;"],
    "4c output written piece by piece": [r"\b(io::)?(write_all|print_decimal|print_hex)\("],
    "4d structs copied field by field, two fields or more": [r"^\s*(\w+): (self\.)?\1,\n\s*(\w+): (self\.)?\3,"],
    "5 parameters that travel together, and facts repeated in clauses": [r"\[Seat; 8\], n: usize", r"requires .*\b(n|self\.count) ≤ 8\b"],
    "6 buffers with a length beside": [
        r"\b(bytes|results): &\[u8\], n: usize",
        r"\[Seat; 8\], n: usize|\bpub seats: \[Seat; 8\]",
        r"io::large_buffer\(\)",
        r"\b(rec|out): &(mut )?\[u8\]",
    ],
    "7 switches on which step to run": [r"\bdeed: Deed\b", r"\bsweep == [0-9]"],
    "8 proofs that walk the code by hand": None,
}


def predicates(lines):
    """The lines where a function begins whose match says true or false in two arms or more."""
    begun, arms = None, 0
    for at, line in enumerate(lines + ["fn"]):
        if re.search(r"\bfn\b", line):
            if arms > 1:
                yield begun
            begun, arms = at, 0
        elif re.search(r"=> (true|false),", line):
            arms += 1


def places(top):
    found = {form: [] for form in FORMS}
    for path in sorted(top.glob("crates/*/src/**/*.rt")):
        lines = path.read_text().split("\n")
        for form, patterns in FORMS.items():
            hand = set(predicates(lines)) if form.startswith("4a") else set()
            for at, line in enumerate(lines):
                here, after = [text.split("//")[0].rstrip() for text in (lines + [""])[at : at + 2]]
                code = here + "\n" + after
                if at in hand or any(here and (match := re.search(p, code)) and match.start() < len(here) for p in patterns or []):
                    above = []
                    back = at - 1
                    while back >= 0 and (lines[back].strip().startswith("//") or lines[back].strip().startswith("#[")):
                        above.append(lines[back])
                        back -= 1
                    kept = any("Stays:" in x for x in above + [line])
                    found[form].append((path.relative_to(top), at + 1, line.strip(), kept))
    for path in sorted(top.glob("crates/*/proofs/**/Proof.antt")):
        found["8 proofs that walk the code by hand"].append((path.relative_to(top), 1, "", False))
    return found


def main():
    arguments = [a for a in sys.argv[1:] if a != "--places"]
    top = Path(arguments[0]) if arguments else Path(__file__).resolve().parent.parent
    for form, rows in places(top).items():
        kept = sum(1 for row in rows if row[3])
        print(f"{form}: {len(rows)}" + (f", of which {kept} stay with a reason" if kept else ""))
        if "--places" in sys.argv:
            for path, at, line, stays in rows:
                print(f"    {path}:{at}: {line}" + (" (stays)" if stays else ""))


main()

#!/usr/bin/env python3
"""usage: edges.py EDGES PROGRAM [ARGUMENT ...]

Runs the program on every script of an edges file, and fails where an answer
is not the one written there. The file says how it is to be read.
"""

import re
import subprocess
import sys


def bytes_of(text):
    """The bytes of a script line, with its line feed unless it ends in \\end."""
    body, mark, _ = text.partition("\\end")
    body = re.sub(r"\\x([0-9a-f]{2})", lambda found: chr(int(found.group(1), 16)), body)
    return body.encode("latin-1") + (b"" if mark else b"\n")


def scripts(path):
    """Name, input and expected answers of each script."""
    found = []
    with open(path, encoding="ascii") as file:
        for line in file.read().splitlines():
            if line.startswith("== "):
                found.append((line[3:], b"", b""))
            elif found and " -> " in line and not line.startswith("#"):
                name, data, answers = found[-1]
                left, right = line.split(" -> ")
                left = "" if left == "\\empty" else left
                found[-1] = name, data + bytes_of(left), answers + right.encode() + b"\n"
    return found


def main():
    if len(sys.argv) < 3:
        sys.exit(__doc__)
    wrong = 0
    cases = scripts(sys.argv[1])
    for name, data, expected in cases:
        ran = subprocess.run(sys.argv[2:], input=data, capture_output=True)
        if ran.returncode != 0 or ran.stdout != expected:
            wrong += 1
            print(f"differs: {name} (status {ran.returncode})")
            pairs = zip(expected.splitlines() + [b"nothing"], ran.stdout.splitlines() + [b"nothing"])
            for number, (want, got) in enumerate(pairs, 1):
                if want != got:
                    print(f"  answer {number}: {got!r}, not {want!r}")
                    break
    print(f"{len(cases)} scripts, {len(cases) - wrong} as expected")
    sys.exit(wrong > 0)


if __name__ == "__main__":
    main()

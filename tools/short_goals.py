"""The filter behind tools/dev: see there."""
import os
import re
import sys

VERBOSE = bool(os.environ.get("V"))
CUT = int(os.environ.get("CUT", "1500"))


def short(line):
    line = re.sub(r"(?<![/\w.])(?:Rattle|Prim|native|mathlib|lib|mir|borrow|denote)\.(?:[\w+-]+\.)*(?=[^\s.()/])", "", line)
    return re.sub(r"(?:\.before){2,}(?![\w-])", lambda m: ".b%d" % m.group(0).count(".before"), line)


def offered(lines, i):
    """The file that a `help: write` at line i offers, and the line after it."""
    body, j = [], i + 1
    while j < len(lines) and (lines[j].startswith("    ") or not lines[j].strip()):
        body.append(lines[j][4:])
        j += 1
    return body, j


def main():
    lines = sys.stdin.read().split("\n")
    proved, note, i = [], False, 0
    while i < len(lines):
        line = lines[i]
        help_ = re.match(r"help: write (\S+) with these lines", line)
        if help_:
            path = help_.group(1)
            body, i = offered(lines, i)
            if not os.path.exists(path):
                os.makedirs(os.path.dirname(path), exist_ok=True)
                with open(path, "w") as f:
                    f.write("\n".join(body).rstrip() + "\n")
                print("wrote", path, "holes:", sum(b.count("= ?") for b in body))
            continue
        if line.startswith(("note: what antt said", "note: antt's advice")):
            note = True
        elif not line.startswith("  "):
            note = False
        i += 1
        if note and not VERBOSE:
            continue
        if re.match(r"\s+\(computed from:", line):
            depth = line.count("(") - line.count(")")
            while depth > 0 and i < len(lines):
                depth += lines[i].count("(") - lines[i].count(")")
                i += 1
            continue
        if line.startswith(("logic /", "library ", "statements ", "axioms ", "crate ", "checked ", "rt: ")) or "is not admitted: has-holes" in line:
            continue
        done = re.match(r"(?:fn|struct|enum|trait|impl) \S+?::(\S+): (proved|no holes)$", line)
        if done:
            proved.append(done.group(1))
        else:
            print(short(line)[:CUT])
    if proved:
        print("ok:", " ".join(proved))


main()

#!/usr/bin/env python3
"""short_proof.py FILE MODULE RULESET: fills the Answers.antt that `rt check --start F --allow-holes` writes: each goal that is left open is answered
by `search (rules, RULESET)`, with the rules of MODULE. Invariants and measures stay holes, to be filled by hand."""
import re
import sys

path, module, ruleset = sys.argv[1:4]
text = open(path).read()
use = "use %s.{%s}\n" % (module, ruleset)
filled = re.sub(r"^(\S+ c(?: \S+)*) = \?$", r"\1 = search (rules, %s)" % ruleset, text, flags=re.M)
if filled != text and use not in filled:
    filled = use + filled
open(path, "w").write(filled)

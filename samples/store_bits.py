"""store_bits.py: what samples/bits.txt stores of each line of samples/normal.txt, its input: `-` for a text that is
refused; else its requirements, and its truths, by Python's own `and` and `or`, over sixteen answers at most: in
answer `k` requirement `i` is met where bit `i % 4` of `k` is set."""

import re
import sys

WORD = re.compile(r"[^\s()]+(?: WITH [^\s()]+)?")


def stored(line):
    if not line.startswith("accepted\t"):
        return "-"
    text = line.split("\t")[1]
    requirements = [word for word in WORD.findall(text) if word not in ("AND", "OR")]
    number = iter(range(len(requirements)))
    rule = WORD.sub(lambda m: m[0].lower() if m[0] in ("AND", "OR") else f"met[{next(number)}]", text)
    truths = ""
    for k in range(min(16, 1 << len(requirements))):
        truths += "01"[eval(rule, {"met": [bool(k >> i % 4 & 1) for i in range(len(requirements))]})]
    return ", ".join(requirements) + "\t" + truths


for line in sys.stdin:
    print(stored(line.rstrip("\n")))

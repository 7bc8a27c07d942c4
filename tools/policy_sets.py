"""What a policy says of an expression, by sets of licences: the definition of docs/POLICY.md, computed another way than the
program does. A name stands for a set of licences, each with its addition, and an entry of a policy for such a set too; free
is what some entry allows and none denies. Expressions are trees, so nothing is parsed here."""

import json
import re
from functools import lru_cache
from pathlib import Path

DATA = Path(__file__).resolve().parent.parent / "data"
LIST = json.loads(next(DATA.glob("spdx-*.json")).read_text())
FLAGS = {row["name"]: row["flags"] for row in LIST["licenses"]}
EXCEPTIONS = {row["name"]: row["flags"] for row in LIST["exceptions"]}
INSTEAD = {row["name"]: row["write"] for row in json.loads((DATA / "extras.json").read_text())["instead"]}
BITS = {"fsf-libre": 1, "osi-approved": 2, "deprecated": 4, "copyleft": 8}
DEPRECATED, GNU = 4, 16

# ---- the list by sets


def ending(name):
    return next((e for e in ("-only", "-or-later") if FLAGS[name] & GNU and name.endswith(e)), "")


def family(name):
    """The name without its version, and the version."""
    parts = name[: len(name) - len(ending(name))].split("-")
    at = next((i for i, part in enumerate(parts) if re.fullmatch(r"[0-9.]*", part)), None)
    if at is None:
        return None, None
    numbers = [int(n or 0) for n in parts[at].split(".")]
    while numbers and numbers[-1] == 0:
        numbers.pop()
    return (*parts[:at], "", *parts[at + 1 :]), numbers


FAMILIES = {}
for row in FLAGS:
    if not FLAGS[row] & DEPRECATED and ending(row) != "-or-later":
        FAMILIES.setdefault(family(row)[0], []).append(row)


@lru_cache(None)
def versions(name):
    """The licence and the later ones of its family, in the order of the list."""
    key, version = family(name)
    later = {n for n in FAMILIES.get(key, []) if family(n)[1] >= version} if key else set()
    return tuple(n for n in FLAGS if n == name or n in later)


def listed(text):
    """What a text of the list names: a licence and perhaps an exception."""
    name, _, addition = text.partition(" WITH ")
    return name, addition or None


@lru_cache(None)
def licences(name, later, addition):
    """The licences that a requirement stands for, in the order of the list, each with its addition."""
    if addition in EXCEPTIONS and EXCEPTIONS[addition] & DEPRECATED:
        addition = INSTEAD.get(addition, addition)
    if name not in FLAGS:
        return ((name, addition),)
    if FLAGS[name] & GNU and not ending(name) and f"{name}-only" in FLAGS:
        name += "-only"
    if FLAGS[name] & DEPRECATED and name in INSTEAD:
        replacement, added = listed(INSTEAD[name])
        return licences(replacement, later, addition or added)
    if ending(name) == "-or-later":
        name, later = name.removesuffix("-or-later") + "-only", True
    return tuple((n, addition) for n in (versions(name) if later else (name,)))


def stands_for(entry):
    name, addition = listed(entry)
    return licences(name, False, addition)


# ---- expressions: a leaf is a name, a mark and an addition, else an operator and two sides


def is_leaf(node):
    return node[0] not in ("AND", "OR")


def leaves(node):
    return [node] if is_leaf(node) else leaves(node[1]) + leaves(node[2])


def text(node, spell):
    if is_leaf(node):
        return spell(*node)
    return f"({text(node[1], spell)}) {node[0]} ({text(node[2], spell)})"


def with_addition(name, addition):
    return f"{name} WITH {addition}" if addition else name


def plain(name, mark, addition):
    return with_addition(name + "+" * mark, addition)


def current(node):
    """The same under current names, where the list has them."""
    if not is_leaf(node):
        return node[0], current(node[1]), current(node[2])
    name, mark, addition = node
    if name in FLAGS and FLAGS[name] & GNU and not ending(name) and f"{name}-only" in FLAGS:
        name += "-only"
    if name in INSTEAD:
        name, added = listed(INSTEAD[name])
        addition = addition or added
    if mark and ending(name):
        name, mark = name.removesuffix(ending(name)) + "-or-later", False
    return name, mark, INSTEAD.get(addition, addition)


def shown(name, mark, addition):
    """The requirement that is read: of a GNU name with a mark the one with `-or-later`."""
    if mark and FLAGS[name] & GNU:
        name, mark = name.removesuffix("-only") + "-or-later", False
    return plain(name, mark, addition)


def exchanged(node):
    return node if is_leaf(node) else (node[0], exchanged(node[2]), exchanged(node[1]))


def truth(node, accepted):
    if is_leaf(node):
        return node in accepted
    sides = (truth(node[1], accepted), truth(node[2], accepted))
    return all(sides) if node[0] == "AND" else any(sides)


def missing(node, accepted):
    if truth(node, accepted):
        return []
    return [shown(*node)] if is_leaf(node) else missing(node[1], accepted) + missing(node[2], accepted)


# ---- a policy, under the exceptions that hold


class Law:
    def __init__(self, policy, held):
        self.policy, self.held = policy, held
        self.rules = [(f'exception for {policy["exceptions"][t][0]} "{e}"', stands_for(e), (t, i)) for t in held for i, e in enumerate(policy["exceptions"][t][2])]
        self.rules += [(f'allow "{e}"', stands_for(e), ("allow", i)) for i, e in enumerate(policy["allow"])]
        self.named = {w for _, ways, _ in self.rules for w in ways}
        self.barred = [(f'deny "{e}"', set(stands_for(e)), ("deny", i)) for i, e in enumerate(policy["deny"])]

    def deniers(self, way):
        """The entries that deny a licence with its addition, in their order."""
        name, addition = way
        alone = {way} if addition and way in self.named else {way, (name, None)}
        told = [rule for rule in self.barred if alone & rule[1]]
        bits = EXCEPTIONS.get(addition, 0) & DEPRECATED | (FLAGS.get(name, 0) if (name, None) in alone else 0)
        return told + [(f'deny-if "{f}"', None, ("deny-if", i)) for i, f in enumerate(self.policy["deny-if"]) if bits & BITS[f]]

    def free(self, ways):
        return {w for w in ways if not self.deniers(w)}

    def allowers(self, ways):
        """The entries that allow one of these licences that nothing denies, in their order."""
        free = self.free(ways)
        told = [rule for rule in self.rules if free & set(rule[1])]
        bits = [FLAGS[n] | EXCEPTIONS.get(a, 0) & DEPRECATED for n, a in free if n in FLAGS and (a is None or a in EXCEPTIONS)]
        return told + [(f'allow-if "{f}"', None, ("allow-if", i)) for i, f in enumerate(self.policy["allow-if"]) if any(b & BITS[f] for b in bits)]

    def decision(self, leaf):
        """What is said of a requirement, and the entry that says it."""
        ways = licences(*leaf)
        allowing = self.allowers(ways)
        if allowing:
            return "allowed", allowing[0]
        return ("open", None) if self.free(ways) else ("denied", self.deniers(ways[0])[0])

    def accepted(self, node):
        return {leaf for leaf in leaves(node) if self.decision(leaf)[0] == "allowed"}

    def passes(self, node):
        return truth(node, self.accepted(node))

    def advice(self, node):
        """The sufficient choice of entries that, against each other one, leaves out the last on which they differ."""
        accepted = self.accepted(node)
        free = {leaf: [with_addition(*w) for w in licences(*leaf) if w in self.free(licences(*leaf))] for leaf in leaves(node)}
        offers = list(dict.fromkeys(e for leaf in leaves(node) if leaf not in accepted for e in free[leaf]))

        def choices(node):
            if is_leaf(node):
                ways = set(licences(*node)) & self.free(licences(*node))
                return {0} if node in accepted else {1 << i for i, e in enumerate(offers) if ways & set(stands_for(e))}
            left, right = choices(node[1]), choices(node[2])
            return left | right if node[0] == "OR" else {a | b for a in left for b in right}

        found = choices(node)
        return [e for i, e in enumerate(offers) if min(found) >> i & 1] if found else None

    def with_advice(self, entries):
        return Law({**self.policy, "allow": self.policy["allow"] + entries}, self.held)

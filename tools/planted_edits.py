"""Edits of planted/: what each changes, and by which name the prover takes the function in whose body that is."""

import os
import re

from prover import PARTS, TOP

# the name of a function that is called by its own name alone, and words that may stand before a parenthesis too
CALL = re.compile(r"(?<![\w.:!])([a-z_]\w*)\(")
PLAIN = {"if", "match", "while", "for", "fn", "return", "let", "in", "pub", "drop"}
ITEM = re.compile(r"^( *)(?:pub(?:\([a-z ]+\))? )?(?:const |unsafe |extern \"C\" )*(mod|trait|impl|fn)\b(.*)$", re.M)


class Edit:
    """A wrong body that applies: the spans of the crate's files that it changes, and by which name the prover takes what it changes."""

    def __init__(self, path, texts):
        self.crate, self.path = path.parent.name, path.relative_to(TOP)
        self.spans = [(file, *span(was, now)) for file, (was, now) in texts.items() if was != now]
        sources = [it for it in self.spans if it[0].startswith("src/")]
        found = {function_at(texts[file][0], file, start, end) for file, start, end, _ in sources}
        self.function, self.group = found.pop() if len(found) == 1 else (None, None)
        # what changes other files too, or no one body, is tried by itself
        self.is_alone = self.function is None or len(sources) != len(self.spans)
        self.modules = [module_of(file) for file, *_ in sources]
        self.only = [self.function] if self.function else [it for it in self.modules if it]
        self.is_ending = self.function is not None and not self.function.startswith(self.modules[0])

    def widen(self):
        """Takes the modules for the function, which the prover doesn't know by that name, and all of the crate where they are none."""
        self.only = [it for it in self.modules if it] if self.only == [self.function] else []
        self.function, self.is_alone = None, True


def applied(edit):
    """The texts that the edit changes, each as it was and as it becomes, by its path; and why it cannot be applied, or None."""
    crate = TOP / "crates" / edit.parent.name
    if (crate / "must-fail" / edit.name).exists():
        return {}, "must-fail/ has an edit of that name"
    path, old, was, now = None, None, {}, {}
    for line in edit.read_text(encoding="utf-8").split("\n"):
        if line.startswith("file: "):
            path = line[len("file: "):].strip()
            if path.split("/")[0] not in PARTS or ".." in path or not (crate / path).is_file():
                return {}, f"the crate has no file {path}"
            now.setdefault(path, was.setdefault(path, (crate / path).read_text(encoding="utf-8")))
        elif line.startswith("old: "):
            old = line[len("old: "):]
        elif line.startswith("new:"):
            if path is None or old is None:
                return {}, "a line 'new:' stands before its 'file:' or 'old:'"
            if now[path].count(old) != 1:
                return {}, f"an old text stands {now[path].count(old)} times in {path}, and not once: {old.strip()[:60]}"
            now[path], old = now[path].replace(old, line[len("new:"):].removeprefix(" ")), None
        elif line.strip():
            return {}, f"a line begins with none of 'file: ', 'old: ', 'new:': {line[:60]}"
    lost = [f"it calls {name}, which {it} neither declares nor brings in" for it in was for name in unknown_calls(was[it], now[it])]
    return {it: (was[it], now[it]) for it in was}, lost[0] if lost else None if now != was else "it changes nothing"


def unknown_calls(was, now):
    """The functions that the edited text calls, the text as it was doesn't, and nothing in it declares or brings in: such an edit
    would not compile. This is cheap, and doesn't find all that would not."""
    calls = sorted({*CALL.findall(now)} - {*CALL.findall(was)} - PLAIN)
    return [it for it in calls if not re.search(rf"\bfn {it}\b|\buse [^;]*\b{it}\b|\blet (?:mut )?{it}\b|\b{it}: ", now)]


def span(was, now):
    """What of the text is changed: from where and up to where, and what then stands there."""
    start = len(os.path.commonprefix([was, now]))
    behind = len(os.path.commonprefix([was[start:][::-1], now[start:][::-1]]))
    return start, len(was) - behind, now[start:len(now) - behind]


def module_of(file):
    """The module whose text a file of src/ is, by its path below the crate, which is empty for the root."""
    return "::".join(it for it in file[len("src/"):-len(".rt")].split("/") if it not in ("lib", "main", "mod"))


def owner_of(header):
    """What the prover calls an impl, which is its type and behind it the words of its trait, as ErrorFromFailureReadFault; and its type."""
    depth = ends = 0
    for at, letter in enumerate(header if header.startswith("<") else ""):
        depth += (letter == "<") - (letter == ">")
        if depth == 0:
            ends = at + 1
            break
    own = set(re.findall(r"[<,] *(?:const )?(\w+)", header[:ends]))
    trait, is_of, kind = header[ends:].partition(" for ")
    words = [re.findall(r"(?:\w+::)*(\w+)", re.sub(r"'\w+", "", it)) or ["_"] for it in (trait, kind if is_of else trait)]
    return words[1][0] + "".join(it for it in words[0] if is_of and it not in own), words[1][0]


def function_at(text, file, start, end):
    """The function in whose body the place is, as the prover names it below the crate, and its cycle of calls, or else itself; or None twice.

    The files are in rt fmt's layout, where what closes an item stands as far in as what opens it."""
    round_it = []
    for item in ITEM.finditer(text):
        if item.start() > start:
            break
        indent, word, rest = item.groups()
        closes = re.compile(rf"^{indent}\}}$", re.M).search(text, item.end())
        round_it = [it for it in round_it if len(it[0]) < len(indent)]
        if closes and closes.start() >= end and not rest.endswith((";", "}")):
            round_it.append((indent, word, rest, item.start()))
    path = [module_of(file)] if module_of(file) else []
    for indent, word, rest, at in round_it:
        path.append(owner_of(rest)[0] if word == "impl" else re.match(r"\s*(\w*)", rest)[1])
        if word == "impl" and not re.search(rf"\b(struct|enum) {owner_of(rest)[1]}\b", text):
            # its methods may stand in the type's module; the prover takes the end of a name too, where that is one function's alone
            path = path[-1:]
        opens = re.compile(rf"^{indent}(?! )(?:.* )?\{{$", re.M).search(text, at)
        if word == "fn" and opens and opens.end() <= start:
            cycle = re.search(r"#\[cycle\((\w+)\)\]\n(?: *(?:#\[|//).*\n)*\Z", text[:at])
            return "::".join(path), f"cycle {file} {cycle[1]}" if cycle else "::".join(path)
        if word == "fn":
            break
    return None, None

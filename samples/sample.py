"""sample.py LIST CORPUS STRICT LAX NORMAL BITS EACH: the verdicts of the corpus's lines against stored ones, in one
call by mode; of the first EACH lines each by calls of its own, and their truths by bits. Prints what differs, and 'N
passed, M failed'."""

import sys
from concurrent.futures import ThreadPoolExecutor

import spdx

HELD = ["MIT", "Apache-2.0", "BSD-3-Clause"]


def verdict(licences, text, mode):
    """The line of spdx_lines, put together of calls of its own; of a refused text up to its fault."""
    try:
        licences.check(text, mode)
    except spdx.Refused as refused:
        said = f"refused {refused.start}..{refused.end} "
        return said if refused.reason == 7 else said + refused.message
    canonical = licences.canonical(text, mode)
    try:
        choice = ", ".join(licences.choose(text, HELD, mode))
    except spdx.Unmet:
        choice = "unmet"
    return f"accepted\t{canonical}\t{choice}"


def truths(licences, text):
    """The line of samples/bits.txt."""
    try:
        requirements = licences.requirements(text)
    except spdx.Refused:
        return "-"
    answers = [[bool(k >> i % 4 & 1) for i in range(len(requirements))] for k in range(min(16, 1 << len(requirements)))]
    return ", ".join(requirements) + "\t" + "".join("01"[licences.evaluate_bits(text, met)] for met in answers)


def refused_by(call, *given):
    try:
        call(*given)
    except spdx.Refused as refused:
        return refused.start, refused.end, refused.reason, refused.licensee
    return None


def raises(error, call, *given):
    """Whether the call raises this error, and no other."""
    try:
        call(*given)
    except error:
        return True
    return False


def main(list_path, corpus_path, *wanted_paths):
    *wanted_paths, bits_path, each = wanted_paths
    licences = spdx.Licences.read(list_path)
    with open(corpus_path, encoding="utf-8", newline="\n") as file:
        corpus = file.read().split("\n")[:-1]
    results = []

    def expect(holds, what):
        results.append(bool(holds))
        if not holds:
            print("differs:", what)

    for mode, path in enumerate(wanted_paths):
        with open(path, encoding="utf-8", newline="\n") as file:
            wanted = file.read().split("\n")[:-1]
        answer = licences.lines(corpus, HELD, mode)
        expect(answer.verdicts == wanted, path)
        expect(answer.lines == len(corpus), "the count of lines")
        expect(answer.refused == sum(line.startswith("refused") for line in wanted), "the refused lines")
        if mode == spdx.NORMAL:
            continue
        for text, line in zip(corpus[: int(each)], wanted):
            said = verdict(licences, text, mode)
            expect(line.startswith(said) if said.endswith(" ") else line == said, said)
    with open(bits_path, encoding="utf-8", newline="\n") as file:
        for text, line in zip(corpus[: int(each)], file.read().split("\n")):
            expect(truths(licences, text) == line, f"{text} by bits")
    try:
        licences.evaluate_bits("MIT OR Zlib", [True])
        expect(False, "an answer too few")
    except ValueError:
        expect(True, "an answer too few")
    expect(licences.fix("mit/apache-2.0") == "MIT OR Apache-2.0", "a fix")
    expect(licences.fix("MIT") is None, "no fix")
    expect(licences.normal("((MIT) AND (Zlib))") == "MIT AND Zlib", "a normal text")
    expect(licences.simplify("(MIT OR Apache-2.0) AND MIT") == "MIT", "what it means")
    expect(licences.compare("MIT OR (MIT AND Zlib)", "MIT") is spdx.Relation.SAME, "the same")
    expect(licences.compare("MIT AND Zlib", "MIT") is spdx.Relation.MORE, "more")
    expect(licences.compare("MIT", "MIT AND Zlib") is spdx.Relation.LESS, "less")
    expect(licences.compare("MIT", "zlib", spdx.LAX) is spdx.Relation.NEITHER, "neither")
    expect(refused_by(licences.compare, "MIT", "Nope") == (0, 4, 9, None), "the second of two")
    many = " AND ".join("(" + " OR ".join(f"LicenseRef-{i}" for i in side) + ")" for side in (range(64), range(64, 129)))
    for call, *given in ((licences.simplify, many), (licences.compare, "MIT", many)):
        try:
            call(*given)
            expect(False, "too many sets")
        except spdx.SpdxError as error:
            expect("4160 sets" in str(error), "too many sets")
    for name, said in (("mit", "CURRENT"), ("GPL-2.0", "DEPRECATED"), ("Nokia-Qt-exception-1.1", "DEPRECATED"), ("Nope", "UNLISTED")):
        expect(licences.listed(name) is spdx.Listing[said], f"what is said of {name}")
    expect(raises(spdx.SpdxError, licences.listed, b"\xff"), "a name that is no text")
    expect(licences.evaluate("MIT OR Zlib", ["0BSD", "Zlib"]), "met")
    expect(not licences.evaluate("MIT AND Zlib", ["Zlib"]), "unmet")
    expect(refused_by(licences.evaluate, "MIT", ["MIT", "Nope"]) == (0, 4, 9, 1), "a licensee")
    expect(refused_by(licences.check, "") == (0, 0, 6, None), "an empty text")
    expect(refused_by(licences.check, "MIT\0") is not None, "a zero byte")
    with spdx.Licences.read(list_path) as closed:
        expect(closed.evaluate("MIT", ["MIT"]), "a list of its own")
    closed.close()
    for wrong in ((licences, b"\xff", 0), (licences, "MIT", 7), (closed, "MIT", 0)):
        try:
            wrong[0].check(wrong[1], wrong[2])
            expect(False, "a wrong argument")
        except spdx.SpdxError as error:
            expect(not isinstance(error, spdx.Refused), "a wrong argument")
    for wrong in (5, None, ["MIT"]):
        expect(raises(TypeError, licences.check, wrong), "no text")
    for one in ("MIT", b"MIT"):
        expect(raises(TypeError, licences.evaluate, "MIT", one), "one text for several")
    for number in (-1, 2**32, 2**64):
        expect(raises(ValueError, licences.check, "MIT", number), "a mode of more than 32 bits")
        expect(raises(ValueError, spdx.reason, number), "a reason of more than 32 bits")
    expect(raises(TypeError, spdx.Licences, 5), "a number for a list")
    try:
        spdx.Licences(b"{}")
        expect(False, "no list")
    except spdx.SpdxError:
        expect(True, "no list")
    with ThreadPoolExecutor(8) as pool:
        answers = list(pool.map(lambda _: licences.lines(corpus, HELD).refused, range(8)))
    expect(len(set(answers)) == 1, "threads")
    print(f"{sum(results)} passed, {len(results) - sum(results)} failed")
    return not all(results)


if __name__ == "__main__":
    sys.exit(main(*sys.argv[1:]))

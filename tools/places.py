#!/usr/bin/env python3
"""places.py: counts places in crates/*/src that an older style of Rattle leaves, point by point (docs/DESIGN-PASS.md). Run at the top of the repository; -v lists them."""
import collections, os, re, sys

VERBOSE = "-v" in sys.argv


def sources():
    for crate in sorted(os.listdir("crates")):
        for folder, _, files in os.walk(f"crates/{crate}/src"):
            for name in sorted(files):
                with open(os.path.join(folder, name), encoding="utf-8") as it:
                    yield crate, name, re.sub(r"//[^\n]*", "", it.read())


SOURCES = list(sources())
FUNCTION = re.compile(
    r'^( *)(?:pub )?(?:const )?(?:extern "C" )?fn (\w+)(?:<[^\n]*?>)?\((.*?)\)(?: -> [^\n{]*)?\n?((?: *(?:requires|ensures)[^\n]*\n)*)(.*?)\n\1\}',
    re.M | re.S,
)


def functions():
    for crate, _, text in SOURCES:
        for it in FUNCTION.finditer(text):
            yield f"{crate}::{it[2]}", it[3], it[4], it[5]


def say(point, what, places):
    places = list(places)
    print(f"{point} {what}: {len(places)}")
    if VERBOSE:
        for it in places:
            print(f"    {it}")


def enums():
    for crate, _, text in SOURCES:
        for it in re.finditer(r"^(?:pub )?enum (\w+)(?:<[^>]*>)? \{\n(.*?)^\}", text, re.M | re.S):
            variants = re.findall(r"^    (\w+)( ?[({][^\n]*)?,$", it[2], re.M)
            yield f"{crate}::{it[1]}", variants


def shaped():
    for name, variants in enums():
        full = [v for v, payload in variants if payload]
        empty = [v for v, payload in variants if not payload]
        if len(full) == 1 and 1 <= len(empty) <= 2:
            yield name
        elif len(variants) <= 3 and "Fault" in full:
            yield name


def flags():
    for crate, _, text in SOURCES:
        for it in re.finditer(r"^(?:pub )?struct (\w+) \{\n(.*?)^\}", text, re.M | re.S):
            for name in re.findall(r"^    (?:pub )?(given|scripted|failed|more|unread|unwritten|cut): bool", it[2], re.M):
                yield f"{crate}::{it[1]}.{name}"


def by_number():
    for name, _, _, body in functions():
        yield from [name] * len(re.findall(r"number\([a-z_.]+\) [!=]= 0|\bn == 0 \{\n +let c = o\.chip", body))


def loops():
    for name, _, _, body in functions():
        yield from [name] * len(re.findall(r"^ *(?:'\w+: )?(?:while|loop)\b", body, re.M))


def tests_by_arms():
    for name, _, _, body in functions():
        arms = re.findall(r"=> ([^,{\n]+),$", body, re.M)
        if len(arms) >= 2 and all(it in ("true", "false") for it in arms):
            yield name


def conversions():
    for name, _, _, body in functions():
        arms = re.findall(r"^ +([\w:|x ]+?)(?: \{[^}]*\}|\([^)]*\))? => ([^,{\n]+(?:::\w+)?),$", body, re.M)
        numbers = [a for a in arms if re.fullmatch(r"\d[\w]*", a[1])]
        kinds = [a for a in arms if re.fullmatch(r"\d[\w]*", a[0]) and "::" in a[1]]
        if len(arms) >= 3 and (len(numbers) == len(arms) or len(kinds) >= len(arms) - 1):
            yield name


def facts():
    where = collections.defaultdict(set)
    for name, _, clauses, _ in functions():
        for clause in re.findall(r"requires[^{]*\{ (.*) \}", clauses):
            depth, fact, parts = 0, "", []
            for word in re.split(r"( × |[()])", clause):
                depth += {"(": 1, ")": -1}.get(word, 0)
                if word == " × " and not depth:
                    parts.append(fact)
                    fact = ""
                else:
                    fact += word
            for fact in [*parts, fact]:
                fact = fact.strip()
                while fact.startswith("(") and fact.endswith(")"):
                    fact = fact[1:-1]
                where[re.sub(r"\.(old|now)\b", "", fact)].add(name)
    for fact, names in sorted(where.items(), key=lambda it: -len(it[1])):
        if len(names) >= 3:
            yield f"{len(names)} {fact}"


def wide():
    for name, given, _, _ in functions():
        count = len(re.findall(r"\w+: ", given))
        if count >= 7 and not name.startswith(("slipknoll::", "slipknoll_c::")):
            yield f"{name} {count}"


def pairs():
    for name, given, _, _ in functions():
        names = re.findall(r"(\w+): &mut \[u8(?:; \d+)?\]", given)
        if re.search(r"\b(at|n|k|filled|count): usize", given) and names:
            yield name


def switches():
    for name, variants in enums():
        if len(variants) >= 3 and not any(payload for _, payload in variants) and name.split("::")[1] in ("Class", "Work"):
            yield name


def answers():
    for folder, _, files in os.walk("crates"):
        for name in sorted(files):
            if name in ("Answers.antt", "Invariants.antt") and "/out/" not in folder:
                yield os.path.join(folder, name)


if __name__ == "__main__":
    say("1", "enums of the shape of Option or Result", shaped())
    say("1", "flags that say whether a value beside them is there", flags())
    say("1", "answers compared by their number", by_number())
    say("3", "while and loop", loops())
    say("4", "tests with an arm for each variant", tests_by_arms())
    say("4", "conversions from or to numbers, arm by arm", conversions())
    say("5", "facts in the requires of three or more functions", facts())
    say("5", "functions with seven or more parameters, but for the C interface", wide())
    say("6", "functions with a buffer and an index or a length beside it", pairs())
    say("7", "enums that say which test or step to run", switches())
    say("8", "proof files of functions", answers())

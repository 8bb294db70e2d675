#!/usr/bin/env python3
"""Run once at the top, right after the kit's port.py: the repository's own names in antt take the spelling of CONTRACT_STYLE.md, which port.py
gives only to those that are spelt like a name of a library. Functions, lemmas, fields and constructors: messageOf and padded-take become
message_of and padded_take. Types, propositions and modules stay. It writes tools/port/names.tsv, old and new spelling, and prints what it did.

A name is ours in a file unless the file imports it from elsewhere than an .antt file of this repository, or declares it with a type of the Tie
that Rattle makes for a function's proof. A name after a dot is turned only where an own module or an own record field stands there."""

import collections
import os
import re

# Lemmas that would have their function's name: messageLength is a number and message-length a lemma. They take _lem.
LEMMAS = """
    accepted-whole aggregator-stored aggregator-written all-fit attributes-end body-by built-places by-crate cleared-rows count-list
    count-section has-mark head-size head-words host-rows is-yes item-at item-row known-type list-limit message-length non-empty
    not-an-index numbers-in own-route past-length path-written reach-list reach-rows reach-written read-list read-section route-stored
    row-at search-refused section-hosts unreach-rows unreach-written weight-by with-head
""".split()

# Names whose plain snake case would be wrong: getD is get_or since port.py.
SPECIAL = {
    "getD-padded": "get_or_padded",
    "getD-there": "get_or_there",
}

# Names that are in snake case already, and that a turned one would fall together with: the file that declares them, the name, its new spelling.
IN_FILE = {
    ("crates/demands/specs/Attributes.antt", "too_long"): "over_long",
    ("crates/demands/specs/Index.antt", "too_long"): "too_long_lem",
    ("crates/demands/specs/Refusals.antt", "list_written"): "list_written_lem",
    ("crates/path_writer/proofs/PromiseLaws.antt", "too_long"): "too_long_lem",
    ("crates/route_bytes/proofs/EncodeLaws.antt", "step_by"): "step_by_lem",
}

PLAIN = re.compile(r"[a-z](?:(?![A-Z])[\w'])*$")
TOKEN = re.compile(r'--[^\n]*|"(?:[^"\\\n]|\\.)*"|«[^»]*»|λ|[^\s(){}.;,«»"λ]+|.|\n', re.S)
USE = re.compile(r"(?m)^(?P<head>(?:pub |ghost )*use )(?P<path>[^\s{;]+?)(?:\.\{(?P<items>[^}]*)\}| as (?P<alias>[^\s;]+))(?=;?$)")


def snake(name, file=None):
    """The new spelling of an own name, declared in that file: camel case and dashes turned, a piece that is a type's name kept with its dash."""
    if (file, name) in IN_FILE:
        return IN_FILE[file, name]
    if name in SPECIAL:
        return SPECIAL[name]
    if name in LEMMAS:
        return name.replace("-", "_") + "_lem"
    if not re.match(r"[a-z]", name):
        return name
    pieces = []
    for piece in name.split("-"):
        if re.match(r"[a-z0-9]", piece):
            piece = re.sub(r"(?<=[a-z0-9])([A-Z])", r"_\1", piece)
            piece = re.sub(r"([A-Z])(?=[A-Z][a-z])", r"\1_", piece).lower()
        pieces.append(piece)
    out = pieces[0]
    for before, piece in zip(pieces, pieces[1:]):
        kept = not (re.match(r"[a-z0-9]", before) and re.match(r"[a-z0-9]", piece))
        out += ("-" if kept else "_") + piece
    return out


def sources(end):
    found = []
    for folder, dirs, names in os.walk("crates"):
        dirs[:] = sorted(d for d in dirs if d not in ("out", "target"))
        found += [os.path.join(folder, name) for name in sorted(names) if name.endswith(end)]
    return sorted(found)


def read(path):
    with open(path, encoding="utf-8") as f:
        return f.read()


def own_file(module):
    """The file of a module of this repository, or None: a library's, or one that Rattle makes."""
    parts = module.split(".")
    if parts[0] != "Rattle" or len(parts) < 3:
        return None
    path = "crates/" + "/".join(parts[1:]) + ".antt"
    return path if os.path.exists(path) else None


class Uses:
    """What a file imports: names from outside, own names with the file that has them, aliases of own modules, aliases of a function's Reads."""

    def __init__(self, text):
        self.outside, self.own, self.modules, self.calls, self.list = set(), {}, {}, {}, []
        for m in USE.finditer(text):
            path, there = m["path"], own_file(m["path"])
            if m["alias"]:
                self.list.append(m["alias"])
                if there:
                    self.modules[m["alias"]] = there
                elif m["alias"].startswith("call-"):
                    self.calls[m["alias"]] = m["alias"][len("call-"):].replace("-", "_")
                else:
                    self.outside.add(m["alias"])
                continue
            for item in m["items"].split(","):
                old, _, new = item.strip().partition(" as ")
                self.list.append(new or old)
                if there:
                    self.own[old] = there
                    if new:
                        self.own[new] = there
                else:
                    self.outside.add(new or old)


def made(text):
    """The names that a proof declares with a type of its Tie."""
    return set(re.findall(r"(?m)^\s*(?:abbrev |unfoldable |pub )*([^\s({]+) :\s+tie\.", text))


def fields(text):
    """The fields of the records of a file."""
    found, inside = set(), None
    for line in text.split("\n"):
        if not line.strip() or line.lstrip().startswith("--"):
            continue
        depth = len(line) - len(line.lstrip())
        if inside is not None and depth <= inside:
            inside = None
        if re.match(r"\s*(?:pub )?record [A-Z◌]", line):
            inside = depth
        elif inside is not None:
            m = re.match(r"\s*(?:pub )?([^\s({]+) :\s", line)
            if m:
                found.add(m[1])
    return found


def declared(text):
    """Every name that a file declares: top level, module blocks, fields, constructors."""
    names = set(re.findall(r"(?m)^[ ]*(?:abbrev |unfoldable |pub )*([^\s({]+) :(?:\s|$)", text))
    names |= set(re.findall(r"(?m)^[ ]*(?:abbrev |unfoldable |pub )+([^\s({]+)(?:\s|$)", text)) - {"record", "data", "mod", "ruleset", "pub"}
    names |= set(re.findall(r"(?m)^[ ]*(?:pub )?(?:record|data|ruleset) ([^\s({]+)", text))
    return names


def in_comment(comment, names):
    """A comment with its code names turned: any in backticks, and elsewhere those in camel case."""
    quoted = re.sub(r"`([^`]*)`", lambda m: "`" + re.sub(r"[^\s(){}.;,]+", lambda t: names.get(t[0], t[0]), m[1]) + "`", comment)
    return re.sub(r"(?<![\w`'-])[a-z][a-z0-9]*[A-Z]\w*(?![\w'-])", lambda t: names.get(t[0], t[0]), quoted)


def turn(path, text, names, own_fields, log):
    """The text of an .antt file with its names turned. names: what the repository declares, old to new, for the comments."""
    uses, kept = Uses(text), made(text)
    tokens = TOKEN.findall(text)
    # whether each token is a lower-case name that stands alone, and not after a dot
    bare = [bool(re.match(r"[a-z]", t)) and not (i > 1 and tokens[i - 1] == "." and not tokens[i - 2].isspace()) for i, t in enumerate(tokens)]
    free = {t for t, b in zip(tokens, bare) if b and t not in uses.calls}
    plain = {t: t if t in uses.outside or t in kept else snake(t, uses.own.get(t, path)) for t in free}
    for alias, before in uses.calls.items():
        plain[alias] = before if before not in plain.values() else before + "_call"
        if plain[alias] != before:
            log["alias"].append(f"{path}: {alias} -> {plain[alias]}")
    out, old_of = [], collections.defaultdict(set)
    for i, token in enumerate(tokens):
        new = token
        if token.startswith("--"):
            new = in_comment(token, names)
        elif bare[i]:
            new = plain[token]
            old_of[new].add(token)
            if new == token and not PLAIN.match(token) and token not in uses.outside and token not in kept:
                log["left"].append(f"{path}: {token}")
        elif re.match(r"[a-z]", token):
            if tokens[i - 2] in uses.modules:
                new = snake(token, uses.modules[tokens[i - 2]])
            elif token in own_fields:
                new = snake(token)
                if new != token:
                    log["field"].append(f"{path}: {tokens[i - 2]}.{token}")
            elif not PLAIN.match(token):
                log["after a dot, left as they are"].append(token)
        out.append(new)
    for new, olds in sorted(old_of.items()):
        if len(olds) > 1:
            log["collision"].append(f"{path}: {' and '.join(sorted(olds))} -> {new}")
    return "".join(out)


def turn_source(path, text, own_fields, log):
    """The text of an .rt file: its own imported names, wherever they stand, and what stands after an own module's alias."""
    uses = Uses(text)
    turned = {old: snake(old, file) for old, file in uses.own.items()}
    code = re.sub(r"//[^\n]*", "", text)
    for old, new in sorted(turned.items()):
        if new != old and re.search(rf"\b{new}\s*:(?!:)|\blet (?:mut )?{new}\b|[|(,] ?{new} ?[|,)] ?=>|\bfor {new} in", code):
            log["a parameter or local of the code has this name"].append(f"{path}: {old} -> {new}")
        elif new != old and re.search(rf"\bfn {new}\b|\buse [^;]*\b{new}\b[^;]*;|::{new}\(", code):
            log["a function of the code has this name, as it may"].append(new)

    def word(m):
        before = text[: m.start()]
        if before.endswith("."):
            receiver = re.search(r"(\w+)\.$", before)
            if receiver and receiver[1] in uses.modules:
                return snake(m[0], uses.modules[receiver[1]])
            return snake(m[0]) if m[0] in own_fields and not PLAIN.match(m[0]) else m[0]
        return turned.get(m[0], m[0])

    return re.sub(r"(?<![\w'-])[a-z][\w'-]*", word, text)


def main():
    texts = {path: read(path) for path in sources(".antt")}
    own_fields, names = set(), {}
    for path, text in texts.items():
        for name in declared(text) - made(text):
            if snake(name) != name:
                names[name] = snake(name)
        own_fields |= fields(text)
    log = collections.defaultdict(list)
    count = 0
    for path, text in texts.items():
        new = turn(path, text, names, own_fields, log)
        if new != text:
            count += 1
            with open(path, "w", encoding="utf-8") as f:
                f.write(new)
    for path in sources(".rt"):
        text = read(path)
        new = turn_source(path, text, own_fields, log)
        if new != text:
            count += 1
            with open(path, "w", encoding="utf-8") as f:
                f.write(new)
    with open("tools/port/names.tsv", "w", encoding="utf-8") as f:
        for old, new in sorted(names.items()):
            f.write(f"{old}\t{new}\n")
    print(f"{len(names)} names, {count} files")
    back = collections.defaultdict(set)
    for old, new in names.items():
        back[new].add(old)
    for new, olds in sorted(back.items()):
        if len(olds) > 1:
            log["two names, one spelling"].append(f"{' and '.join(sorted(olds))} -> {new}")
    for kind in sorted(log):
        lines = sorted(collections.Counter(log[kind]).items())
        print(f"{kind}:")
        if kind.startswith("after a dot") or kind.startswith("a function"):
            print(f"    {len(lines)} names")
            continue
        for line, times in lines:
            print(f"    {line}" + (f" ({times})" if times > 1 else ""))


main()

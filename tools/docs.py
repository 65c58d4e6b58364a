#!/usr/bin/env python3
"""Checks what the documents say of the sources, and how they say it: tools/docs.py.

Looks, in README.md, docs/ and the READMEs of examples/, trials/ and bench/, for

- links whose file or heading is missing;
- names of crates, files, folders and cases that don't exist, and of modules, calls and
  definitions that aren't where the page says: `Type::call` must be a function, a variant or a
  constant of that type, and a name after a crate's must stand in that crate;
- quotations that differ: a fenced block after a line that ends in (`PATH`): must stand in that
  file, word for word;
- in docs/CLAIMS.md, in the table of wrong bodies, planted bugs that the gate doesn't try in the
  crates named, and cases that don't exist;
- numbers of crates and groups that aren't those of crates.txt, whose groups are the comments above
  its lines; in docs/ARCHITECTURE.md, crates that the table has in another group;
- synopses, `./kx COMMAND [--option VALUE]`, that aren't those of the program's command line
  (crates/kx_program/src/usage.rt), and commands without one;
- of running text, so not of tables, code and lists of names: sentences of more than 35 words,
  paragraphs and bullets of more than 90;
- copies: a script in examples/ must be the one of the cases, and worker.py the one of README.

Also, in the comments of files of cases, for documents and headings that aren't there. Prints a line
for each finding, and ends with status 1 if there is one.
"""
import os
import re
import sys

sys.dont_write_bytecode = True
import rules  # noqa: E402

# The most words of a sentence, and of a paragraph or bullet.
LONGEST_SENTENCE = 35
LONGEST_PARAGRAPH = 90

TOP = os.path.dirname(os.path.dirname(os.path.realpath(__file__)))
PAGES = sorted(f"docs/{it}" for it in os.listdir(f"{TOP}/docs") if it.endswith(".md"))
READMES = ["examples/README.md", "trials/README.md", "trials/kafka/README.md", "bench/README.md"]
DOCS = ["README.md"] + PAGES + READMES
USAGE = "crates/kx_program/src/usage.rt"
FOLDERS = ("crates", "docs", "bench", "trials", "tools", "examples")
DATA = "crates/kx_cases_run/data"
CASES = r"cases|kx|served|shown|session|program|demo|out"
# Words in backticks that are the system's, or stand for any name.
FOREIGN = {"BUG", "CC", "FF", "Lts", "NAME", "cN", "crc32", "fdatasync", "kcat", "p15"}
found = []


def read(name):
    with open(f"{TOP}/{name}", encoding="utf-8") as it:
        return it.read()


def say(name, number, what):
    found.append(f"{name}:{number}: {what}")


def lines(text):
    return enumerate(text.split("\n"), 1)


def anchors(text):
    """The names by which links find the headings of a page."""
    return {
        re.sub(r"[^\w\- ]", "", it.strip().lower()).replace(" ", "-")
        for it in re.findall(r"^#+ (.*)$", text, flags=re.M)
    }


# The head of a function, as `rt fmt` lays it out.
FUNCTION = re.compile(
    r"( *)(?:pub |pub\(crate\) )?(?:const )?(?:unsafe )?(?:extern \"C\" )?fn (\w+)"
)


def functions(text):
    """The functions of a file by their names, each with its type's. `rt fmt` gives each its own
    indentation."""
    found, owner, indent = [], "", None
    for line in text.split("\n"):
        if line in ("}", f"{indent}}}", f"{indent}{{}}"):
            indent = None
        if indent is None:
            block = re.match(r"(?:pub |pub\(crate\) )?(?:impl|trait)\b(?:<.*?>)?\s+(.*)", line)
            if block:
                rest = block.group(1).split("{")[0]
                owner = re.match(r"\w*", rest.split(" for ")[-1].strip()).group()
            elif line == "}":
                owner = ""
        head = FUNCTION.match(line)
        if head and (indent is None or len(head.group(1)) <= len(indent)):
            indent = head.group(1)
            found.append((owner if indent else "", head.group(2)))
    return found


class Sources:
    """What stands in the sources: words, of a crate and of all; calls; files; cases."""

    def __init__(self):
        self.words, self.by_crate, self.calls, self.types = set(), {}, set(), set()
        self.files, self.cases = set(), set()
        for folder, folders, files in os.walk(f"{TOP}/crates"):
            folders[:] = [it for it in folders if it != "out"]
            inside = os.path.relpath(folder, f"{TOP}/crates").split(os.sep)
            own = self.by_crate.setdefault(inside[0], set())
            for it in files:
                self.files.add("/".join(inside[1:] + [it]))
                own |= {it.split(".")[0]} | set(inside[1:])
                if it.endswith((".rt", ".antt")):
                    text = read(os.path.relpath(os.path.join(folder, it), TOP))
                    own |= set(re.findall(r"\w+", text))
                    self.add_calls(text if it.endswith(".rt") else "")
                if inside[:2] in (["kx_cases_run", "data"], ["kx_cases_kafka", "data"]):
                    self.cases |= {it, os.path.splitext(it)[0]}
        for own in self.by_crate.values():
            self.words |= own

    def add_calls(self, text):
        for owner, name in functions(text):
            self.calls.add(f"{owner}::{name}" if owner else name)
            self.types.add(owner)
        kinds = r"^(?:pub )?(?:enum|trait) (\w+)[^{]*\{(.*?)^\}"
        for name, body in re.findall(kinds, text, re.M | re.S):
            self.types.add(name)
            self.calls |= {f"{name}::{it}" for it in re.findall(r"^    (\w+)\b[ ({,]", body, re.M)}
            self.calls |= {f"{name}::{it}" for it in re.findall(r"fn (\w+)", body)}
        # constants, and calls of a type by its other name
        blocks = r"^impl.*?(\w+)(?:<[^\n]*>)? \{(.*?)^\}"
        for owner, body in re.findall(blocks, text, re.M | re.S):
            self.calls |= {f"{owner}::{it}" for it in re.findall(r"const (\w+)", body)}
        for name, of in re.findall(r"^pub type (\w+)[^=]*=\s*(\w+)", text, re.M):
            self.types.add(name)
            self.calls.add((name, of))

    def has_call(self, owner, name):
        if f"{owner}::{name}" in self.calls:
            return True
        others = [it[1] for it in self.calls if isinstance(it, tuple) and it[0] == owner]
        return any(self.has_call(it, name) for it in others)


def check_links(name, text):
    folder = os.path.dirname(name)
    for number, line in lines(text):
        for to in re.findall(r"\]\(([^)\s]+)\)", line):
            if re.match(r"[a-z]+:", to):
                continue
            file, _, heading = to.partition("#")
            path = os.path.normpath(os.path.join(folder, file)) if file else name
            if not os.path.exists(f"{TOP}/{path}"):
                say(name, number, f"no file {path}")
            elif heading and path.endswith(".md") and heading not in anchors(read(path)):
                say(name, number, f"no heading #{heading} in {path}")


def check_names(name, text, sources):
    for number, line in lines(text):
        for it in set(re.findall(r"\bkx_[a-z_]*[a-z]\b", line)) - set(sources.by_crate):
            # (a place that stands for several crates, as kx_cases_*, is no name)
            if f"{it}_*" not in line and f"{it}*" not in line:
                say(name, number, f"no crate {it}")
        for it in re.findall(r"`((?:%s)/[\w./-]+)`" % "|".join(FOLDERS), line):
            if not re.search("NAME|BUG|/out/", it) and not os.path.exists(f"{TOP}/{it}"):
                say(name, number, f"no file {it}")
        for it in re.findall(r"`([\w/]+\.(?:rt|antt))`", line):
            ends = (f"/{file}".endswith(f"/{it}") for file in sources.files)
            if not it.startswith("crates/") and not any(ends):
                say(name, number, f"no file {it} in any crate")
        for it in re.findall(rf"`(?:data/)?((?:\w+/)?\w+\.(?:{CASES}))`", line):
            if not it.startswith("NAME") and "/NAME" not in it:
                file = os.path.basename(it)
                if file not in sources.cases and not os.path.exists(f"{TOP}/examples/{file}"):
                    say(name, number, f"no cases {it}")


def check_words(name, text, sources):
    """Names of calls, types, definitions and clauses: where the page says that they stand."""
    for number, line in lines(text):
        for it in re.findall(r"`([A-Za-z]\w+(?:::\w+)*)`", line):
            parts = it.split("::")
            for part in parts:
                if part not in sources.words and part not in FOREIGN:
                    say(name, number, f"no {part} in the sources")
            if len(parts) == 2 and parts[0] in sources.types and not sources.has_call(*parts):
                say(name, number, f"no call {it}")


def check_places(name, text, sources):
    """Names after a crate's: they stand in that crate."""
    for number, line in lines(text):
        for crate, names in re.findall(r"\b(kx_\w+) ((?:`\w+`(?:, | and )?)+)", line):
            for it in re.findall(r"`(\w+)`", names):
                if crate in sources.by_crate and it not in sources.by_crate[crate]:
                    say(name, number, f"no {it} in {crate}")


def check_quotes(name, text):
    for path, body in re.findall(r"\(`([\w./-]+)`\):\n+```\w*\n(.*?)^```$", text, re.M | re.S):
        if not os.path.exists(f"{TOP}/{path}") or body not in read(path):
            number = text[:text.index(body)].count("\n")
            say(name, number, f"the quotation isn't in {path}")


def edits():
    """The planted bugs: by name, the crates in whose gate they are, and those beside it."""
    named = {}
    for crate in os.listdir(f"{TOP}/crates"):
        for place in ("must-fail", "edits"):
            folder = f"{TOP}/crates/{crate}/{place}"
            for it in os.listdir(folder) if os.path.isdir(folder) else ():
                if it.endswith(".edit"):
                    named.setdefault(it[:-5], {}).setdefault(place, set()).add(crate)
    return named


def check_wrong_bodies(name, text, sources):
    """The table of wrong bodies: each planted bug, the crates whose gate has it, in brackets those
    whose other planted bugs do, and its cases."""
    named = edits()
    head = text.index("| Wrong body |")
    first = text.count("\n", 0, head) + 3
    for number, line in enumerate(text[head:].split("\n")[2:], first):
        if not line.startswith("| "):
            break
        bugs, _, refused = line.strip("| ").split(" | ")
        for bug in re.findall(r"`([a-z_0-9]+)`", bugs):
            beside = " ".join(re.findall(r"\(([^)]*)\)", refused))
            for crate in re.findall(r"\bkx_\w+", refused):
                place = "edits" if crate in beside else "must-fail"
                if crate not in named.get(bug, {}).get(place, ()):
                    say(name, number, f"no planted bug {bug} in {place} of {crate}")
        for case in re.findall(r"`(?:\w+/)?([a-z_0-9]+(?:\.[a-z]+)?)`", refused):
            if case not in sources.cases:
                say(name, number, f"no case {case}")


def check_copies():
    for it in os.listdir(f"{TOP}/examples"):
        if it.endswith((".kx", ".out")) and read(f"examples/{it}") != read(f"{DATA}/{it}"):
            say(f"examples/{it}", 1, f"not the one of {DATA}")
    if read("examples/worker.py") not in read("README.md"):
        say("examples/worker.py", 1, "not the one of README.md")


def groups():
    """The groups of crates.txt, each with its crates; a comment counts up to the next one."""
    found, group = {}, ""
    for line in read("crates.txt").split("\n")[1:]:
        if line.startswith("# "):
            group = line[2:]
        elif line:
            found.setdefault(group, set()).add(re.match(r"\w+", line).group())
    return found


def check_groups():
    own = groups()
    count = sum(map(len, own.values()))
    for name in DOCS:
        for number, line in lines(read(name)):
            for crates, of in re.findall(r"(\d+) crates in (\d+) groups", line):
                if (int(crates), int(of)) != (count, len(own)):
                    say(name, number, f"{count} crates in {len(own)} groups")
    name = "docs/ARCHITECTURE.md"
    text = read(name)
    head = text.index("| Group | Crates |")
    first = text.count("\n", 0, head) + 3
    for number, line in enumerate(text[head:].split("\n")[2:], first):
        if not line.startswith("| "):
            break
        group, crates = line.strip("| ").split(" | ")
        shown = set(re.findall(r"\bkx_\w+", crates))
        if shown != own.pop(group, None):
            say(name, number, f"{group} in crates.txt has other crates")
    for group in own:
        say(name, first, f"no group {group}")


def usages():
    """Of each command of the program its options with the names of their values, and its words."""
    text = read(USAGE)
    arguments, found = {}, {}
    bodies = re.findall(r"^fn (\w+)<[^\n]*\n.*?^\{\n(.*?)^\}", text, re.M | re.S)
    for name, body in bodies:
        short = re.search(r'\b(?:number|required)\(alloc, "([\w-]+)", "([^"]+)"', body)
        flag = re.search(r'\bflag\(\s*alloc,\s*"([\w-]+)"', body)
        long = re.search(r'\.long\("([\w-]+)"\)', body)
        value = re.search(r'\.value_name\("([^"]+)"\)', body)
        word = re.search(r'Arg::new\(alloc, "([^"]+)"\)', body)
        if short:
            arguments[name] = (f"--{short[1]}", short[2])
        elif flag:
            arguments[name] = (f"--{flag[1]}", "")
        elif long:
            arguments[name] = (f"--{long[1]}", value[1] if value else "")
        elif word:
            arguments[name] = (word[1], "")
    for name, body in bodies:
        command = re.search(r'Command::new\(alloc, "(\w+)"\)', body)
        if command and name.endswith("_usage") and command[1] != "kx_main":
            own = dict(arguments)
            for local, word in re.findall(r'let (\w+) = Arg::new\(alloc, "([^"]+)"\)', body):
                own[local] = (word, "")
            its = re.findall(r"\.arg\((\w+)", body)
            found[command[1]] = {own[it] for it in its}
    return found


def check_synopses():
    wanted, seen = usages(), set()
    for name in DOCS:
        for number, line in lines(read(name)):
            for command, words in re.findall(r"`\./kx (\w+)((?: [^`]*)?\[--[^`]*)`", line):
                options = re.findall(r"(--[\w-]+)(?: ([A-Z][^\]\s]*))?", words)
                rest = re.sub(r"\[?--[\w-]+(?: [A-Z][^\]\s]*)?\]?", "", words)
                shown = set(options) | {(it, "") for it in rest.split()}
                seen.add(command)
                for it, value in sorted(shown ^ wanted.get(command, set())):
                    say(name, number, f"the synopsis of {command} differs in {it} {value}".rstrip())
    for command, options in wanted.items():
        if command not in seen and any(it.startswith("--") for it, _ in options):
            say(USAGE, 1, f"no page has the synopsis of {command}")


def running_text(text):
    """The paragraphs and bullets of a page, each with the number of its first line and its heading."""
    heading, first, parts, is_code = "", 0, [], False
    for number, line in lines(text + "\n"):
        line = line.strip()
        is_fence = line.startswith("```")
        is_code ^= is_fence
        begins = re.match(r"(?:[-*]|\d+\.) ", line)
        if parts and (not line or is_fence or begins or line[:1] in "|#"):
            yield first, heading, " ".join(parts)
            parts = []
        if line.startswith("#") and not is_code:
            heading = line.lstrip("# ")
        elif line and not (is_code or is_fence or line[0] in "|#" or line.startswith("<!--")):
            first = first if parts else number
            parts.append(line[begins.end():] if begins else line)


def plain(text):
    """Running text in words: code is one word, and so is a list of names."""
    text = re.sub(r"!?\[([^\]]*)\]\([^)]*\)", r"\1", text)
    text = re.sub(r"`[^`]*`", "`", text)
    text = re.sub(r"`(?:(?:,|,? and| or) (?:kx_\w+ )?`)+", "`", text)
    name = r"\bkx_\w+(?: [\d+]+[†*~]?(?: \(built \d+\))?)?"
    text = re.sub(rf"{name}(?:(?:,|,? and) {name})+", "kx", text)
    return text.replace("*", "").replace("`", "Name")


def check_lengths(name, text):
    for number, heading, part in running_text(text):
        part = plain(part)
        count = len(part.split())
        # (a page of a run shows these, so a change of them is one of kx_page)
        if count > LONGEST_PARAGRAPH and heading not in rules.TEXTS:
            say(name, number, f"a paragraph of {count} words: {part[:40]}..")
        for it in re.split(r"(?<=[^.][.?!])\)? +(?=[A-Z0-9(\"…]|kx)", part):
            count = len(it.split())
            if count > LONGEST_SENTENCE:
                say(name, number, f"a sentence of {count} words: {it[:40]}..")


def check_comments_of_cases():
    """Documents that comments of cases name, with the headings in quotes after them."""
    for crate in ("kx_cases_run", "kx_cases_kafka"):
        for folder, _, files in os.walk(f"{TOP}/crates/{crate}/data"):
            for it in sorted(files):
                if it.endswith((".cases", ".session", ".program", ".served", ".shown", ".demo")):
                    check_comments(os.path.relpath(os.path.join(folder, it), TOP))


def check_comments(name):
    with open(f"{TOP}/{name}", encoding="utf-8", errors="replace") as it:
        text = it.read()
    for found in re.finditer(r"(?:^#.*\n)+", text, re.M):
        number = text.count("\n", 0, found.start()) + 1
        comment = " ".join(it.lstrip("# ") for it in found[0].split("\n"))
        for path in re.findall(r"\b(?:docs|trials|tools)/[\w./-]*\w", comment):
            if not os.path.exists(f"{TOP}/{path}"):
                say(name, number, f"no file {path}")
        for page, quoted in re.findall(r'(docs/[\w-]+\.md)((?:,?(?: and)? "[^"]*")+)', comment):
            heads = re.findall(r"^#+ (.*)$", read(page), re.M) if os.path.exists(f"{TOP}/{page}") else []
            for it in re.findall(r'"([^"]*)"', quoted):
                if not any(head.startswith(it) for head in heads):
                    say(name, number, f'no heading "{it}" in {page}')


def main():
    sources = Sources()
    for name in DOCS:
        text = read(name)
        check_links(name, text)
        check_names(name, text, sources)
        check_quotes(name, text)
        check_lengths(name, text)
        check_places(name, text, sources)
        # (GLOSSARY has Kafka's words beside ours)
        if name not in ["docs/GLOSSARY.md", *READMES]:
            check_words(name, text, sources)
    check_wrong_bodies("docs/CLAIMS.md", read("docs/CLAIMS.md"), sources)
    check_copies()
    check_groups()
    check_synopses()
    check_comments_of_cases()
    for line in found:
        print(line)
    return 1 if found else 0


if __name__ == "__main__":
    sys.exit(main())

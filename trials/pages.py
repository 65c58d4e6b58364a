#!/usr/bin/env python3
"""Looks at pages of runs in headless Chromium (Debian's package chromium).

    pages.py PROGRAM [FOLDER]

Writes the pages of the two examples, of a demonstration with losses (which drops a processor), of a
server of stock clients that was killed twice if kcat is there, and of scripts of 10,000 and 100,000
steps; then opens each in both colour schemes and at two widths. A page has one
row for each step in order, no element that its writer didn't make, no link without its target, and
no error on the console; one of 10,000 steps opens in a second. The screenshots stay in FOLDER.

It also writes pages and diagrams of runs whose names, groups, keys and values are hostile: tags of
scripts, quotes, ends of comments and of tags, control characters, and 10,000 characters. In Chromium
each has the elements and attributes of the same run with harmless words of the same lengths, one
after the other, and no hostile script ran. A diagram is read as XML, too.
"""
import html.parser
import os
import re
import shutil
import subprocess
import sys
import tempfile
import time
import xml.etree.ElementTree

TOP = os.path.join(os.path.dirname(os.path.abspath(__file__)), "..")
ELEMENTS = set("""html head meta title style body header h1 h2 h3 p form label select option span i main
    div section svg defs marker path g rect circle text a ol li b aside table thead tbody tr th td script
    code em strong ul""".split())
ATTRIBUTES = set("""lang charset name content id class style for value href start xmlns width height viewbox refx
    refy markerwidth markerheight orient d fill stroke stroke-width x y cx cy r rx transform""".split())
WIDTHS, SCHEMES = (1500, 800), ("light", "dark")
# each would say so on the console if it ran
HOSTILE = ["<script>console.log('ran')</script>", "\"><img/src=x/onerror=console.log('ran')>",
    "'><svg/onload=console.log('ran')>", "</text><script>console.log('ran')</script>",
    "]]></style></title><script>console.log('ran')</script>", "<!--", "--></script>", "&lt;script&gt;&#60;b&#62;",
    "javascript:console.log('ran')", "\"onmouseover=\"console.log('ran')", "`${console.log('ran')}`"]
# from which word on the names are taken, in one run each
TURNS = range(0, len(HOSTILE), 4)
# the names and values of the examples
WORDS = {"pay", "rent", "wages", "tea", "milk", "bread", "bill", "shop"}


class Page(html.parser.HTMLParser):
    """What a page has."""

    def __init__(self, text):
        super().__init__()
        self.rows, self.elements, self.links, self.ids = [], set(), [], set()
        self.feed(text)

    def handle_starttag(self, tag, attrs):
        attrs = dict(attrs)
        self.elements.add(tag)
        if "id" in attrs:
            self.ids.add(attrs["id"])
        if attrs.get("href", "").startswith("#"):
            self.links.append(attrs["href"][1:])
        if tag == "li" and attrs.get("id", "").startswith("s"):
            self.rows.append(int(attrs["id"][1:]))


class Elements(html.parser.HTMLParser):
    """The elements of a page, one after the other, with the names of their attributes."""

    def __init__(self, text):
        super().__init__()
        self.all = []
        self.feed(text)

    def handle_starttag(self, tag, attrs):
        self.all.append((tag, sorted(name for name, _ in attrs)))


def script_of(steps):
    """A script of about this many steps: four clients without transactions, a batch each in turn."""
    lines, sent = ["world 4"], 0
    for client in range(1, 5):
        lines += ["client %d -" % client, "init %d" % client, "deliver %d" % sent, "deliver %d" % (sent + 1)]
        sent += 2
    for batch in range((steps - 16) // 3):
        client = 1 + batch % 4
        lines += ["send %d %d value-%d" % (client, batch % 4, batch), "deliver %d" % sent, "deliver %d" % (sent + 1)]
        sent += 2
    return "\n".join(lines) + "\n"


def write_pages(program, folder):
    """Writes the pages, and answers their names."""
    names = []

    def run(name, words, text=None):
        page = os.path.join(folder, name + ".html")
        done = subprocess.run([program, *words, "--page", page], input=text, capture_output=True, text=True)
        if done.returncode:
            print("%s: FAILED: status %d, %s" % (name, done.returncode, done.stderr.strip()))
        names.append(name)

    for example in ("exactly_once", "consume_process_produce"):
        with open(os.path.join(TOP, "examples", example + ".kx")) as file:
            run(example, ["sim"], file.read())
    run("demonstration", ["demo", "--records", "20", "--lose", "20"])
    for name, traces in served(program, folder):
        run(name, ["audit", traces])
    run("steps_10000", ["sim"], script_of(10000))
    run("steps_100000", ["sim"], script_of(100000))
    return names


def served(program, folder):
    """Traces of a server of stock clients that was killed twice, if kcat is there."""
    if not shutil.which("kcat"):
        print("kcat isn't installed: no page of a run of stock clients")
        return
    traces = os.path.join(folder, "stock.traces")
    os.mkdir(traces)
    logs = os.path.join(folder, "stock.logs")
    os.mkdir(logs)
    words = [program, "kafka", "--port", "0", "--topics", "bills:2", "--dir", logs, "--trace", traces]
    for turn in range(2):
        server = subprocess.Popen(words, stdout=subprocess.PIPE, text=True)
        port = server.stdout.readline().split()[1]
        for number in range(5):
            subprocess.run(["kcat", "-P", "-b", "127.0.0.1:" + port, "-t", "bills", "-p", str(number % 2), "-K:"],
                input="rent:%d\n" % (100 * turn + number), text=True, check=True)
        server.kill()
        server.wait()
    yield "stock_clients", traces


def harmless(words):
    """As many words of the same lengths."""
    return ["x" * len(word) for word in words]


def reworded(script, words):
    """The script with other words in the place of its names and values: one for each name, the same each
    time, and in a batch all of them after the first."""
    names = dict(zip(sorted(WORDS), words))
    lines = []
    for line in script.splitlines():
        line = [names.get(word, word) for word in line.split(" ")]
        if line[0] in ("send", "put"):
            line += [word for word in words if word not in line]
        lines.append(" ".join(line))
    return "\n".join(lines) + "\n"


def elements_in(page):
    """The elements that Chromium made of a page, and what was said on its console."""
    found, said, _ = chromium("--dump-dom", "file://" + page)
    return Elements(found).all, [line for line in said.splitlines() if "CONSOLE" in line]


def differences(hostile, tame):
    """What is wrong with a hostile page or diagram, by the one of the harmless words."""
    made, said = elements_in(hostile)
    wanted, _ = elements_in(tame)
    wrong = list(said)
    if not wanted:
        wrong.append("no elements")
    if made != wanted:
        odd = [element for element in made if element not in wanted]
        wrong.append("%d elements in place of %d, such as %s" % (len(made), len(wanted), odd[:3]))
    if hostile.endswith(".svg"):
        try:
            xml.etree.ElementTree.parse(hostile)
        except xml.etree.ElementTree.ParseError as error:
            wrong.append("no XML: %s" % error)
    return wrong


def look_at_hostile(program, folder):
    """Looks at the pages and diagrams of the examples with hostile words."""
    good = True
    for example in ("exactly_once", "consume_process_produce"):
        with open(os.path.join(TOP, "examples", example + ".kx")) as file:
            script = file.read()
        for turn in TURNS:
            hostile = HOSTILE[turn:] + HOSTILE[:turn]
            files = {}
            for kind, words in (("hostile", hostile), ("harmless", harmless(hostile))):
                name = os.path.join(folder, "%s-%s-%d" % (example, kind, turn))
                files[kind] = [name + ".html", name + ".svg"]
                done = subprocess.run([program, "sim", "--page", files[kind][0], "--svg", files[kind][1]],
                    input=reworded(script, words), capture_output=True, text=True)
                if done.returncode:
                    print("%s, %s: FAILED: status %d, %s" % (example, kind, done.returncode, done.stderr.strip()))
                    good = False
            wrong = [each for pair in zip(files["hostile"], files["harmless"]) for each in differences(*pair)]
            if wrong:
                print("%s, hostile %d: FAILED: %s" % (example, turn, "; ".join(wrong)))
                good = False
    print("%d hostile pages and as many diagrams: %s" % (2 * len(TURNS), "ok" if good else "FAILED"), flush=True)
    return good


def look_at_clients(program, folder):
    """Looks at the page of a server of stock clients whose topic got hostile keys, values and headers."""
    if not shutil.which("kcat"):
        print("kcat isn't installed: no page with hostile bytes of stock clients")
        return True
    traces, page = os.path.join(folder, "hostile.traces"), os.path.join(folder, "hostile.html")
    os.mkdir(traces)
    server = subprocess.Popen([program, "kafka", "--port", "0", "--topics", "bills:1", "--trace", traces],
        stdout=subprocess.PIPE, text=True)
    port = server.stdout.readline().split()[1]
    control = bytes(range(1, 32)) + bytes(range(127, 256))
    values = [word.encode() for word in HOSTILE] + [control, b"<" * 10000, b"<script>console.log('ran')</script>" * 300]
    for value in values:
        with open(os.path.join(folder, "value"), "wb") as file:
            file.write(value)
        subprocess.run(["kcat", "-P", "-b", "127.0.0.1:" + port, "-t", "bills", "-p", "0", "-k", value[:200],
            "-H", b"name=" + value[:200], "-X", "client.id=" + HOSTILE[0], file.name], check=True)
    server.kill()
    server.wait()
    done = subprocess.run([program, "audit", traces, "--page", page], capture_output=True, text=True)
    made, wrong = elements_in(page)
    allowed = ATTRIBUTES | {"data-n", "data-c", "data-t", "data-f", "data-s"}
    odd = [(tag, names) for tag, names in made if tag not in ELEMENTS or set(names) - allowed]
    rows = [names for tag, names in made if tag == "li"]
    scripts = [tag for tag, _ in made if tag == "script"]
    if done.returncode or odd or len(scripts) != 1 or "%d steps" % len(rows) not in open(page).read() or not rows:
        wrong.append("status %d, %d rows, %d scripts, odd elements %s" % (done.returncode, len(rows),
            len(scripts), odd[:3]))
    print("%d records of stock clients with hostile bytes: %s" % (len(values), "ok" if not wrong else "FAILED: "
        + "; ".join(wrong)), flush=True)
    return not wrong


def chromium(*words):
    """What Chromium says, on both streams, and the seconds that it takes."""
    begun = time.monotonic()
    done = subprocess.run(["chromium", "--headless", "--no-sandbox", "--disable-gpu", "--enable-logging=stderr",
        *words], capture_output=True, text=True, timeout=300)
    return done.stdout, done.stderr, time.monotonic() - begun


def drawn(page):
    """The least seconds of three in which Chromium starts, opens a page, draws it and ends."""
    with tempfile.TemporaryDirectory() as room:
        words = ["--window-size=1500,1000", "--screenshot=" + os.path.join(room, "page.png"), "file://" + page]
        return min(chromium(*words)[2] for _ in range(3))


def opened(page):
    """How many seconds longer that takes than with an empty page."""
    with tempfile.TemporaryDirectory() as room:
        empty = os.path.join(room, "empty.html")
        with open(empty, "w") as file:
            file.write("<!DOCTYPE html><title>empty</title>\n")
        return drawn(page) - drawn(empty)


def look(folder, name):
    """Looks at one page, and says what is wrong with it."""
    page = os.path.join(folder, name + ".html")
    with open(page, encoding="utf-8") as file:
        text = file.read()
    found, wrong = Page(text), []
    if found.rows != list(range(len(found.rows))) or "%d steps" % len(found.rows) not in text:
        wrong.append("rows out of order")
    if found.elements - ELEMENTS:
        wrong.append("elements %s" % sorted(found.elements - ELEMENTS))
    missing = [link for link in found.links if link not in found.ids]
    if missing:
        wrong.append("%d links without a target, as %s" % (len(missing), missing[0]))
    for scheme in SCHEMES:
        for width in WIDTHS:
            picture = os.path.join(folder, "%s-%s-%d.png" % (name, scheme, width))
            words = ["--window-size=%d,1000" % width, "--screenshot=" + picture]
            words += ["--blink-settings=preferredColorScheme=%d" % (0 if scheme == "dark" else 1)]
            _, said, _ = chromium(*words, "file://" + page)
            wrong += [line for line in said.splitlines() if "CONSOLE" in line]
            if not os.path.exists(picture):
                wrong.append("no screenshot")
    took = opened(page)
    if len(found.rows) <= 10000 and took > 1:
        wrong.append("slow")
    print("%s: %d steps, %d bytes, opened in %.2f s: %s" % (name, len(found.rows), len(text), took,
        "ok" if not wrong else "FAILED: " + "; ".join(wrong)), flush=True)
    return not wrong


def main():
    if not shutil.which("chromium"):
        print("chromium isn't installed: no page is looked at")
        return 0
    program = os.path.abspath(sys.argv[1])
    folder = os.path.abspath(sys.argv[2]) if len(sys.argv) > 2 else tempfile.mkdtemp(prefix="kx-pages-")
    os.makedirs(folder, exist_ok=True)
    names = write_pages(program, folder)
    looks = [look(folder, name) for name in names]
    looks += [look_at_hostile(program, folder), look_at_clients(program, folder)]
    print("%d looks, %d failed; screenshots in %s" % (len(looks), looks.count(False), folder))
    return int(False in looks)


sys.exit(main())

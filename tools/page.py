#!/usr/bin/env python3
"""Looks at pages of `telexplan page` as a browser shows and prints them, with Debian's chromium and poppler-utils.

    tools/page.py PAGE..                      # refuses what is wrong with a page; the exit status is 1 if there is anything
    tools/page.py --program PROGRAM PAGE..    # and so with pages of the examples and of networks of 36, 60 and 256 exchanges, as the program writes them
    tools/page.py --pictures FOLDER PAGE..    # makes a picture of each page in the folder too

Of each page: its elements are closed in their order, its headings go down one step at a time, its tables have heads and its pictures names, its links lead to what is there,
nothing is fetched, and nothing is on the console. Its verdict has its own colour.
In its pictures no box is over another, no arrow runs through a box, and where the columns are ranks no arrow goes to the left. Its colours have the contrast of
WCAG 2, level AA, in the light and in the dark scheme. It is not wider than a window of 390 points. Printed it shows its closed parts too, no word lies over another or is
smaller than 7 points, no sheet is blank but for a title, and each sheet of a stage has its name, and so each of the work at an exchange. The first sheet of a change has the
whole decision, with the numbers that the other commands tell, and its verdict is green only if nothing is worse and there is an order."""
import collections
import html
import html.parser
import json
import pathlib
import re
import shutil
import subprocess
import sys
import tempfile

VOID = {"meta", "br", "link", "hr", "img", "input"}
CHROMIUM, PDFTOTEXT = shutil.which("chromium"), shutil.which("pdftotext")
TOP = pathlib.Path(__file__).resolve().parent.parent

# What is written on what, with the least contrast: 4.5 for text, 3 for lines and boxes.
CONTRASTS = [(a, b, 4.5) for a in ("ink", "soft", "bad", "first", "second") for b in ("paper", "panel")]
CONTRASTS += [("on", "good", 4.5), ("on", "bad", 4.5), ("on", "second", 4.5)]
CONTRASTS += [(a, "panel", 3) for a in ("later", "good")]

MEASURE = """<pre id="measured"></pre><script>
for (const part of document.querySelectorAll('details')) part.open = true;
const faults = [];
const inside = (p, r) => p.x > r.x + 1 && p.x < r.x + r.width - 1 && p.y > r.y + 1 && p.y < r.y + r.height - 1;
let pictures = 0, boxes = 0, arrows = 0;
for (const svg of document.querySelectorAll('svg[role=group]')) {
  pictures += 1;
  const where = (svg.closest('details') || svg).id;
  const groups = [...svg.querySelectorAll('g:has(rect)')];
  const rects = groups.map(it => it.querySelector('rect').getBBox());
  const names = groups.map(it => it.querySelector('text').textContent);
  boxes += rects.length;
  for (const [i, a] of rects.entries()) for (const [j, b] of rects.entries())
    if (i < j && a.x < b.x + b.width && b.x < a.x + a.width && a.y < b.y + b.height && b.y < a.y + a.height)
      faults.push(`${where}: the boxes of ${names[i]} and ${names[j]} overlap`);
  for (const g of groups) {
    const r = g.querySelector('rect').getBBox(), t = g.querySelector('text').getBBox();
    if (t.width > r.width) faults.push(`${where}: the name ${g.querySelector('text').textContent} is wider than its box`);
  }
  const ranked = [...svg.querySelectorAll('text.r')].some(it => it.textContent.startsWith('rank'));
  for (const path of svg.querySelectorAll('path')) {
    arrows += 1;
    const length = path.getTotalLength();
    let last = path.getPointAtLength(0);
    let turned = false, through = new Set();
    for (let at = 0; at <= length; at += 2) {
      const p = path.getPointAtLength(at);
      if (p.x < last.x - 0.01) turned = true;
      last = p;
      for (const [i, r] of rects.entries()) if (inside(p, r)) through.add(names[i]);
    }
    if (ranked && turned) faults.push(`${where}: an arrow goes to the left: ${path.getAttribute('d')}`);
    for (const name of through) faults.push(`${where}: an arrow runs through the box of ${name}: ${path.getAttribute('d')}`);
  }
}
if (document.documentElement.scrollWidth > document.documentElement.clientWidth) faults.push('the page is wider than the window');
document.getElementById('measured').textContent = JSON.stringify({faults, pictures, boxes, arrows});
</script>"""


# Whether a printer gets what is in the parts that are closed; in place of a picture that is too large it gets a table. The style of print is that of the screen here.
PRINTED = """<pre id="measured"></pre><script>
const faults = [];
for (const part of document.querySelectorAll('details')) {
  part.open = false;
  if (![...part.children].every(it => it.checkVisibility() || it.matches('.b svg'))) faults.push(`${part.id || part.textContent}: closed where it is printed`);
}
document.getElementById('measured').textContent = JSON.stringify({faults});
</script>"""


# Whether a window of 390 points shows the page in the dark colours, and no part of it is wider. Chromium's own windows have 500 points at least.
WINDOW = """<!doctype html><pre id="measured"></pre><iframe width="390" height="1800" style="border:0" srcdoc="{}"></iframe>"""
NARROW = """<script>
const faults = [];
if (document.documentElement.scrollWidth > 390) faults.push('wider than a window of 390 points');
const [r, g, b] = getComputedStyle(document.body).backgroundColor.match(/[0-9]+/g);
if (+r + +g + +b > 150) faults.push('not dark in the dark scheme');
parent.document.getElementById('measured').textContent = JSON.stringify({faults});
</script>"""


class Elements(html.parser.HTMLParser):
    """What is open, and what is wrong with the elements."""

    def __init__(self):
        super().__init__()
        self.open, self.faults, self.heading, self.ids, self.links = [], [], 0, set(), set()
        self.heads = []

    def handle_starttag(self, tag, attributes):
        attributes = dict(attributes)
        if tag in ("script", "iframe", "img", "link", "object", "embed"):
            self.faults.append(f"<{tag}>")
        for name in {"src", "href", "xlink:href", "style"} & attributes.keys():
            if name != "href" or not attributes[name].startswith("#"):
                self.faults.append(f"<{tag} {name}={attributes[name]!r}>")
        if "href" in attributes:
            self.links.add(attributes["href"][1:])
        if "id" in attributes:
            if attributes["id"] in self.ids:
                self.faults.append(f"the id {attributes['id']} twice")
            self.ids.add(attributes["id"])
        if re.fullmatch("h[1-6]", tag):
            if int(tag[1]) > self.heading + 1:
                self.faults.append(f"<{tag}> after <h{self.heading}>")
            self.heading = int(tag[1])
        if tag == "html" and not attributes.get("lang"):
            self.faults.append("no lang")
        if tag == "svg" and not attributes.keys() & {"aria-label", "aria-hidden"}:
            self.faults.append("a picture without a name")
        if tag == "table":
            self.heads.append(False)
        if tag == "th" and attributes.get("scope") == "col":
            self.heads[-1] = True
        if tag not in VOID:
            self.open.append(tag)

    def handle_startendtag(self, tag, attributes):
        pass

    def handle_endtag(self, tag):
        if not self.open or self.open.pop() != tag:
            self.faults.append(f"</{tag}> where it is not open last")
        if tag == "table" and not self.heads.pop():
            self.faults.append("a table without heads")


def luminance(color):
    parts = [int(color[i:i + 2], 16) / 255 for i in (0, 2, 4)] if len(color) == 6 else [int(it * 2, 16) / 255 for it in color]
    parts = [it / 12.92 if it <= 0.03928 else ((it + 0.055) / 1.055) ** 2.4 for it in parts]
    return 0.2126 * parts[0] + 0.7152 * parts[1] + 0.0722 * parts[2]


def contrast_faults(page):
    """Colours of the style sheet that are too close."""
    for scheme, colors in zip(("light", "dark"), re.findall(r":root\{([^}]*)\}", page)):
        known = {name: value for name, value in re.findall(r"--(\w+):#([0-9a-f]+)", colors)}
        for a, b, least in CONTRASTS:
            low, high = sorted((luminance(known[a]), luminance(known[b])))
            contrast = (high + 0.05) / (low + 0.05)
            if contrast < least:
                yield f"{scheme}: the contrast of {a} on {b} is {contrast:.2f}, and not {least}"


def requests(log):
    """The addresses for which a page asks, by the browser's log of the network. What the browser asks for itself has no origin."""
    for event in json.loads(log.read_text())["events"]:
        it = event.get("params", {})
        if it.get("initiator", "not an origin") != "not an origin":
            yield it["url"]


def chromium(*words):
    with tempfile.TemporaryDirectory() as home:
        done = subprocess.run(
            [CHROMIUM, "--headless", "--no-sandbox", "--disable-gpu", "--hide-scrollbars", "--disable-background-networking", "--force-device-scale-factor=1", f"--user-data-dir={home}",
             "--enable-logging=stderr", "--window-size=1150,1800", *words], capture_output=True, text=True, timeout=300)
    return done.stdout, [it for it in done.stderr.splitlines() if "CONSOLE" in it]


def measured(page, folder, script, style=None, window=None):
    """What a script at its end finds of a page, shown in this style too and in this window; None where it did not run."""
    copy = folder / f"measured-{page.name}"
    text = page.read_text().replace("</body>", script + "</body>")
    text = text.replace(style, "@media screen") if style else text
    copy.write_text(window.format(html.escape(text)) if window else text)
    shown, _ = chromium("--dump-dom", "--virtual-time-budget=60000", copy.as_uri())
    found = re.search(r'<pre id="measured">(.*?)</pre>', shown, re.S)
    return json.loads(html.unescape(found.group(1))) if found and found.group(1) else None


def sheets(page, folder):
    """The words on each sheet of a page that is printed: where each begins and ends, across and down, and the word."""
    file, boxes = folder / f"{page.name}.pdf", folder / f"{page.name}.boxes"
    chromium("--no-pdf-header-footer", f"--print-to-pdf={file}", page.resolve().as_uri())
    subprocess.run([PDFTOTEXT, "-bbox", file, boxes], check=True)
    for sheet in re.split("<page ", boxes.read_text())[1:]:
        found = re.findall(r'<word xMin="([^"]*)" yMin="([^"]*)" xMax="([^"]*)" yMax="([^"]*)">(.*?)</word>', sheet)
        yield [(*map(float, it[:4]), html.unescape(it[4])) for it in found]


CREWS = "The work at each exchange".split()


def decision_of(text):
    """The words on the first sheet of a change, from the name down to its first part; none of another page."""
    if '<div class="t d">' not in text:
        return []
    first = text[text.index("<h1>"):text.index("<h2")]
    first = re.sub("</?(?:b|strong|code)>", "", first)
    return html.unescape(re.sub("<[^>]*>", " ", first)).replace("\u202f", " ").split()


def print_faults(page, folder):
    """What is wrong with its sheets. A font of seven points has boxes of eight."""
    printed = list(sheets(page, folder))
    within = crews = False
    decision = decision_of(page.read_text())
    lost = collections.Counter(decision) - collections.Counter(it[4] for it in printed[0])
    if lost:
        yield f"the first sheet lacks {' '.join(lost)!r}"
    for number, words in enumerate(printed, 1):
        texts = [it[4] for it in words]
        if len(texts) < 8 and number < len(printed):
            yield f"sheet {number} is blank but for {' '.join(texts)!r}"
        yield from (f"sheet {number}: {text} is smaller than seven points" for _, top, _, below, text in words if below - top < 8)
        for i, (left, top, right, below, text) in enumerate(words):
            for other in words[i + 1:]:
                wide, high = min(right, other[2]) - max(left, other[0]), min(below, other[3]) - max(top, other[1])
                if wide > 1 and high > 0.4 * (below - top):
                    yield f"sheet {number}: {text} and {other[4]} lie over each other"
        crews = crews and texts[:1] != ["Codes"] or texts[:5] == CREWS
        within = within and texts[:1] not in (["Codes"], ["After"], ["The"]) or "Stage" in texts
        if within and not crews and "Stage" not in texts:
            yield f"sheet {number} is of a stage, and does not have its name"
        if crews and not {"Stage", "Before", "After", "What"} & set(texts):
            yield f"sheet {number} is of the work at an exchange, and does not have its name"
        within, crews = (it and "Codes" not in texts for it in (within, crews))
    print(f"{page.name}: {len(printed)} sheets")


def browser_faults(page, folder):
    """What the browser finds."""
    log = folder / "network.json"
    _, console = chromium("--dump-dom", f"--log-net-log={log}", page.resolve().as_uri())
    yield from (f"it asks for {it}" for it in sorted(set(requests(log))))
    yield from (f"on the console: {it}" for it in console)
    shown, printed = measured(page, folder, MEASURE), measured(page, folder, PRINTED, "@media print")
    narrow = measured(page, folder, NARROW, "@media(prefers-color-scheme:dark)", WINDOW)
    if not shown or not printed or not narrow:
        yield "nothing was measured"
        return
    yield from shown["faults"] + printed["faults"] + narrow["faults"]
    if PDFTOTEXT:
        yield from print_faults(page, folder)
    print(f"{page.name}: {page.stat().st_size} bytes, {shown['pictures']} pictures with {shown['boxes']} boxes and {shown['arrows']} arrows")


def faults_of(page, folder):
    text = page.read_text()
    elements = Elements()
    elements.feed(text)
    yield from elements.faults
    yield from (f"<{it}> is not closed" for it in elements.open)
    yield from (f"a link leads to {it}, which is not there" for it in sorted(elements.links - elements.ids))
    yield from (f"it fetches: {it}" for it in re.findall(r"@import[^;]*|url\([^#)][^)]*\)|https?:[^\"' ]*", text))
    if not re.search(r'<p class="v (yes|but)"><strong>YES<|<p class="v no"><strong>NO<', text):
        yield "the colour of the verdict is that of the other one"
    doubtful = bool(decision_of(text)) and (">worse<" in text or "no safe order" in text)
    if '<strong>YES<' in text and doubtful != ('<p class="v but">' in text):
        yield "the verdict is green and something is worse, or it is not and nothing is"
    yield from contrast_faults(text)
    yield from browser_faults(page, folder)


def network(layers, codes):
    """The plan of a network of the benchmark, and one in which each list begins with its second group."""
    sys.path.insert(0, str(TOP / "bench"))
    from inputs import Network
    made = Network(7, layers, codes, codes, layers * 64, 7)
    for _ in range(2):
        yield "\n".join(made.plan()) + "\n"
        made.lists = {it: [*groups[1:], *groups[:1]] for it, groups in made.lists.items()}


def pages_made(program, folder):
    """Pages of the examples and of changes of three networks, as a program writes them."""
    asked = [("national", "--limit 2 --spare 1 --all-codes --risks examples/national.risks"), ("national-loop", "--limit 2 --spare 1"), ("national-short", "--limit 2 --spare 1"),
             ("national-long", "--limit 2 --spare 1"), ("national-ambiguous", "--limit 2 --spare 1"), ("gateway-loop", "--limit 1 --spare 0"),
             ("three-barred-mended", "--limit 1 --spare 1 --from examples/three.plan"), ("three-opened", "--limit 1 --spare 0 --from examples/three.plan --by-exchange"),
             ("national-loop-mended", "--limit 2 --spare 1 --from examples/national-loop.plan")]
    plans = [(name, f"examples/{name}.plan", options) for name, options in asked]
    for name, layers, codes in (("exchanges-36", 9, 12), ("exchanges-60", 15, 12), ("exchanges-256", 64, 4)):
        old, new = folder / f"{name}.old", folder / f"{name}.plan"
        for file, text in zip((old, new), network(layers, codes)):
            file.write_text(text)
        plans.append((name, new, f"--limit 40 --spare 3 --from {old}" + (" --by-exchange" if layers == 9 else "")))
    for name, plan, options in plans:
        page = folder / f"{name}.html"
        page.write_bytes(told(program, "page", plan, *options.split()))
        yield page, (plan, options.split())


def told(program, *words):
    """What the program prints."""
    return subprocess.run([pathlib.Path(program).resolve(), *words], cwd=TOP, capture_output=True).stdout


def sheet_of(program, new, options):
    """The rows of the first sheet of a change that other commands tell, as they tell them."""
    given = dict(zip(options, options[1:]))
    old, numbers = given["--from"], ["--limit", given["--limit"], "--spare", given["--spare"]]
    risks = ["--risks", given["--risks"]] if "--risks" in given else []
    rows = {}
    for plan in (old, new):
        grade = re.match(r"GRADE LIMIT (\d+) SPARE (\d+)", told(program, "grade", plan).decode())
        cuts = re.findall(r"(?m)^(?:RISK|GROUP|EXCHANGE) \S+ CUT (\d+) STRAY (\d+)$", told(program, "survive", plan, *risks).decode())
        for i, label in enumerate(("Least transit limit", "Greatest spare number")):
            rows.setdefault(label, []).append(grade[i + 1] if grade else "none")
        for i, label in enumerate(("Outages that cut somebody off", "Outages that lead somebody astray")):
            rows.setdefault(label, []).append(str(sum(it[i] != "0" for it in cuts)) if grade else "none")
    both = "none" not in rows["Least transit limit"]
    compared = told(program, "survive", new, "--from", old, *risks).decode()
    rows["Outages after which somebody is worse off"] = [str(len(re.findall("(?m)^WORSE [^G]|^WORSE GROUP", compared))) if both else "none"]
    order = told(program, "order", old, new, *numbers).decode()
    lists = re.search(r"(?m)^LISTS \d+ NEW (\d+) CHANGED \d+ GONE (\d+)$", order)
    stages = re.split(r"(?m)^STAGE \d+\n", order.partition("\nAFTER\n")[0])[1:]
    if "VERDICT YES" in order:
        switched = ", ".join(str(len(re.findall("(?m)^(?:ROUTE|NEW ROUTE|DROP) ", it))) for it in stages)
        rows.update({"Stages of the change": [str(len(stages))], "Lists to install before": [lists[1]], "Lists to switch, stage by stage": [switched], "Lists to take away after": [lists[2]]})
    else:
        rows["Stages of the change"] = ["no safe order"]
    return rows


def sheet_faults(program, page, asked):
    """Where the first sheet of a change has other numbers than the commands."""
    plan, options = asked
    if "--from" not in options:
        return
    for label, wanted in sheet_of(program, plan, options).items():
        row = re.search(f'<th scope="row">{label}</th>(.*?)</tr>', page.read_text())
        shown = [re.sub("<[^>]*>", "", it).replace("\u202f", "") for it in re.findall("<td[^>]*>(.*?)</td>", row[1])] if row else []
        if [it for it in shown if it not in ("", "same", "better", "worse")] != [it for it in wanted if it]:
            yield f"{label}: the sheet has {shown}, and the commands {wanted}"


def main(words):
    options = {}
    while words[:1] and words[0] in ("--pictures", "--program"):
        options[words[0]], words = words[1], words[2:]
    if not words and "--program" not in options:
        sys.exit(__doc__)
    if CHROMIUM is None:
        print("tools/page.py: chromium is not here, so no page was looked at")
        return 0
    if PDFTOTEXT is None:
        print("tools/page.py: pdftotext is not here, so no page was printed")
    wrong = count = 0
    with tempfile.TemporaryDirectory() as folder:
        made = pages_made(options["--program"], pathlib.Path(folder)) if "--program" in options else []
        for page, asked in [*((pathlib.Path(it), None) for it in words), *made]:
            count += 1
            for fault in sheet_faults(options["--program"], page, asked) if asked else ():
                wrong += 1
                print(f"{page.name}: {fault}")
            if page.stem.startswith("national") and page.stat().st_size > 45000:
                wrong += 1
                print(f"{page.name}: more than 45,000 bytes")
            for fault in faults_of(page, pathlib.Path(folder)):
                wrong += 1
                print(f"{page.name}: {fault}")
            if "--pictures" in options:
                chromium(f"--screenshot={pathlib.Path(options['--pictures']).resolve() / (page.stem + '.png')}", page.resolve().as_uri())
    print(f"{count} pages, {wrong} faults")
    return 1 if wrong else 0


if __name__ == "__main__":
    sys.exit(main(sys.argv[1:]))

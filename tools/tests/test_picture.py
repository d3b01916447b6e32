"""`--picture`: the page in headless Chromium, where there is one; the drawing; the text for Graphviz; long logs."""
import pathlib
import re
import shutil
import subprocess
import tempfile
import xml.etree.ElementTree

from tests.helpers import COUNTING, TOP, Failures, Pretended, counting_log, tool, words_of

BROWSERS = ("chromium", "chromium-browser", "google-chrome")
SECONDS = 120
POINT = "<script>document.getElementById('%s').querySelector('text').dispatchEvent(new MouseEvent('mouseover', {bubbles: true}));</script>"
# What each picture has to have: the example, and the arrows by kind as (first event, last event).
ARROWS = {
    "stores_cross_between_threads": {"thread": [(1, 2)], "stack": [(0, 2)]},
    "passes_a_message_between_threads": {"from": [(4, 8), (5, 7)], "sync": [(5, 7)]},
    "waits_for_a_wake": {"wake": [(7, 8)], "from": [(5, 10), (6, 9)]},
    "swaps_with_a_generator": {"stack": [(0, 2), (1, 4), (3, 6), (5, 8), (7, 10), (9, 12), (11, 14), (13, 15)]},
}


def browser():
    """The program of a browser, or None."""
    return next((path for path in map(shutil.which, BROWSERS) if path), None)


def elements(program, page, fragment=""):
    """The page as the browser has it after its script ran."""
    with tempfile.TemporaryDirectory() as profile:
        done = subprocess.run([program, "--headless", "--no-sandbox", "--disable-gpu", f"--user-data-dir={profile}", "--virtual-time-budget=2000",
                               "--dump-dom", f"file://{page}{fragment}"], capture_output=True, text=True, timeout=SECONDS, check=False)
    return done.stdout


def arrows_of(text, kind):
    """The arrows of a kind, as pairs of numbers of events: their titles say them."""
    titles = re.findall(rf'<path class="arrow {kind}"[^>]*><title>[^:<]*: (\w+) to (\w+)</title>', text)
    return sorted((int(first), int(last)) for first, last in titles if first.isdigit() and last.isdigit())


def details_of(text):
    """What the page says of the event that is pointed at."""
    return re.search(r'<p id="details"[^>]*>(.*?)</p>', text, re.S)[1]


def small_pages(program, chromium, folder):
    """The pages of examples, in the browser."""
    failures = Failures()
    for name, kinds in ARROWS.items():
        page = folder / f"{name}.html"
        _, said, status = tool(program, "--picture", page, *words_of(name))
        failures.check(status == 0 and not said, f"--picture {name}: {status} {said}")
        text = elements(chromium, page)
        for kind, wanted in kinds.items():
            failures.check(set(wanted) <= set(arrows_of(text, kind)), f"--picture {name}: arrows {kind}: {arrows_of(text, kind)}")
        failures.check("http:" not in text.replace("http://www.w3.org/2000/svg", "") and "https:" not in text, f"{name}: the page names a network")
    return failures


def pointing(program, chromium, folder):
    """Pointing at an event says its source line and what it could have read, and marks its arrows; so does a link to it."""
    failures = Failures()
    page = folder / "pointing.html"
    tool(program, "--picture", page, *words_of("stores_cross_between_threads"))
    page.write_text(page.read_text() + POINT % "e5")
    said = details_of(elements(chromium, page))
    failures.check("18: %n = LOAD RELAXED" in said, f"pointing at event 5 does not say its line: {said}")
    failures.check("could have read 1 (position 1)" in said, f"pointing at event 5 does not say the other value: {said}")
    tool(program, "--picture", page, *words_of("passes_a_message_between_threads"))
    text = elements(chromium, page, "#e7")
    failures.check("could have read 0 (position 0)" in details_of(text), f"a link to event 7: {details_of(text)}")
    own = re.findall(r'<path class="arrow (\w+) own"', text)
    failures.check(sorted(own) == ["from", "sync"], f"a link to event 7 marks {own}")
    text = elements(chromium, page, "#e8")
    failures.check("no other value could have been read" in details_of(text), f"a link to event 8: {details_of(text)}")
    return failures


def race(program, chromium, folder):
    """The race: two red rows and the arrow between them."""
    failures = Failures()
    page = folder / "race.html"
    _, _, status = tool(program, "--picture", page, *words_of("races_on_a_cell"))
    text = elements(chromium, page)
    rows = re.findall(r'<g class="event ([^"]*)" id="(\w+)"', text)
    failures.check(status == 6, f"--picture of a race: status {status}")
    failures.check([name for kinds, name in rows if "race" in kinds.split()] == ["e4", "row6"], f"--picture of a race: {rows}")
    failures.check(text.count('<path class="arrow race"') == 1, "--picture of a race: no arrow")
    return failures


def long_log(chromium):
    """A log of 10,000 events: the page is folded, and a link opens the part of its event."""
    failures = Failures()
    pretended = Pretended(counting_log(2500))
    bundle, page = pretended.path("bundle.mu"), pretended.path("page.html")
    bundle.write_text(COUNTING)
    tool(str(pretended.program), "--picture", page, "run", bundle, "--entry", "@main")
    text = elements(chromium, page)
    parts = re.findall(r'<details class="part"( open="")?>', text)
    failures.check(len(parts) == 51 and sum(map(bool, parts)) == 2, f"of 51 parts {sum(map(bool, parts))} of {len(parts)} are open")
    failures.check(len(re.findall(r'<g class="event ', text)) == 10004, "a line has no row")
    text = elements(chromium, page, "#e5003")
    opened = [index for index, part in enumerate(re.findall(r'<details class="part"( open="")?>', text)) if part]
    failures.check(opened == [0, 25, 50], f"a link to event 5003 opens {opened}")
    failures.check("update ACQ_REL @count 2501 2501" in details_of(text) and "7: %n = ATOMICRMW" in details_of(text), f"event 5003: {details_of(text)}")
    return failures


def drawings(program, folder):
    """The drawing is well-formed XML with a row for each line, also of a long log, which it cuts; the text for Graphviz names its nodes."""
    failures = Failures()
    svg, dot = folder / "picture.svg", folder / "picture.dot"
    tool(program, "--picture", svg, *words_of("waits_for_a_wake"))
    rows = [it for it in xml.etree.ElementTree.parse(svg).getroot().iter() if (it.get("class") or "").startswith("event ")]
    failures.check(len(rows) == 14, f"the drawing has {len(rows)} rows for 14 lines")
    tool(program, "--picture", dot, *words_of("waits_for_a_wake"))
    text = dot.read_text()
    nodes, edges = set(re.findall(r"^\s+(r\d+) \[label", text, re.M)), re.findall(r"^  (r\d+) -> (r\d+) \[label", text, re.M)
    failures.check(len(nodes) == 14 and len(edges) == 6, f"{len(nodes)} nodes and {len(edges)} edges")
    failures.check(all(first in nodes and last in nodes for first, last in edges), "an edge has no node")
    failures.check(text.count("{") == text.count("}"), "the braces do not match")
    pretended = Pretended(counting_log(2500))
    bundle = pretended.path("bundle.mu")
    bundle.write_text(COUNTING)
    tool(str(pretended.program), "--picture", svg, "run", bundle, "--entry", "@main")
    failures.check("9704 lines are not drawn" in svg.read_text(), "the drawing of a long log does not say what it leaves out")
    _, said, status = tool(program, "--picture", folder / "picture.png", *words_of("waits_for_a_wake"))
    failures.check(status == 1 and ".html, .svg or .dot" in said, f"--picture of a name that it does not know: {status} {said}")
    return failures


def documents(program, folder):
    """The pictures of docs/pictures are those that the commands beside them make."""
    failures = Failures()
    pictures = TOP / "docs" / "pictures"
    commands = re.findall(r"^    \./mu --picture (\S+) (.*)$", (pictures / "README.md").read_text(), re.M)
    made = folder / "made.svg"
    for name, words in commands:
        tool(program, "--picture", made, *words.split(), folder=TOP)
        failures.check((TOP / name).read_text() == made.read_text(), f"{name} is not what its command makes")
    drawn = {f"docs/pictures/{it.name}" for it in pictures.glob("*.svg")}
    failures.check(drawn == {name for name, _ in commands} and len(drawn) == 5, f"docs/pictures has {drawn} and commands for {commands}")
    return failures


def main(program):
    """The failures."""
    with tempfile.TemporaryDirectory() as room:
        folder = pathlib.Path(room)
        failures = drawings(program, folder) + documents(program, folder)
        chromium = browser()
        if chromium is None:
            print(f"pictures: the pages are not tested: none of {' '.join(BROWSERS)} is installed")
            return failures
        return (failures + small_pages(program, chromium, folder) + pointing(program, chromium, folder) + race(program, chromium, folder)
                + long_log(chromium))

#!/usr/bin/env python3
"""The page of `tools/view` in Chromium without a window, at three widths, light and dark.

The page checks itself where its address ends with #check (tools/viewing/web/check.js): it counts what it draws, and
reads from the pixels of its picture where ten jobs begin and end. Here these figures are held against the trace.
"""
import html
import json
import os
import re
import shutil
import subprocess
import sys
import tempfile
from concurrent.futures import ThreadPoolExecutor

TOOLS = os.path.dirname(os.path.dirname(os.path.abspath(__file__)))
DATA = os.path.join(TOOLS, "tests", "view")
BROWSERS = ("chromium", "chromium-browser", "google-chrome", "google-chrome-stable")
VIEWS = [("station", 520, False), ("burst", 520, True), ("burst", 1024, False), ("station", 1024, True),
         ("station", 1920, False), ("burst", 1920, True)]
PAPER = {False: "rgb(255, 255, 255)", True: "rgb(20, 23, 27)"}
sys.dont_write_bytecode = True
sys.path[:0] = [TOOLS, DATA]

from traces import merged_in, sections_of, spans_of_jobs, task_at
from viewing.command import main

faults = []


def expect(what, is_right):
    """Notes a fault."""
    if not is_right:
        faults.append(what)


def items_of(name):
    """The items of an output: step and words; and how many lines come before them."""
    with open(os.path.join(DATA, name + ".run"), encoding="ascii") as file:
        lines = file.read().split("\n")
    first = lines.index("trace") + 1
    last = next(at for at in range(first, len(lines)) if lines[at].startswith("total "))
    return [(int(line.split(" ")[0]), line.split(" ")[1:]) for line in lines[first:last]], lines


def compare_depths(view, items, depths):
    """The stack that is drawn just after a take is the depth of its item, to a pixel."""
    taken = {step: int(words[2]) for step, words in items if words[0] == "take"}
    at_takes = [each for each in depths if each["step"] in taken]
    expect(f"{view}: depths {depths}", len(depths) >= 5 and at_takes)
    for each in at_takes:
        off = abs(each["bytes"] - taken[each["step"]])
        expect(f"{view}: {each}, not {taken[each['step']]}", off <= 1.6 * each["pixel"])


def figures(browser, folder, name, width, is_dark):
    """The figures that the page writes, and what is on its console."""
    own = tempfile.mkdtemp(dir=folder)
    words = [browser, "--headless=new", "--disable-gpu", "--hide-scrollbars", "--no-first-run",
             f"--user-data-dir={own}", "--enable-logging=stderr", f"--window-size={width},1000",
             f"--blink-settings=preferredColorScheme={0 if is_dark else 1}",
             *(["--no-sandbox"] if os.geteuid() == 0 else []),
             "--dump-dom", f"file://{folder}/{name}.html#check"]
    ended = subprocess.run(words, capture_output=True, check=False, timeout=120)
    console = [line for line in ended.stderr.decode("utf-8", "replace").split("\n") if "CONSOLE" in line]
    found = re.search(r'<pre id="checked">(.*?)</pre>', ended.stdout.decode("utf-8", "replace"), re.S)
    return json.loads(html.unescape(found[1])) if found else None, console


def compare(name, width, is_dark, found, console):
    """The figures of one view against the trace."""
    view = f"{name}, {width} wide, {'dark' if is_dark else 'light'}"
    expect(f"{view}: on the console {console[:2]}", console == [])
    if found is None:
        expect(f"{view}: no figures", False)
        return
    items, lines = items_of(name)
    text = [(step, " ".join(words)) for step, words in items]
    jobs = spans_of_jobs(text)
    expect(f"{view}: faults {found['faults']}", found["faults"] == [])
    expect(f"{view}: as wide as it is, {found['width']}", found["fits"] and found["width"] == width)
    expect(f"{view}: paper {found['paper']}", found["paper"] == PAPER[is_dark])
    expect(f"{view}: {found['items']} items", found["items"] == len(items))
    for interrupt in {job[0] for job in jobs}:
        count = sum(job[0] == interrupt for job in jobs)
        expect(f"{view}: {count} jobs of {interrupt}", found["counts"]["jobs"].get(interrupt) == count)
    ten = {(job["interrupt"], job["begin"], job["end"]) for job in found["ten"]}
    expect(f"{view}: ten jobs {ten}", ten <= set(jobs) and len(ten) == min(10, len(jobs)))
    drawn = {(each["name"], each["begin"], each["end"]) for each in found["sections"]}
    expect(f"{view}: ten sections {drawn}", drawn <= sections_of(text) and len(drawn) == 10)
    compare_depths(view, items, found["depths"])
    marks = sum(words[0] in ("pend", "emit", "full", "cancel", "move") for _, words in items)
    expect(f"{view}: {marks} marks, not {found['counts']['marks']}", found["counts"]["marks"] == marks)
    inputs = sum(words[0] == "input" for _, words in items)
    expect(f"{view}: {inputs} inputs, not {found['counts']['inputs']}", found["counts"]["inputs"] == inputs)
    starts = sum(words[0] in ("start", "fire") for _, words in items)
    expect(f"{view}: arrows {found['counts']['arrows']}", found["counts"]["arrows"] == starts)
    expect(f"{view}: what has no effect: {found['hands']}", len(found["hands"]) == 13 and all(found["hands"].values()))
    compare_signs(view, found, text, lines)
    compare_lines(view, found, items, lines)


def compare_signs(view, found, text, lines):
    """A merged request has its own sign, the legend names what the run has, and the load stands beside the names."""
    merged = [step for step, word, _ in merged_in(text) if word == "pend"]
    signs = found["signs"]
    pends = sum(what.startswith("pend ") for _, what in text)
    expect(f"{view}: {signs}", (signs["arrived"], signs["merged"]) == (pends - len(merged), len(merged)))
    expect(f"{view}: {signs} red", signs["red"] == signs["looked"] and signs["redArrived"] == 0)
    for words, is_there in (("full: no place for a message", any(what.startswith("full ") for _, what in text)),
                            ("request that is merged", bool(merged)), ("pending", True), ("emit", True)):
        said = any(entry.endswith(words) for entry in found["legend"])
        expect(f"{view}: the legend says {words}: {found['legend']}", said == is_there)
    total = int(next(line for line in reversed(lines) if line.startswith("total ")).split()[1])
    busy = sum(runner == "UART0" for runner in task_at(text, total))
    expect(f"{view}: the load of UART0", f"{100 * busy / total:.1f} %" in found["names"])


def compare_lines(view, found, items, lines):
    """A click shows the line of an item at its step, and the words of the last item are found."""
    for click in found["clicks"]:
        said = re.fullmatch(r"Line (\d+), item (\d+) of \d+: (.*)", click["said"])
        expect(f"{view}: a click says {click}", said is not None and lines[int(said[1]) - 1] == said[3]
               and items[int(said[2]) - 1][0] == click["step"])
    last = found["last"]
    expect(f"{view}: finds {last}", last["said"].endswith(lines[lines.index("trace") + len(items)]))


def check():
    """All views, some at a time."""
    browser = next(filter(None, map(shutil.which, BROWSERS)), None)
    if browser is None:
        print("view_page: skipped: chromium is not there")
        return
    with tempfile.TemporaryDirectory() as folder:
        for name in {view[0] for view in VIEWS}:
            files = (os.path.join(DATA, name + ending) for ending in (".run", ".check"))
            expect(f"{name} is made", main([*files, "--html", os.path.join(folder, name + ".html")]) == 0)
        with ThreadPoolExecutor(max_workers=3) as pool:
            found = list(pool.map(lambda view: figures(browser, folder, *view), VIEWS))
    for view, (each, console) in zip(VIEWS, found):
        compare(*view, each, console)
    times = [each["times"]["longest"] for each, _ in found if each is not None]
    print(f"view_page: {len(VIEWS)} views, the longest redraw {max(times, default=0):.1f} ms by the page's clock")


check()
for fault in faults[:20]:
    print("view_page: wrong:", fault)
print("view_page:", "wrong" if faults else "as expected")
sys.exit(1 if faults else 0)

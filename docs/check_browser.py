#!/usr/bin/env python3
"""Opens the page of each sample in Chromium and compares what it shows with what am32wave says otherwise.

    check_browser.py WRITER EXAMPLES FOLDER

WRITER is the program am32wave. Each wire of each page has to change where the VCD's does, each note has to have the words of
--explain; then mouse, wheel, fingers and keys are tried. Screenshots are left in FOLDER, for eyes."""
import glob
import os
import re
import subprocess
import sys
import time

sys.path.insert(0, os.path.dirname(os.path.abspath(__file__)))
from browser import Browser

WRITER, EXAMPLES, FOLDER = sys.argv[1:]
STRETCH = ["--from", "12154500t", "--to", "12165700t"]  # of spin_up: from before a zero crossing until after a sector change


def written(journal, *options):
    with open(journal) as source:
        return subprocess.run([WRITER, *options], stdin=source, capture_output=True, check=True).stdout.decode()


def vcd_changes(dump):
    """Of each wire of a dump its ticks and values; of several at the first tick the last one."""
    names, found, tick = {}, {}, 0
    for line in dump.split("\n"):
        if line.startswith("$var"):
            name = line.split()[4]
            names[line.split()[3]], found[name] = name, []
        elif line.startswith("#"):
            tick = (3 * int(line[1:]) + 2) // 62500
        elif line.startswith(("b", "0", "1")):
            value, wire = line[1:].split() if line[0] == "b" else (line[0], line[1:])
            changes = found[names[wire]]
            if len(changes) == 1 and changes[0][0] == tick and "--from" in dump_options:
                changes.clear()
            changes.append([tick, int(value, 2)])
    return found


dump_options = []


class Checks:
    def __init__(self):
        self.browser = Browser()
        self.wires = self.changes = self.sentences = self.hands = self.failed = 0

    def expect(self, name, is_so, *seen):
        if not is_so:
            self.failed += 1
            print("FAILED", name, *seen)

    def sample(self, journal, options):
        global dump_options
        name, page = os.path.basename(journal)[:-8], os.path.join(FOLDER, "page.html")
        open(page, "w").write(written(journal, "--html", *options))
        self.browser.open(page)
        code = "Object.fromEntries(WIRES.map(w => [w.name, Array.from({ length: w.count }, (_, i) => [w.ticks[i], w.values[i]])]))"
        shown, dump_options = self.browser.js(code), options
        for wire, changes in vcd_changes(written(journal, *options)).items():
            self.expect("%s: %s" % (name, wire), shown[wire] == changes, shown[wire][:4], changes[:4])
            self.wires += 1
            self.changes += len(changes)
        self.expect(name + ": no error and no request", not self.browser.faults(), self.browser.faults())

    def words(self, journal):
        code = """Array.from({ length: count }, (_, i) => i).filter(i => letterOf(i) < "a").map(i => microseconds(ticks[i]) + "  " + words(i))"""
        said = [line.replace("\u00a0", " ").replace("\u202f", "") for line in self.browser.js(code)]
        told = [re.sub(r"^(\S+ us)\s+", r"\1  ", line) for line in written(journal, "--explain").split("\n")]
        self.expect(os.path.basename(journal) + ": words", said == told[:len(said)])
        self.sentences += len(said)

    def all_samples(self):
        for journal in sorted(glob.glob(EXAMPLES + "/*.journal")):
            if os.path.exists(journal[:-8] + ".error"):
                continue  # its trace is refused
            self.sample(journal, ["--trace", journal[:-8] + ".trace"])
            self.words(journal)
        spin_up = EXAMPLES + "/spin_up"
        self.sample(spin_up + ".journal", ["--trace", spin_up + ".trace", *STRETCH])
        self.sample(spin_up + ".journal", [])

    # ---- the hands, on the page of spin_up

    def state(self):
        self.browser.frame()
        return self.browser.js("""({ left, scale, cursor, m1: marks[0], m2: marks[1], width, shown: shown.length,
            time: byId("time").textContent, between: byId("between").textContent, said: byId("said").textContent,
            now: [...document.querySelectorAll("#notes .now span")].map(x => x.textContent) })""")

    def does(self, name, is_so, *seen):
        self.hands += 1
        self.expect(name, is_so, *seen)

    def pointer(self):
        browser = self.browser
        box = browser.js("(r => [r.left, r.top])(wave.getBoundingClientRect())")
        row = lambda name: box[1] + browser.js('(w => w.y + w.height / 2)(shown.find(w => w.name === "%s"))' % name)
        at = lambda tick: box[0] + browser.js("X(%d)" % tick)
        start = self.state()
        self.does("opens at the first sector", start["cursor"] == 12043220 and start["now"] == ["sector 1"], start)
        browser.mouse("mouseMoved", at(12043222) + 4, row("low_b"))
        seen = self.state()
        self.does("snaps to a change", seen["cursor"] == 12043222 and seen["now"] == ["gates: high none, low B"], seen)
        browser.click(at(12043222) + 3, row("low_b"))
        browser.click(at(12044010) - 1, row("high_a"), modifiers=8)
        seen = self.state()
        self.does("two markers", (seen["m1"], seen["m2"]) == (12043222, 12044010), seen)
        self.does("their distance", "16.417" in seen["between"] and "788 ticks" in seen["between"], seen)
        browser.mouse("mousePressed", box[0] + 600, box[1] + 30, button="left", clickCount=1)
        for step in range(1, 11):
            browser.mouse("mouseMoved", box[0] + 600 - 20 * step, box[1] + 30, button="left", buttons=1)
        browser.mouse("mouseReleased", box[0] + 400, box[1] + 30, button="left", clickCount=1)
        dragged = self.state()
        self.does("a drag moves the picture", abs((dragged["left"] - seen["left"]) * seen["scale"] - 200) < 0.5, dragged)
        self.does("and sets no marker", (dragged["m1"], dragged["m2"]) == (seen["m1"], seen["m2"]))
        tick = dragged["left"] + 500 / dragged["scale"]
        browser.mouse("mouseWheel", box[0] + 500, box[1] + 40, deltaX=0, deltaY=-240)
        time.sleep(0.2)
        zoomed = self.state()
        still = abs(zoomed["left"] + 500 / zoomed["scale"] - tick) < 0.1
        self.does("the wheel zooms about the pointer", zoomed["scale"] > 1.3 * dragged["scale"] and still, zoomed)
        browser.mouse("mouseWheel", box[0] + 500, box[1] + 40, deltaX=100, deltaY=0)
        time.sleep(0.2)
        seen = self.state()
        self.does("the wheel across moves", abs((seen["left"] - zoomed["left"]) * zoomed["scale"] - 100) < 0.5, seen)
        self.fingers(box)

    def fingers(self, box):
        def touch(kind, *places):
            points = [{"x": box[0] + x, "y": box[1] + 60, "id": i} for i, x in enumerate(places)]
            self.browser.call("Input.dispatchTouchEvent", type=kind, touchPoints=points)
            self.browser.frame()

        self.browser.js("look(12140000, 0.05)")
        before = self.state()
        touch("touchStart", 300, 500)
        for step in range(1, 11):
            touch("touchMove", 300 - 10 * step, 500 + 10 * step)
        touch("touchEnd")
        after = self.state()
        self.does("two fingers zoom", abs(after["scale"] / before["scale"] - 2) < 0.01, after)

    def keys(self):
        def after(key, **params):
            self.browser.key(key, **params)
            return self.state()

        seen = after("Escape")
        self.does("Esc clears the markers", seen["m1"] is None and seen["m2"] is None)
        self.browser.js("point(12043220, true)")
        self.does("s: the next sector", after("s")["now"][0].startswith("sector 2"))
        seen = after("S", modifiers=8)
        self.does("S: the one before", seen["now"][0] == "sector 1")
        self.does("a screen reader says it", "sector 1" in seen["said"] and "microseconds" in seen["said"], seen["said"])
        self.does(".: the next note", after(".")["cursor"] == 12043222)
        self.does(",: the note before", after(",")["cursor"] == 12043220)
        after("1")
        after("z")
        seen = after("2")
        self.does("z: the next crossing", seen["now"][0] == "zero crossing" and seen["m1"] == 12043220 and seen["m2"] == seen["cursor"])
        seen = after("V", modifiers=8)
        self.does("V: the verdict before", re.search("frame|detected", seen["now"][0]), seen["now"])
        self.does("A: the arming before", "armed" in after("A", modifiers=8)["now"])
        self.does("x: no loss", after("x")["time"].startswith("no loss"))
        before = self.state()
        self.does("+ zooms in", abs(after("+")["scale"] / before["scale"] - 1.5) < 1e-6)
        self.does("- zooms out", abs(after("-")["scale"] / before["scale"] - 1) < 1e-6)
        seen = after("0")
        self.does("0: the whole run", abs(seen["scale"] * self.browser.js("end - from") / seen["width"] - 0.98) < 1e-6)
        self.does("w: all wires", after("w")["shown"] == self.browser.js("rows.length"))
        after("w")
        paper = "getComputedStyle(document.body).backgroundColor"
        light = self.browser.js(paper)
        after("d")
        self.does("d: dark", self.browser.js(paper) != light)
        after("d")
        self.does("d: light again", self.browser.js(paper) == light)
        self.browser.js('document.querySelector("#notes li:last-child span").click()')
        self.does("a click on a note goes there", len(self.state()["now"]) >= 1)
        self.browser.js('byId("what").value = "gates"; document.querySelector("button[data-key=n]").click()')
        self.does("a button: the next gates", any(line.startswith("gates") for line in self.state()["now"]))

    def cut_off(self, page):
        """A page that ends anywhere in its data is drawn as far as its whole lines go."""
        whole = open(page).read()
        data = whole.index('id="data"')
        open(page, "w").write(whole[:data + (len(whole) - data) // 2])
        self.browser.open(page)
        self.does("a page that was cut off is drawn", self.browser.js("count") > 100 and not self.browser.faults())

    def all_hands(self):
        spin_up, page = EXAMPLES + "/spin_up", os.path.join(FOLDER, "spin_up.html")
        open(page, "w").write(written(spin_up + ".journal", "--html", "--trace", spin_up + ".trace"))
        self.browser.open(page)
        self.pointer()
        self.keys()
        self.does("no error and no request", not self.browser.faults(), self.browser.faults())
        self.screenshots(page)
        self.cut_off(page)

    def screenshots(self, page):
        for theme in ("light", "dark"):
            self.browser.theme(theme)
            for width in (1280, 400):
                self.browser.size(width, 900, mobile=width < 500)
                self.browser.open(page)
                self.browser.screenshot(os.path.join(FOLDER, "spin_up_%d_%s.png" % (width, theme)))
                wide = self.browser.js("document.documentElement.scrollWidth")
                self.does("no wider than the screen at %d" % width, wide <= width, wide)


checks = Checks()
checks.all_samples()
checks.all_hands()
checks.browser.close()
print("wires %d, changes %d, sentences %d, hands %d, failed %d" % (checks.wires, checks.changes, checks.sentences, checks.hands, checks.failed))
sys.exit(checks.failed > 0)

"""The checks of test.sh, in the folder where it made the pages: what they show, how they are pressed and typed into, and what 20,000 records
take. What is expected is worked out here from the files, not by the page."""

import hashlib
import html
import re
import sys

from drive import Browser

WIDTHS = [375, 1280]
PAGE = 200
HEADS = ["No", "Call", "Date", "Time", "Band", "Mode", "Fate", "Reason"]
passed = failed = 0


def check(what, good, found=""):
    global passed, failed
    if good:
        passed += 1
    else:
        failed += 1
        print(f"browser: {what} failed{f': {found}' if found != '' else ''}", flush=True)


def same(what, found, wanted):
    shortened = lambda value: text if len(text := repr(value)) < 300 else text[:300] + "…"
    check(what, found == wanted, f"{shortened(found)} and not {shortened(wanted)}")


def read(path):
    with open(path, encoding="utf-8") as file:
        return file.read()


def rows_of(path, table="records"):
    """The rows of a table as they stand in the file."""
    inside = read(path).split(f'<table id="{table}"')[1].split("</table>")[0]
    lines = [line for line in inside.split("\n") if line.startswith("<tr class=")]
    return [[html.unescape(cell) for cell in re.findall(r"<t[dh][^>]*>(.*?)</t[dh]>", line)] for line in lines]


# ---- what the page tells

STATE = """(() => {
    const table = document.getElementById('records');
    return {
        rows: Array.from(table.tBodies[0].rows, row => Array.from(row.cells, cell => cell.textContent)),
        status: document.querySelector('[role=status]').textContent,
        sorted: Array.from(table.tHead.rows[0].cells, head => head.getAttribute('aria-sort')),
        range: document.querySelector('.pages').hidden ? '' : document.querySelector('.pages span').textContent,
        pressed: Object.fromEntries(Array.from(document.querySelectorAll('#bar button'), part => [part.textContent, part.ariaPressed])),
    };
})()"""

ROWS = "Array.from(document.querySelectorAll('#records tbody tr'), row => Array.from(row.cells, cell => cell.textContent))"

# elements that reach out of the window, cells whose text does not fit, calls and fates on two lines or not to be seen
CUT = """(() => {
    const told = [], wide = document.documentElement.clientWidth;
    if (document.documentElement.scrollWidth > innerWidth) told.push(`the page is ${document.documentElement.scrollWidth} wide`);
    const name = element => `${element.localName} ${element.textContent.trim().slice(0, 20)}`;
    for (const element of document.body.querySelectorAll('*')) {
        const { left, right } = element.getBoundingClientRect();
        if (right > wide + 0.5 || left < -0.5) told.push(`${name(element)} ${left} to ${right}`);
        if (element.localName !== 'caption' && element.scrollWidth > element.clientWidth + 1 && getComputedStyle(element).display !== 'inline')
            told.push(`${name(element)} is cut off`);
    }
    const lines = element => {
        const range = document.createRange();
        range.selectNodeContents(element);
        return new Set(Array.from(range.getClientRects(), part => Math.round(part.top))).size;
    };
    for (const row of document.querySelectorAll('tbody tr')) {
        const call = row.querySelector('th'), fate = row.cells[6], { left, right, height } = fate.getBoundingClientRect();
        if (call.textContent.length <= 16 && call.textContent && lines(call) !== 1) told.push(`${name(call)} is broken`);
        if (!fate.checkVisibility({ opacityProperty: true, visibilityProperty: true }) || left < 0 || right > wide || height < 8 || lines(fate) !== 1)
            told.push(`${name(fate)} is not seen`);
    }
    return told.slice(0, 5);
})()"""

# of every text the contrast with what is behind it; answers the least and where
CONTRAST = """(() => {
    const parts = colour => colour.match(/[\\d.]+/g).map(Number);
    const light = ([red, green, blue]) => [red, green, blue].map(part => part / 255)
        .map(part => part <= 0.04045 ? part / 12.92 : ((part + 0.055) / 1.055) ** 2.4)
        .reduce((sum, part, place) => sum + part * [0.2126, 0.7152, 0.0722][place], 0);
    const behind = element => {
        for (; element; element = element.parentElement) {
            const colour = parts(getComputedStyle(element).backgroundColor);
            if (colour.length < 4 || colour[3] > 0) return colour;
        }
        return [255, 255, 255];
    };
    let least = [99, ''];
    const held = (element, pseudo) => {
        const [one, other] = [light(parts(getComputedStyle(element, pseudo).color)), light(behind(element))].sort((a, b) => b - a);
        const ratio = (one + 0.05) / (other + 0.05);
        if (ratio < least[0]) least = [ratio, `${element.localName}.${element.className}${pseudo ?? ''} ${element.textContent.slice(0, 20)}`];
    };
    const kinds = new Set();
    for (const element of document.body.querySelectorAll('*')) {
        if (!element.checkVisibility()) continue;
        if ([...element.childNodes].some(node => node.nodeType === 3 && node.data.trim())) held(element);
        if (!['', 'none', 'normal', '""'].includes(getComputedStyle(element, '::before').content)) held(element, '::before');
        if (element.placeholder) held(element, '::placeholder');
        if (element.localName === 'tr' && element.className) kinds.add(element.className);
    }
    return { least, kinds: [...kinds], ground: getComputedStyle(document.body).backgroundColor };
})()"""


def quiet(browser, what):
    """No error, nothing that the policy forbids, nothing fetched but the page itself."""
    errors = browser.told("Runtime.exceptionThrown", "Log.entryAdded", "Runtime.consoleAPICalled")
    fetched = {told["request"]["url"].rsplit("/", 1)[-1] for told in browser.told("Network.requestWillBeSent")}
    check(f"{what}: nothing in the console", not errors, errors)
    check(f"{what}: one request", len(fetched) == 1, fetched)


def looks(browser, name):
    """What every page must have at both widths and in both schemes; answers the kinds of rows that were seen."""
    kinds = set()
    for width in WIDTHS:
        for scheme in ["light", "dark"]:
            browser.size(width)
            browser.scheme(scheme)
            browser.open(f"{name}.html")
            where = f"{name} at {width} px, {scheme}"
            cut = browser.ask(CUT)
            check(f"{where}: nothing is cut off", not cut, cut)
            told = browser.ask(CONTRAST)
            check(f"{where}: contrast", told["least"][0] >= 4.5, told["least"])
            dark = sum(map(int, re.findall(r"\d+", told["ground"])[:3])) < 200
            check(f"{where}: scheme", dark == (scheme == "dark"), told["ground"])
            quiet(browser, where)
            kinds.update(told["kinds"])
    browser.scheme("light")
    return kinds


# ---- what is expected


def holds(row, words):
    return all(any(word in cell.lower() for cell in row) for word in words.lower().split())


def key(column):
    units = {"m": 1.0, "cm": 0.01, "mm": 0.001}

    def band(text):
        number, unit = re.fullmatch(r"([\d.]+)(m|cm|mm)", text).groups()
        return float(number) * units[unit]

    compared = int if column == 0 else band if column == 4 else str.lower
    return lambda row: compared(row[column])


def status(shown, of, column="No", direction="ascending", page=""):
    return f"{shown:,} of {of:,} records shown, sorted by {column}, {direction}{page}"


def range_of(shown, first=0):
    return f"rows {first + 1:,} to {min(first + PAGE, shown):,}"


def focus(browser, text):
    """Presses Tab until what bears this text has the focus; answers whether that is seen."""
    for _ in range(60):
        browser.key("Tab")
        at = "document.activeElement"
        if browser.ask(f"({at}.labels?.[0] ?? {at}).textContent").startswith(text):
            return browser.ask(f"getComputedStyle({at}).outlineStyle !== 'none' && parseFloat(getComputedStyle({at}).outlineWidth) >= 2")
    return False


def from_start(browser, text):
    # the heading is where Tab starts from
    browser.ask("{ const start = document.querySelector('h1'); start.tabIndex = -1; start.focus(); scrollTo(0, 0) }")
    return focus(browser, text)


# ---- the parts


def all_pages(browser):
    kinds = set()
    for name in ["fieldday", "lotw", "club", "some", "ignored", "hostile", "refused", "large"]:
        kinds |= looks(browser, name)
    same("all kinds of rows were seen", len(kinds), 7)


def origin(browser):
    """The foot tells what the page was made of."""
    for page, file, listed in [("fieldday", "samples/fieldday.adi", "station.list"), ("refused", "samples/wrong-length.adi", None)]:
        browser.open(f"{page}.html")
        foot = browser.ask("document.querySelector('footer').innerText")
        for path in filter(None, [file, listed]):
            with open(path, "rb") as opened:
                digest = hashlib.sha256(opened.read()).hexdigest()
            check(f"{page}: {path} and its SHA-256", path in foot and digest in foot, foot)
        check(f"{page}: time and version", re.search(r"\d{4}-\d\d-\d\d \d\d:\d\d", foot) and re.search(r"By\s+ox \d", foot), foot)


def told_to_a_screen_reader(browser):
    """By the tree that the browser hands to it."""
    for width in WIDTHS:
        browser.size(width)
        browser.open("lotw.html")
        nodes = browser.call("Accessibility.getFullAXTree")["nodes"]
        nodes = [(node["role"]["value"], node.get("name", {}).get("value", ""), node) for node in nodes if not node["ignored"]]
        names = lambda role: [name for found, name, _ in nodes if found == role]
        same(f"{width} px: tables", len([name for name in names("table") if name]), 2)
        same(f"{width} px: heads of columns", names("columnheader"), HEADS + ["Id", *HEADS[1:6], "By", "On"])
        same(f"{width} px: heads of rows", names("rowheader"), [row[1] for row in rows_of("lotw.html") + rows_of("lotw.html", "confirmations")])
        same(f"{width} px: rows", len(names("row")), 2 + 5 + 4)
        same(f"{width} px: cells", len(names("cell")) + len(names("gridcell")), 7 * 9)
        same(f"{width} px: boxes", names("searchbox"), ["Filter records", "Filter confirmations"])
        check(f"{width} px: status", len(names("status")) == 2)
        # other browsers forget what is no table to the style
        bare = browser.ask("document.querySelectorAll('tbody tr:not([role=row]), tbody th:not([role=rowheader]), tbody td:not([role=cell])').length")
        same(f"{width} px: cells without a role", bare, 0)
        switches = [
            (name, prop["value"]["value"])
            for _, name, node in nodes
            for prop in node.get("properties", [])
            if prop["name"] == "pressed"
        ]
        same(f"{width} px: switches", switches, [("4 confirmed", "true"), ("1 unmatched", "true")])


def some_records(browser):
    browser.open("some.html")
    check("some of the records: said", "9 of 40 records: duplicate-in-log" in browser.ask("document.querySelector('main').innerText"))
    same("some of the records: bar", browser.ask("document.getElementById('bar').innerText.split('\\n').filter(Boolean)"),
         ["31 importable", "9 duplicate-in-log"])
    same("some of the records: switches", list(browser.ask(STATE)["pressed"]), ["9 duplicate-in-log"])


def hostile(browser):
    # narrower than a call of sixteen W: that is broken, and still the page is no wider
    browser.size(280)
    browser.open("hostile.html")
    same("hostile at 280 px: width", browser.ask("document.documentElement.scrollWidth"), 280)
    browser.size(1280)
    calls = [row[1] for row in browser.ask(STATE)["rows"]]
    long = "W" * 4096
    wanted = ["<script>hacked = 1</script>", "<img src=x onerror=hacked=1>", 'W1AW&amp;"', "A\ufffdB\ufffdC", "\u05d0\u05d1\u05d2", long, "W" * 16,
              "</noscript>"]
    same("hostile: texts are texts", calls, wanted)
    same("hostile: name", browser.ask("document.querySelector('h1').textContent"), 'Preview of <b>&"hostile.adi')
    from_start(browser, "Filter")
    browser.type('&amp;"')
    same("hostile: filter", [row[1] for row in browser.ask(STATE)["rows"]], ['W1AW&amp;"'])
    check("hostile: nothing ran", browser.ask("typeof hacked") == "undefined")
    # the policy itself: what came in would not run either
    browser.ask("""document.body.insertAdjacentHTML('beforeend', '<img src="data:," onerror="hacked = 1"><p style="position: fixed" id="styled">');
        document.body.append(Object.assign(document.createElement('script'), { textContent: 'hacked = 1' }))""")
    browser.rest()
    check("hostile: scripts are forbidden", browser.ask("typeof hacked") == "undefined")
    same("hostile: styles are forbidden", browser.ask("getComputedStyle(document.getElementById('styled')).position"), "static")


def refused(browser):
    for width in WIDTHS:
        browser.size(width)
        browser.open("refused.html")
        text = browser.ask("document.querySelector('main').innerText")
        told = ["Refused 6", "samples/wrong-length.adi", "field QTH, line 4, column 77, 900 bytes wanted, 95 left", "Count the bytes of the value"]
        for part in told:
            check(f"refused at {width} px: {part}", part in text, text)
        same(f"refused at {width} px: mark", browser.ask("document.querySelector('pre mark').innerText"), "<QTH")
        check(f"refused at {width} px: excerpt", browser.ask("document.querySelector('pre').textContent").endswith("<QTH:900>Odense <EOR>"))
        seen = browser.ask("""(() => { const { left, right, height } = document.querySelector('mark').getBoundingClientRect();
            return left >= 0 && right <= innerWidth && height > 8 })()""")
        check(f"refused at {width} px: mark is seen", seen)
        same(f"refused at {width} px: no switches", browser.ask("document.querySelectorAll('button, input, script').length"), 0)


def sorting(browser, rows):
    """Each column by Enter and by Space, up and down; those that are alike stay in the order they had."""
    browser.open("large.html")
    total = len(rows)
    same("sort: at first", browser.ask(STATE)["sorted"], ["ascending"] + [None] * 7)
    from_start(browser, "Filter")
    for column in [1, 2, 3, 4, 5, 6, 7, 0]:
        check(f"sort: {HEADS[column]} is reached by Tab, and that is seen", from_start(browser, HEADS[column]))
        for pressed, direction in [("Enter", "ascending"), ("Space", "descending")]:
            browser.key(pressed)
            rows = sorted(rows, key=key(column), reverse=direction == "descending")
            told = browser.ask(STATE)
            what = f"sort: {HEADS[column]}, {direction}, by {pressed}"
            same(what, told["rows"], rows[:PAGE])
            same(f"{what}, aria-sort", told["sorted"], [direction if at == column else None for at in range(8)])
            same(f"{what}, status", told["status"], status(total, total, HEADS[column], direction, f"; {range_of(total)} in view"))
            browser.ask("document.querySelector('.pages button:last-child').click()")
            last = (total - 1) // PAGE * PAGE
            same(f"{what}, last page", browser.ask(STATE)["rows"], rows[last:])


def filtering(browser, rows):
    browser.open("large.html")
    total = len(rows)
    across = [row for row in rows if "1240" in "".join(row) and not holds(row, "1240")]
    check("filter: some rows have 1240 across cells alone", across)
    check("filter: is reached by Tab, and that is seen", from_start(browser, "Filter"))
    for words in ["1240", "40m Cw", "202606 ft8 imp", "nothing-has-this"]:
        browser.type(words)
        wanted = [row for row in rows if holds(row, words)]
        told = browser.ask(STATE)
        same(f"filter {words}", told["rows"], wanted[:PAGE])
        more = f"; {range_of(len(wanted))} in view" if len(wanted) > PAGE else ""
        same(f"filter {words}, status", told["status"], status(len(wanted), total, page=more))
        same(f"filter {words}, pages", told["range"], f"{range_of(len(wanted))} of {len(wanted):,}" if more else "")
        for _ in words:
            browser.key("Backspace")
    same("filter: emptied", browser.ask(STATE)["status"], status(total, total, page=f"; {range_of(total)} in view"))


def bar(browser, rows):
    browser.open("large.html")
    total = len(rows)
    counts = {}
    for row in rows:
        counts[row[6]] = counts.get(row[6], 0) + 1
    labels = {f"{count} {fate}": "true" for fate, count in counts.items()}
    same("bar: counts", browser.ask(STATE)["pressed"], labels)
    for pressed, again in [("Space", "Enter"), ("Enter", "Space")]:
        for fate, count in counts.items():
            check(f"bar: {fate} is reached by Tab, and that is seen", from_start(browser, f"{count} {fate}"))
            browser.key(pressed)
            told = browser.ask(STATE)
            left = [row for row in rows if row[6] != fate]
            same(f"bar: {fate} hidden by {pressed}", told["rows"], left[:PAGE])
            same(f"bar: {fate}, aria-pressed", told["pressed"], {**labels, f"{count} {fate}": "false"})
            check(f"bar: {fate}, status", told["status"].startswith(f"{len(left):,} of {total:,} records shown"), told["status"])
            browser.key(again)
            same(f"bar: {fate} shown again by {again}", browser.ask(STATE)["pressed"], labels)


def paging(browser, rows):
    browser.open("large.html")
    last = (len(rows) - 1) // PAGE * PAGE
    moves = [("Next", "Enter", PAGE), ("Next", "Space", 2 * PAGE), ("Previous", "Enter", PAGE), ("Last", "Space", last),
             ("Previous", "Space", last - PAGE), ("Last", "Enter", last), ("Next", "Enter", last), ("First", "Enter", 0), ("Previous", "Space", 0),
             ("Next", "Enter", PAGE), ("First", "Space", 0)]
    for name, pressed, first in moves:
        check(f"pages: {name} is reached by Tab, and that is seen", from_start(browser, name))
        browser.key(pressed)
        told = browser.ask(STATE)
        what = f"pages: {name} by {pressed} to {first}"
        same(what, told["rows"], rows[first : first + PAGE])
        same(f"{what}, told", told["range"], f"{range_of(len(rows), first)} of {len(rows):,}")
        check(f"{what}, status", told["status"].endswith(f"; {range_of(len(rows), first)} in view"), told["status"])
        same(f"{what}, focus", browser.ask("document.activeElement.textContent"), name)
        ends = browser.ask("Array.from(document.querySelector('.pages').querySelectorAll('button'), button => button.ariaDisabled)")
        same(f"{what}, ends", ends, [str(first == 0).lower()] * 2 + [str(first == last).lower()] * 2)
    # every row is on one page, once
    seen = []
    while len(seen) < len(rows):
        seen += browser.ask(STATE)["rows"]
        browser.ask("[...document.querySelectorAll('.pages button')][2].click()")
    same("pages: all rows, once", seen, rows)


def second_table(browser):
    """What is newly confirmed has pages of its own, which do not lie on those of the records."""
    browser.open("large.html")
    confirmed = rows_of("large.html", "confirmations")
    check("confirmations: some", confirmed)
    at = "document.getElementById('confirmations').parentNode"
    found = browser.ask(ROWS.replace("#records", "#confirmations"))
    same("confirmations: rows", found, confirmed[:PAGE])
    told = browser.ask(f"{at}.querySelector('[role=status]').textContent")
    check("confirmations: status", told.startswith(f"{len(confirmed):,} of {len(confirmed):,} confirmations shown, sorted by Id, ascending"), told)
    same("confirmations: pages", browser.ask(f"{at}.querySelector('.pages').hidden"), len(confirmed) <= PAGE)
    below = "document.elementFromPoint(innerWidth / 2, innerHeight - 4).closest('.pages').getAttribute('aria-label')"
    same("confirmations: their pages are not over those of the records", browser.ask(below), "Pages of records")
    browser.ask(f"{at}.querySelectorAll('thead button')[1].click()")
    same("confirmations: sorted by themselves", browser.ask(ROWS.replace("#records", "#confirmations")), sorted(confirmed, key=key(1))[:PAGE])
    same("confirmations: the records stay", browser.ask(STATE)["sorted"], ["ascending"] + [None] * 7)


def without_script(browser):
    browser.scripts(False)
    try:
        for name, width in [("fieldday", 375), ("large", 1280)]:
            where = f"{name} without a script at {width} px"
            browser.size(width)
            browser.open(f"{name}.html")
            same(f"{where}: all rows", browser.ask(ROWS), rows_of(f"{name}.html"))
            hidden = browser.ask("""Array.from(document.querySelectorAll('#records tbody tr')).filter(row => row.getBoundingClientRect().height < 10
                || !row.cells[6].checkVisibility()).length""")
            same(f"{where}: rows that are not seen", hidden, 0)
            same(f"{where}: switches", browser.ask("document.querySelectorAll('button, input, [role=status]').length"), 0)
            same(f"{where}: width", browser.ask("document.documentElement.scrollWidth"), width)
            quiet(browser, where)
    finally:
        browser.scripts(True)


def broken_script(browser):
    browser.open("broken.html")
    same("a script that fails: all rows", browser.ask(ROWS), rows_of("broken.html"))
    same("a script that fails: switches", browser.ask("document.querySelectorAll('button, input').length"), 0)


def printing(browser, rows):
    browser.scheme("dark")
    browser.open("large.html")
    words = "ft8"
    wanted = [row for row in rows if holds(row, words)]
    from_start(browser, "Filter")
    browser.type(words)
    browser.ask(f"""addEventListener('beforeprint', () => {{ window.printed = {STATE} }})""")
    sheets = len(re.findall(rb"/Type /Page\b", browser.paper()))
    printed = browser.ask("printed")
    same("print: every row that passes", printed["rows"], wanted)
    same("print: status", printed["status"], status(len(wanted), len(rows)))
    check("print: as many sheets", sheets > len(wanted) / 100, f"{sheets} for {len(wanted)} rows")
    same("print: back to the page in view", len(browser.ask(STATE)["rows"]), min(PAGE, len(wanted)))
    browser.scheme("dark", "print")
    told = browser.ask(CONTRAST)
    same("print: light", told["ground"], "rgb(255, 255, 255)")
    check("print: contrast", told["least"][0] >= 4.5, told["least"])
    seen = browser.ask("Array.from(document.querySelectorAll('input, .pages')).filter(element => element.checkVisibility()).length")
    same("print: no switches", seen, 0)
    browser.scheme("light")


# how long an act takes until what it changes is drawn
TIMED = """(async act => {
    const start = performance.now();
    act();
    await new Promise(done => requestAnimationFrame(() => setTimeout(done)));
    return performance.now() - start;
})"""


def times(browser, rows):
    """Milliseconds, the best of three runs, since something else may be at work on the machine; the bounds are what a person would take for a
    freeze."""
    watch = """window.tasks = [];
        new PerformanceObserver(list => { for (const entry of list.getEntries()) tasks.push(entry.duration) })
            .observe({ type: 'longtask', buffered: true });"""
    watching = browser.call("Page.addScriptToEvaluateOnNewDocument", source=watch)["identifier"]
    box = "document.querySelector('input')"
    put = lambda words: f"{TIMED}(() => {{ {box}.value = '{words}'; {box}.dispatchEvent(new Event('input')) }})"
    press = lambda column: f"{TIMED}(() => document.querySelectorAll('#records thead button')[{column}].click())"
    runs = []
    for _ in range(3):
        load = browser.open("large.html")
        filters = max(browser.ask(put(words)) for words in ["1", "12", "124", "1240", "", "40m ssb", ""])
        sorts = max(browser.ask(press(column)) for column in range(8) for _ in ["up", "down"])
        browser.rest()
        runs.append((load, filters, sorts, browser.ask("Math.max(0, ...tasks)")))
    browser.call("Page.removeScriptToEvaluateOnNewDocument", identifier=watching)
    load, filters, sorts, task = map(min, zip(*runs))
    took = f"load {load:.0f} ms, filter at most {filters:.0f} ms, sort at most {sorts:.0f} ms"
    print(f"browser: {len(rows)} records: {took}, longest task {f'{task:.0f} ms' if task else 'below 50 ms'}", flush=True)
    check("times: load", load < 3000, runs)
    check("times: filter", filters < 700, runs)
    check("times: sort", sorts < 700, runs)
    check("times: longest task", task < 700, runs)


def main():
    rows = rows_of("large.html")
    same("large: as the file has it", [row[:6] for row in rows], [line.split("\t") for line in read("large.tsv").splitlines()])
    browser = Browser([sys.argv[1]])

    def part(test, *given):
        try:
            return test(browser, *given)
        except Exception as error:  # whatever broke it off, the others are still run and counted
            check(test.__name__, False, repr(error))

    try:
        part(all_pages)
        for test in [origin, told_to_a_screen_reader, some_records, hostile, refused]:
            part(test)
        for width in WIDTHS:
            browser.size(width)
            part(filtering, rows)
        for test in [sorting, bar, paging, printing, times]:
            part(test, rows)
        for test in [second_table, without_script, broken_script]:
            part(test)
    finally:
        browser.close()
    print(f"browser: {passed} passed, {failed} failed")
    return failed > 0


if __name__ == "__main__":
    sys.exit(main())

"""What the page shows of the example night, by which keys, at which widths, on paper; and pictures."""
import json
import time

import example
from clicks import Browser
from consoles import ARRIVAL, STATIONS, Place, answered, choose, drawn, fill, go_to, place, renew, standing
from trial import judge, moment, occurrence_of, plan_of, room, run

PLACES = r"""return Object.fromEntries([...document.querySelectorAll('#side svg a')].map(one =>
    [one.getAttribute('aria-label').split(',')[0], +/translate\(([-0-9.]+)/.exec(one.getAttribute('transform'))[1]]))"""
LUMINANCE = """const part = value => value <= .03928 ? value / 12.92 : ((value + .055) / 1.055) ** 2.4;
const light = text => {
    const [red, green, blue] = text.match(/[0-9.]+/g).slice(0, 3).map(value => part(value / 255));
    return .2126 * red + .7152 * green + .0722 * blue;
};
const probe = document.createElement('i');
document.body.append(probe);
const of = name => { probe.style.color = `var(--${name})`; return light(getComputedStyle(probe).color); };
return arguments[0].map(([ink, back]) => {
    const [high, low] = [of(ink), of(back)].sort((one, other) => other - one);
    return [ink, back, (high + .05) / (low + .05)];
}).filter(one => one[2] < 4.5)"""
WIDEST = """return Math.max(document.documentElement.scrollWidth,
    ...['side', 'ask'].map(name => document.getElementById(name).scrollWidth))"""
SMALL = """return [...document.querySelectorAll('#side button')]
    .filter(one => one.getBoundingClientRect().height < 40).map(one => one.textContent)"""
CUT = """return [...document.querySelectorAll('main .scroll')]
    .filter(one => one.scrollWidth > one.clientWidth).map(one => [one.scrollWidth, one.clientWidth])"""
PRINTED = """return [getComputedStyle(document.documentElement).backgroundColor,
    getComputedStyle(document.querySelector('.who')).display,
    [...document.querySelectorAll('button')].filter(one => one.offsetParent).map(one => one.textContent)]"""


def try_shown(given):
    """The example night at 21:09, at a desk with all looks; keys alone, widths, paper, names for a reader."""
    with place(given, example.PLAN, example.BEGIN) as site:
        example.play(site)
        site.door = site.start_door(site.behind.address, "--clock", "desk")
        page = site.browse(site.door)
        try_parts(page)
        try_links(page)
        try_keys(page)
        try_reader(page)
        try_policy(site, page)
        try_widths(page)
        try_paper(page)
        judge(not page.faults(), "the browser's log", page.faults())
        if given.pictures:
            take_pictures(site, given.pictures, given.each)
        looks_only(site)
    with place(given, example.PLAN, example.BEGIN) as site:
        try_without_looks(site)
    with place(given) as site:
        try_sending(site)
    try_unloaded(given)
    return "the example night" + (f", pictures in {given.pictures}" if given.pictures else "")


def try_parts(page):
    ends, ahead, paths, never = example.forecast()
    endless, late = sum(row[5].startswith("-") for row in ends), sum(row[6] != "-" for row in ends)
    counts = dict(reversed(one.split(" ", 1)) for one in page.texts("#counts a"))
    roots = [row for row in never if row[3] != "waits"]
    judge((counts["won't end"], counts["will be late"], counts["in error or undecided"]) == (str(endless), str(late), "1"),
          "counts", counts)
    judge(page.text("#clock") == "21:09" and page.text("#date") == "2024-03-01" and page.text("#wall") == "", "the clock",
          page.text("header"))
    judge(page.texts("#errors li") == ["PAYROLL 20 03-01 22:00E in errorS0C7CPU1"], "in error", page.texts("#errors li"))
    held = [row for row in roots if row[1] not in "EUI"]
    judge(len(page.texts("#stuck li")) == len(held) and all(words in page.text("#stuck") for row in held for words in row[3:]),
          "nothing comes of these",
          held, page.text("#stuck"))
    judge(len(page.texts("#occurrences tbody tr")) == 8, "occurrences", page.texts("#occurrences tbody tr"))
    spare = [row for row in ends if row[5].startswith("-")]
    first = {one.split()[0] for one in page.texts("#occurrences tbody th")[:len(spare)]}
    judge(first == {row[0] for row in spare}, "those without an end stand first", first, spare)
    judge(page.texts("#workstations li a") == ["CPU1 A", "CPU2 A", "PRT1 C", "SETP S", "WAIT N"], "workstations",
          page.texts("#workstations li a"))
    judge("TAPE-1" in page.text("#resources") and "BILLING 20" in page.text("#resources"), "special resources",
          page.text("#resources"))
    going, = [row for row in page.texts("#going li") if row.startswith("BILLING 20")]
    judge("since 21:08" in going or "since 21:09" in going, "since it was named, or reported as started", going)


def try_links(page):
    """Links lead on: why with its keys, the network, a workstation."""
    page.js("[...document.querySelectorAll('#errors a')][0].click()")
    page.until("document.querySelector('#side h1')?.textContent === 'PAYROLL/2024-03-01T22:00/020'", "an operation")
    judge("status E" in page.text("#side") and page.texts("#side > .acts button") == ["Rerun", "Complete"], "what it says",
          page.text("#side"))
    go_to(page, "op", "PAYROLL/2024-03-01T22:00/040")
    judge([one for one in page.texts("#side li a") if one.startswith("PAYROLL 20")], "why has links to what it waits for",
          page.texts("#side li a"))
    page.js("[...document.querySelectorAll('#side li a')].find(one => one.textContent.startsWith('PAYROLL 20')).click()")
    page.until("document.querySelector('#side h1').textContent === 'PAYROLL/2024-03-01T22:00/020'", "a root")
    go_to(page, "occ", "PAYROLL/2024-03-01T22:00")
    nodes, lines = page.texts("#side svg a"), page.js("return document.querySelectorAll('#side svg path').length")
    judge(len(nodes) == 7 and lines == 6, "the network: six operations, another's, six pairs", nodes, lines)
    places = page.js(PLACES)
    before = lambda one, other: places[f"PAYROLL/2024-03-01T22:00/{one:03}"] < places[f"PAYROLL/2024-03-01T22:00/{other:03}"]
    judge(all(before(*pair) for pair in ((5, 10), (10, 20), (20, 30), (30, 40), (30, 50))),
          "each stands behind what it waits for", places)
    page.js("document.querySelector('#side svg a').dispatchEvent(new MouseEvent('click', {bubbles: true}))")
    page.until("document.querySelector('#side h1').textContent.split('/').length === 3", "a node leads to its operation")
    go_to(page, "ws", "CPU1")
    judge("2024" not in page.text("#side h1") and "20:00 to 23:00" in page.text("#side"), "a workstation, its intervals",
          page.text("#side"))
    for address in ("#op=%", "#op=PAYROLL/2024-03-01T22:00/999", "#occ=NONE/2024-03-01T22:00", "#ws=NONE", "#op=x y?z"):
        page.js("location.hash = arguments[0]", address)
        page.until("document.querySelector('#side p .tag.bad')?.textContent", f"{address} is told not to be there")
        judge(page.texts("#side button") == ["Close"], "nothing can be asked of it", page.text("#side"))
        page.click("Close", "#side")


def try_keys(page):
    """By keys alone: to an operation, to a request, and back; and the search."""
    page.js("document.activeElement.blur()")
    for _ in range(60):
        page.press("TAB")
        if page.js("return document.activeElement.textContent").startswith("PAYROLL 20"):
            break
    focus = lambda: page.js("return document.activeElement.textContent.trim()")
    judge(focus().startswith("PAYROLL 20"), "a link is come to", focus())
    page.press("ENTER")
    page.until("document.activeElement.tagName === 'H1'", "the operation has the focus")
    page.press("TAB", "TAB")
    judge(focus() == "Rerun", "its first request", focus())
    page.press("ENTER")
    page.until("document.getElementById('ask').open && document.activeElement.textContent === 'Leave it'",
               "a dialog, its focus on Leave it")
    page.press("ENTER")
    page.until("!document.getElementById('ask').open", "it is left")
    page.press("ESCAPE")
    page.until("document.getElementById('side').hidden", "the operation is closed")
    judge(focus().startswith("PAYROLL 20"), "the focus is where it was", focus())
    page.js("document.getElementById('search').focus()")
    page.press("payroll/2024-03-01t22:00/4", "0")
    page.until("document.querySelectorAll('#found a').length", "a search")
    page.press("ENTER")
    page.until("document.querySelector('#side h1')?.textContent === 'PAYROLL/2024-03-01T22:00/040'", "a key without zeros")
    page.press("ESCAPE")


def try_sending(site):
    """A request by keys alone, from the search to its answer."""
    page, key = site.browse(site.before.address), f"ONE/{ARRIVAL}/020"
    focus = lambda: page.js("return document.activeElement.textContent.trim()")
    page.js("document.getElementById('search').focus()")
    page.press(f"one/{ARRIVAL}/20".lower(), "ENTER")
    page.until(f"document.querySelector('#side h1')?.textContent === {json.dumps(key)}", "it is found")
    page.press("TAB", "TAB")
    judge(focus() == "Hold", "its first request", focus())
    page.press("ENTER")
    page.until("document.querySelector('#ask[open] #send')", "a dialog")
    page.press("SHIFT_TAB")
    judge(focus() == "Hold", "what sends it stands before Leave it", focus())
    page.press("ENTER")
    answered(page)
    page.press("ESCAPE")
    page.until("!document.getElementById('ask').open", "the answer is closed")
    judge(len(site.asked("hold")) == 1 and standing(site, key) == "WH-", "it acted, once", site.asked("hold"))


def try_reader(page):
    """What a screen reader is told: names, headings in their order, regions."""
    go_to(page, "op", "PAYROLL/2024-03-01T22:00/020")
    nodes = page.driver.execute_cdp_cmd("Accessibility.getFullAXTree", {})["nodes"]
    named = [(node["role"]["value"], node.get("name", {}).get("value")) for node in nodes if not node["ignored"]]
    nameless = [role for role,
                name in named if role in ("button", "link", "searchbox", "textbox", "dialog", "navigation", "complementary")
                and not name]
    judge(not nameless and len(named) > 100, "each has a name", nameless)
    levels = [int(level) for level in page.js("return [...document.querySelectorAll('h1, h2, h3')].map(one => one.tagName[1])")]
    judge(levels[0] == 1 and all(after_ - before <= 1 for before, after_ in zip(levels, levels[1:])), "headings in their order",
          levels)
    order = page.js("return [...document.querySelectorAll('main > section')].map(one => one.id)")
    judge(order[:4] == ["errors", "stuck", "late", "hand"] and order[-2:] == ["occurrences", "asked"],
          "what is urgent comes first", order)
    roles = {role for role, _ in named}
    judge({"banner", "navigation", "main", "complementary"} <= roles, "regions", roles)
    page.press("ESCAPE")


def try_policy(site, page):
    """The page can't be made to do what it doesn't."""
    judge(page.js("return fetch(arguments[0]).then(() => 'read', () => 'not by this page')",
                  f"http://{site.address}/health") == "not by this page",
          "another address isn't asked")
    told = page.js("try { document.body.innerHTML = '<b>x</b>'; return 'set' } catch (fault) { return fault.name }")
    judge(told == "TypeError", "no markup is set", told)
    page.faults()


def try_widths(page):
    """On a phone, at 390 and at the least width that there is, nothing is wider than the page."""
    for width in (320, 390):
        page.size(width, 844, is_phone=True)
        for view in ("console", "operation", "occurrence", "workstation", "rerun"):
            renew(page)
            go_to_view(page, view)
            wide = page.js(WIDEST)
            judge(wide <= width, f"at {width} {view} isn't wider", wide)
    page.click("Leave it", "#ask")
    small = page.js(SMALL)
    judge(not small, "buttons are large enough for a thumb", small)
    page.size(1400, 1000)
    renew(page)


def try_paper(page):
    """On paper: black on white, no buttons; and colours that can be read in each scheme."""
    inks = [(ink, back) for ink in ("ink", "soft", "bad", "ready", "going", "done") for back in ("back", "panel")]
    inks += [(name, f"{name}-back") for name in ("bad", "ready", "going", "done")]
    page.driver.execute_cdp_cmd("Emulation.setEmulatedMedia", {"media": "print"})
    page.size(718, 1010)        # A4 within its margins
    judge(page.js(PRINTED) == ["rgb(255, 255, 255)", "none", []], "on paper", page.js(PRINTED))
    judge(not page.js(CUT), "no table is cut off on paper", page.js(CUT))
    judge(len(page.driver.execute_cdp_cmd("Page.printToPDF", {})["data"]) > 10_000, "it prints")
    for scheme in ("dark", "light"):
        page.driver.execute_cdp_cmd("Emulation.setEmulatedMedia",
                                    {"media": "", "features": [{"name": "prefers-color-scheme", "value": scheme}]})
        judge(page.js(LUMINANCE, inks) == [], f"{scheme}: what can't be read", page.js(LUMINANCE, inks))
    page.size(1400, 1000)


KEPT = {"console-1600-dark", "occurrence-1000-light", "rerun-390-dark", "console-390-light"}
SIZES = ((1600, 1150), (1000, 1150), (390, 844))


def take_pictures(site, folder, each):
    """Pictures at three widths, dark and light: those that docs/ keeps, or each."""
    relay = site.relay(site.door)
    relay.me = {"by": "anna", "may": "act", "once": True, "offset": None}
    for scheme in ("dark", "light"):
        page = site.browse(relay.address, light=scheme == "light")
        for width, height in SIZES:
            page.size(width, height, is_phone=width == 390, scale=2 if width == 390 else 1)
            renew(page)
            for view in ("console", "occurrence", "operation", "workstation", "rerun"):
                name = f"{view}-{width}-{scheme}"
                if each or name in KEPT:
                    go_to_view(page, view)
                    time.sleep(0.5)
                    page.picture(folder / f"{name}.png")
        page.end()
        site.browsers.remove(page)


def go_to_view(page, view):
    """What a picture shows."""
    if view == "occurrence":
        go_to(page, "occ", "PAYROLL/2024-03-01T22:00")
    elif view == "workstation":
        go_to(page, "ws", "CPU1")
    elif view != "console":
        go_to(page, "op", "PAYROLL/2024-03-01T22:00/020")
    if view == "rerun":
        choose(page, "Rerun", "#side")


def looks_only(site):
    """Who may not act has no buttons for it."""
    relay = site.relay(site.door)
    relay.me = {"by": "otto", "may": "look", "once": True, "offset": None}
    page = site.browse(relay.address)
    for view in (("op", "PAYROLL/2024-03-01T22:00/020"), ("occ", "PAYROLL/2024-03-01T22:00"), ("ws", "SETP")):
        go_to(page, *view)
        judge(set(page.texts("button")) == {"Close"} and "otto, looks only" in page.text("#me"), "buttons of who may look",
              page.texts("button"))


def try_without_looks(site):
    """A desk that hasn't the three looks: what is lacking is said."""
    page = site.browse(site.start_door(site.relay(site.address, lacks=True).address, "--clock", "desk"))
    go_to(page, "occ", "PAYROLL/2024-03-01T22:00")
    judge("This desk has no look at dependencies." in page.text("#side") and len(page.texts("#side tbody tr")) == 6,
          "an occurrence", page.text("#side"))
    go_to(page, "ws", "SETP")
    judge("This desk has no look at intervals" in page.text("#side")
          and "Give it other intervals" not in page.texts("#side button"), "a workstation")
    site.do("started", site.desk.clock(), op="DAYEND/2024-03-01T20:00/005")
    site.do("ended", site.desk.clock(), op="DAYEND/2024-03-01T20:00/005")
    renew(page)
    go_to(page, "op", "DAYEND/2024-03-01T20:00/005")
    choose(page, "Rerun", "#side")
    judge("This desk has no look at what a rerun reaches." in page.text("#ask"), "a rerun", page.text("#ask"))
    page.click("Leave it", "#ask")
    page.click("Close", "#side")
    choose(page, "Add an occurrence", "#occurrences")
    fill(page, records="O,X")
    page.click("Check it", "#ask")
    page.until("document.querySelector('#ask pre[role=status]').textContent.includes(\"can't check\")", "a check")
    page.click("Leave it", "#ask")


def try_unloaded(given):
    """A desk without a plan."""
    with room() as folder:
        site = Place(given.plandesk, folder)
        try:
            (site.folder / "bad.csv").write_text("W\n")
            run(site.program, "load", "--db", "night.db", "--plan", "bad.csv", "--at", moment(), cwd=site.folder)
            site.start_desk()
            site.browsers.append(Browser(site.folder))
            page = site.browsers[0]
            page.open(f"http://{site.start_door(site.address)}/console")
            page.until("document.getElementById('banner').innerText === 'No plan is loaded.'", "no plan")
            site.desk.ask("POST", "/operator", json.dumps({"at": moment(), "do": "load", "records": plan_of(
                STATIONS, occurrence_of(f"ONE/{ARRIVAL}", {10: ("CPU1", 5)}))}).encode())
            drawn(page, "a plan comes in")
            judge(not page.faults(), "the browser's log", page.faults())
        finally:
            site.end()

"""Each request of each status of an operation, by a click."""
from consoles import ARRIVAL, CLOSED, STATIONS, choose, confirm, fill, go_to, place, renew, standing
from trial import judge, occurrence_of, plan_of, wait_until

TITLES = {"hold": "Hold", "release": "Release", "nop": "Make it a NOP", "unnop": "No NOP any more", "rerun": "Rerun",
          "complete": "Complete", "depend": "Wait for another", "started": "Started", "ended": "Ended well",
          "error": "Ended in error", "interrupted": "Interrupted", "unknown": "Nobody knows how it ended"}
# Of each case the workstations of operations 10 and 20, which follows 10 and is the one that is asked for where there is one;
# what is reported before; its status, mark of a hold and of a NOP; which requests PROFILE.md allows then, and which reports.
IDLE = "hold nop complete depend"
CASES = {
    "WAITING": (["CPU2", "CPU2"], [], "W--", "hold nop depend", ""),
    "ARRIVING": (["CPU2"], [], "A--", IDLE, ""),
    "READY": (["CPU2", "CPU2"], [("complete", 10)], "R--", IDLE, ""),
    "STAR": (["WAIT", "CPU2"], [], "*--", IDLE, ""),
    "NAMED": (["CPU1"], [], "S--", "complete", "started ended error unknown"),
    "RUNNING": (["CPU1"], [("started", 10)], "S--", "complete", "ended error unknown"),
    "ERROR": (["CPU1"], [("error", 10)], "E--", "rerun complete", ""),
    "UNDECIDED": (["CPU1"], [("unknown", 10)], "U--", "rerun complete", "ended error"),
    "DONE": (["CPU1"], [("ended", 10)], "C--", "rerun", ""),
    "HAND": (["SET1"], [], "A--", IDLE, "started"),
    "HANDS": (["SET1"], [("started", 10)], "S--", "complete", "ended error interrupted unknown"),
    "HANDI": (["SET1"], [("started", 10), ("interrupted", 10)], "I--", "rerun complete", "started"),
    "HANDE": (["SET1"], [("started", 10), ("error", 10)], "E--", "rerun complete", ""),
    "HANDU": (["SET1"], [("started", 10), ("unknown", 10)], "U--", "rerun complete", "ended error"),
    "PRINT": (["PRT1"], [], "A--", IDLE, "ended error"),
    "PRINTW": (["CPU2", "PRT1"], [], "W--", "hold nop depend", ""),
    "GATHER": (["CPU2", "WAIT"], [], "W--", "hold nop depend", ""),
    "HELD": (["CPU2"], [("hold", 10)], "AH-", "release nop depend", ""),
    "HANDHELD": (["SET1"], [("hold", 10)], "AH-", "release nop depend", ""),
    "PRINTHELD": (["PRT1"], [("hold", 10)], "AH-", "release nop depend", ""),
    "NOPPED": (["CPU2", "CPU2"], [("nop", 20)], "W-N", "hold unnop depend", ""),
    "GONE": (["CPU2"], [("delete", 10)], "D--", "", ""),
}
# what a request makes of status, hold and NOP; of the others what stands in `after`
AFTER = {"complete": "C--", "ended": "C--", "error": "E--", "interrupted": "I--", "unknown": "U--", "started": "S--"}


def after(case, do):
    status, held, nop = CASES[case][2]
    if do == "rerun":       # what the desk may name it names at once
        return "S--" if CASES[case][0] == ["CPU1"] else "A--"
    if do == "depend":
        return f"W{held}{nop}"
    if do == "nop":         # it passes where nothing holds it back
        return f"{status}{held}N" if status == "W" or held == "H" else "C-N"
    if do == "hold":
        return f"{status}H{nop}"
    return {"release": f"{status}-{nop}", "unnop": f"{status}{held}-"}.get(do) or AFTER[do]


def code_of(case, do):
    """An application for each request of each case."""
    return f"{case}.{do}".upper().replace(".", "#")[:16]


def key_in(case, do):
    return f"{code_of(case, do)}/{ARRIVAL}/{'020' if len(CASES[case][0]) > 1 else '010'}"


def wanted():
    return [(case, do) for case, (_, _, _, acts, reports) in CASES.items() for do in (acts + " " + reports).split()]


def plan_of_cases():
    texts = []
    for case, do in [*wanted(), ("GONE", "look")]:
        stations = CASES[case][0]
        numbers = {10 * (turn + 1): (name, 5) for turn, name in enumerate(stations)}
        texts.append(occurrence_of(f"{code_of(case, do)}/{ARRIVAL}", numbers, [(10, 20)] if len(stations) > 1 else []))
    return plan_of(STATIONS, CLOSED, *texts, occurrence_of(f"OTHER/{ARRIVAL}", {10: ("CPU2", 5)}))


def prepare(site, case, do):
    """Brings what a case is of to its status."""
    key = key_in(case, do)
    for before, number in CASES[case][1]:
        named = {"occ": key.rpartition("/")[0]} if before == "delete" else {"op": f"{key.rpartition('/')[0]}/{number:03}"}
        told = site.do(before, site.desk.clock(), **named, **({"code": "S0C7"} if before == "error" else {}))
        judge(told[0] == 200, "what comes before", case, before, told)
    judge(standing(site, key) == CASES[case][2], f"the case {case}", key, standing(site, key))
    return key


def try_acts(given):
    """Each request of each status, by a click."""
    with place(given, plan_of_cases()) as site:
        page = site.browse(site.before.address)
        for case, do in [*wanted(), ("GONE", "look")]:
            key, (_, _, _, acts, reports) = prepare(site, case, do), CASES[case]
            is_folded = CASES[case][0][-1].startswith("CPU")
            renew(page)
            go_to(page, "op", key)
            shown = page.texts("#side > .acts button"), page.texts("#side details .acts button")
            titles = [TITLES[one] for one in acts.split()], [TITLES[one] for one in reports.split()]
            judge(shown == ((titles[0], titles[1]) if is_folded else (titles[0] + titles[1], [])), f"buttons of {case}", shown,
                  titles)
            if case == "GONE":
                continue
            if is_folded and do in reports.split():
                page.click("Report in its tracker's place", "#side")
            choose(page, TITLES[do], "#side")
            if do in ("error", "depend"):
                judge(not page.driver.find_element("id", "send").is_enabled(), "nothing is sent without its fields")
                fill(page, **({"code": "U100"} if do == "error" else {"from": f"OTHER/{ARRIVAL}/10"}))
            else:
                judge(page.js("return document.activeElement.textContent") == "Leave it", "the focus is on Leave it")
            sent_ = confirm(site, page)
            judge(sent_["do"] == do and standing(site, key) == after(case, do), f"{do} of {case}", sent_, standing(site, key))
            wait_until(lambda: page.text("#side p .tag")[:1] == after(case, do)[0], f"the page shows {do} of {case}")
        judge(not page.faults(), "the browser's log", page.faults())
        return f"{len(wanted())} requests of {len(CASES)} cases"

"""Does what a student does on a built page, and looks at what the page then says:
student.py PAGE.html [FOLDER-FOR-SCREENSHOTS]"""
import json
import os
import sys
import tempfile
import time

from browser import Page
from selenium.webdriver.common.keys import Keys

# A task for each number up to 1,700.
COUNTING = """.svc_limit 100
.svc_register s0, word
.svc_entry
loop: lw a0, 0(s0)
addi a0, a0, 1
sw a0, 0(s0)
li t0, 1700
blt a0, t0, loop
.svc_entry
li a7, 0
ecall
.data
word: .word 0
"""
# The same with more loads and stores than a run may have entries.
ENDLESS = COUNTING.replace("1700", "60000")
DATA = f"{os.path.dirname(os.path.abspath(__file__))}/../../crates/svc_cases/data"
SECTIONS = []


def section(function):
    SECTIONS.append(function)
    return function


def opened(page, lesson="violation"):
    page.open("")
    if lesson != "violation":
        page.choose("#lesson", lesson)
    page.settle()


def says(page, *words):
    text = page.text("#say")
    for it in words:
        assert it in text, f"the sentence lacks “{it}”: {text}"


def entries(page):
    return page.get("svcsim.page.session.entries.length")


def place(page):
    return page.get("svcsim.page.session.k")


@section
def a_squash_is_told(page):
    opened(page)
    assert entries(page) == 14, entries(page)
    for _ in range(6):
        page.click("#bf")
    early = "task 1 had loaded it too early, at entry 2, and got 0"
    row = "submit,0,,1,1,stored,0,7,,,violation,1,1"
    says(page, "Entry 5", "read too early", "Task 0 stores 7", early, "task 1 is squashed", row)
    assert "gone" in page.text("#caches") and "new" in page.text("#caches")
    assert "task 0, unit 0" in page.text("#vol") and "head" in page.text("#vol"), page.text("#vol")
    page.click("[data-k='3'].lnk")
    says(page, "Entry 2", "Task 1 loads", "gets 0", "memory served it")


@section
def the_end_is_the_sequential_run(page):
    opened(page)
    page.press(Keys.END)
    says(page, "committed", "The run has stopped: exit 7")
    assert "The same, as proved for every run." in page.text("#outs"), page.text("#outs")
    assert "Every move is refused" in page.text("#units"), page.text("#units")
    page.press(Keys.HOME)
    assert place(page) == 0


@section
def a_fault_is_underlined(page):
    opened(page)
    text = page.get("document.querySelector('#src').value")
    page.choose("#src", text.replace("lw a0", "lww a0"))
    page.wait("document.querySelector('.bad')", "the fault is underlined")
    message = page.text("#edmsg")
    assert "column 9" in message and "lww" in message and "expected" in message, message
    assert page.text(".bad") == "lww", page.text(".bad")
    page.choose("#src", text.replace("zero, 7", "zero, 9"))
    page.wait("document.querySelector('.okline')", "the text assembles")
    page.settle()
    page.press(Keys.HOME)
    page.click("#brun")
    page.press(Keys.END)
    assert page.get("svcsim.page.session.sequential.out.join()") == "9"


def is_refused(page, move):
    button = "document.querySelector(`[data-move='${arguments[0]}']`)"
    return page.get(f"{button}.getAttribute('aria-disabled') === 'true'", move)


@section
def the_fault_is_gone_to(page):
    opened(page)
    text = page.get("document.querySelector('#src').value").replace("lw a0", "lww a0")
    page.choose("#src", text)
    page.wait("document.querySelector('#bfault')", "the fault is told")
    page.click("#bfault")
    at = page.get("document.activeElement.id === 'src' ? document.activeElement.selectionStart : -1")
    assert text[at:].startswith("lww"), at


def cells(selector, what):
    return f"[...document.querySelectorAll('{selector}')].map((it) => {what})"


@section
def names_are_those_of_the_text(page):
    opened(page)
    for _ in range(6):
        page.click("#bf")
    says(page, "Task 0 stores 7 to word,")
    assert "task 0 @ store" in page.text("#svgbox"), page.text("#svgbox")
    names = page.get(f"{cells('#listing tr', 'it.cells[1].textContent')}.filter(Boolean).join()")
    assert names == "name,store,load", names
    opened(page, "sum")
    words = page.get(f"{cells('#mem tbody tr', 'it.cells[0].textContent')}.join()")
    assert words == "sum,left,right", words
    page.click("#t-cost")
    page.wait("document.querySelectorAll('#p-cost h3').length === 4", "all four tables are there")
    assert "violations-suffered\tname" in page.text("#p-cost"), page.text("#p-cost")
    page.click("#t-all")


@section
def units_versions_and_registers(page):
    opened(page)
    for _ in range(2):
        page.click("#bf")
    here = f"{cells('#listing .here', 'it.cells[0].textContent.trim() + ` ` + it.cells[2].textContent')}.join()"
    assert page.get(here) == "u0 0000,u1 0008", page.get(here)
    page.click("#bf")
    assert page.get(here) == "u0 0000,u1 000c", page.get(here)
    page.click("#bf")
    assert "a7 (x17) = 1" in page.text("#units"), page.text("#units")
    opened(page, "four")
    page.press(Keys.END)
    page.choose("#word", "0")
    order = page.get("svcsim.page.session.now().orders.find((it) => it.word === 0).holders.map((it) => it[1])")
    drawn = page.get(cells("#vol .nd span:first-child", "it.textContent.replace(/\u00a0/g, ' ')"))
    assert len(drawn) >= len(order) + 1 and drawn[0] == "memory itself", (order, drawn)
    is_committed = [it.startswith("committed") for it in drawn[1 : len(order) + 1]]
    assert is_committed == [it == "committed" for it in order], (order, drawn)


@section
def moves_by_hand(page):
    opened(page)
    page.click("#bclear")
    assert entries(page) == 0 and place(page) == 0
    for it in ["submit,0,1", "submit,0,63", "cancel,0,"]:
        assert is_refused(page, it), it
        assert "the unit has no task" in page.text(f'[data-move="{it}"]')
    assert not is_refused(page, "assign,0,0") and not is_refused(page, "assign,1,8")
    for it in ["assign,0,0", "assign,1,8", "submit,1,63", "submit,0,63"]:
        page.click(f'[data-move="{it}"]')
    assert entries(page) == 4 and place(page) == 4
    says(page, "read too early")
    page.click("#bu")
    page.click("#bu")
    assert entries(page) == 2
    page.click("#br")
    page.click("#br")
    assert entries(page) == 4
    page.click('[data-move="commit,0,"]')
    says(page, "committed")
    page.click("#bon")
    page.press(Keys.END)
    assert "The same" in page.text("#outs")
    steps = page.get("svcsim.page.session.steps.slice(0, 4).join(';')")
    assert steps == "assign,0,0;assign,1,8;submit,1,1;submit,0,2", steps


@section
def a_step_of_the_script_is_edited(page):
    opened(page)
    page.click("#t-script")
    steps = page.get("document.querySelector('#steps').value").split("\n")
    page.choose("#steps", "\n".join(["commit,0,", *steps]))
    page.click("#bapply")
    assert "1 of 15 steps is refused" in page.text("#mmsg"), page.text("#mmsg")
    assert entries(page) == 14
    assert "✕" in page.text("#answers")
    page.choose("#steps", "no,such,step")
    page.click("#bapply")
    assert "script fault row 2 column 1" in page.text("#mmsg"), page.text("#mmsg")
    assert entries(page) == 14


@section
def a_prediction(page):
    opened(page)
    page.click("#bpred")
    page.press(Keys.ARROW_RIGHT)
    page.press(Keys.ARROW_RIGHT)
    page.press(Keys.ARROW_RIGHT)
    says(page, "Who serves it?")
    assert place(page) == 2 and "out 0" not in page.text("#svgbox")
    page.press("1")
    says(page, "Right.", "Entry 2")
    for _ in range(3):
        page.click("#bf")
    says(page, "Who is squashed?")
    page.press("1")
    says(page, "Not so: you said", "nobody")
    assert "right: 1 of " in page.text("#at"), page.text("#at")
    page.press("p")


@section
def all_schedules(page):
    opened(page)
    page.click("#t-all")
    page.wait("document.querySelector('.seen')", "all schedules were followed")
    with open(f"{DATA}/explore/explore_violation_on_2_by_63.txt", encoding="utf-8") as it:
        rows = it.read().split("\n")
    it = dict(row.split(",") for row in rows[:4])
    wanted = f"all {it['states']} standings, each within {it['deepest']} steps; {it['moves']} moves"
    assert wanted in page.text("#p-all"), page.text("#p-all")
    assert page.get("document.querySelectorAll('.seen li').length") == 15
    assert "seen in the run" in page.text("#p-all") and "●" in page.text(".seen")
    page.click("[data-filter=squash]")
    assert page.get("document.querySelectorAll('.seen li').length") == 2
    page.click(".seen button")
    page.wait("svcsim.page.session.entries.length === 4", "a witness is loaded")
    says(page, "read too early")
    assert "squash 1" in page.text("#mmsg"), page.text("#mmsg")


@section
def an_exploration_is_stopped(page):
    opened(page, "rounds")
    page.wait("svcsim.tables.begun === 0", "the first exploration ends", 120)
    page.driver.execute_script("svcsim.page.session.by.states = 1000000")
    page.choose("#mu", "8")
    page.driver.execute_script("document.querySelector('#bexplore').click()")
    page.wait("document.querySelector('#bstop')", "it begins")
    time.sleep(1)
    page.click("#bf")
    page.driver.execute_script("document.querySelector('#bstop').click()")
    page.wait("svcsim.tables.begun === 0", "it ends")
    assert "Stopped." in page.text("#p-all"), page.text("#p-all")


@section
def a_refused_burst_is_told(page):
    opened(page, "full_set")
    found = page.ask("""const done = arguments[0]; (async () => {
      const { session } = svcsim.page;
      for (let k = 0; k <= session.entries.length; k++) {
        await session.go(k);
        await session.try_bursts();
        const at = [...session.now().tried].find(([, refusal]) => refusal !== '');
        if (at) return done([k, at[0]]);
      }
      done(null); })()""")
    if found:
        page.settle()
        assert is_refused(page, found[1]), found


@section
def a_program_by_its_name(page):
    for it, units in [("early", 3), ("full", 2)]:
        page.open(f"#program={it}")
        page.settle()
        assert page.get("[svcsim.page.session.lesson, svcsim.page.session.config.units]") == [it, units]
        assert page.get("document.querySelector('#lesson').value") == it


@section
def a_link_is_opened(page):
    opened(page, "full_set")
    page.press(Keys.END)
    page.click("#bb")
    page.click("#blink")
    page.wait("location.hash.length > 10", "the address has a fragment")
    what = "JSON.stringify([svcsim.page.session.steps, svcsim.page.session.k, svcsim.page.session.config])"
    fragment, before = page.get("location.hash"), page.get(what)
    page.open(fragment)
    page.settle()
    assert page.get(what) == before
    assert page.get("document.querySelector('#lesson').value") == "full_set"


@section
def files_are_saved_and_opened(page):
    opened(page, "handed_on")
    rows, script = "svcsim.page.session.entries.map((it) => it.row).join()", "svcsim.page.session.steps.join()"
    wanted, steps = page.get(rows), page.get(script)
    for it in ["program", "image", "script", "trace", "picture", "chrome", "vcd"]:
        page.click(f"[data-save={it}]")
    ends = [".s", ".svci", ".events.csv", ".trace.csv", ".svg", ".trace.json", ".vcd"]
    names = [f"handed_on{it}" for it in ends]
    end = time.time() + 20
    while time.time() < end and not all(os.path.isfile(f"{page.folder}/{it}") for it in names):
        time.sleep(0.1)
    for it in names:
        assert os.path.getsize(f"{page.folder}/{it}") > 0, it
    page.choose("#lesson", "violation")
    for name in [".svci", ".s", ".events.csv", ".trace.csv"]:
        box = page.driver.find_element("css selector", "#file")
        box.send_keys(f"{page.folder}/handed_on{name}")
        time.sleep(0.5)
        page.settle()
    assert page.get(rows) == wanted
    assert page.get(script) == steps
    with open(f"{page.folder}/handed_on.svg", encoding="utf-8") as it:
        assert "<svg" in it.read(), "a picture"
    with open(f"{page.folder}/handed_on.trace.json", encoding="utf-8") as it:
        events = json.load(it)["traceEvents"]
    assert {"load", "store", "commit"} <= {it["name"] for it in events}, "events for Perfetto"
    with open(f"{page.folder}/handed_on.vcd", encoding="utf-8") as it:
        assert "$enddefinitions" in it.read(), "waves"


@section
def every_program_of_the_menu_runs(page):
    names = page.get("[...document.querySelector('#lesson').options].map((it) => it.value).filter(Boolean)")
    assert len(names) == 12, names
    for it in names:
        opened(page, it)
        assert page.text("#edmsg").startswith("✓"), (it, page.text("#edmsg"))
        page.press(Keys.END)
        ending = page.get("svcsim.page.session.now().ending[0]")
        assert ending in ("exit", "trap"), (it, ending)
        if page.get("svcsim.page.session.sequential.out.length"):
            assert "The same" in page.text("#outs"), (it, page.text("#outs"))


@section
def a_fresh_library_after_a_failure(page):
    opened(page)
    page.click("#bf")
    page.driver.execute_script("svcsim.page.requests.library.stop()")
    page.click("#bf")
    page.click("#bf")
    assert place(page) == 3
    says(page, "Entry 2")


@section
def a_browser_without_wide_memories_is_told(page):
    source = {"source": "WebAssembly.validate = () => false"}
    added = page.driver.execute_cdp_cmd("Page.addScriptToEvaluateOnNewDocument", source)
    page.driver.get("about:blank")
    page.driver.get(f"file://{page.file}")
    page.driver.execute_cdp_cmd("Page.removeScriptToEvaluateOnNewDocument", added)
    page.wait("document.querySelector('#say .fault')", "the page says what it needs", 20)
    says(page, "64-bit WebAssembly memories")


@section
def by_keyboard_alone(page):
    opened(page)
    page.driver.execute_script("document.body.focus()")
    page.press(Keys.TAB)
    assert page.get("document.activeElement.className") == "skip"
    page.press("n")
    says(page, "read too early")
    labels = page.get("""[...document.querySelectorAll('button, input:not([hidden]), select, textarea')]
        .filter((it) => !it.closest('[hidden]') && !it.textContent.trim() && !it.labels?.length)
        .filter((it) => !it.getAttribute('aria-label') && !it.getAttribute('aria-labelledby'))
        .map((it) => it.outerHTML)""")
    assert not labels, labels
    untold = page.get("""[...document.querySelectorAll('[data-text]')]
        .filter((it) => !it.textContent || it.textContent === 'undefined').map((it) => it.outerHTML)""")
    assert not untold, untold


@section
def a_long_run(page):
    page.open("")
    page.settle()
    page.choose("#src", COUNTING)
    page.wait("document.querySelector('.okline')", "the text assembles")
    page.settle()
    page.choose("#mu", "2")
    page.choose("#sched", "rotate")
    page.click("#brun")
    count = entries(page)
    assert count >= 5000, count
    page.ask("const done = arguments[0]; svcsim.page.session.go(5000).then(done)")
    page.settle()
    times, calls, asked = page.ask("""const done = arguments[0]; (async () => {
      const { session, requests: { library } } = svcsim.page, all = [];
      let calls = 0, asked = 0;
      for (let n = 0; n < 12; n++) {
        const begun = performance.now(), before = library.calls;
        await session.go(session.k + 1);
        all.push(performance.now() - begun);
        calls += library.calls - before;
        asked += library.last.ms;
      }
      done([all.sort((a, b) => a - b), calls, asked / 12]); })()""")
    assert calls == 12, f"{calls} calls for 12 steps"
    took = f"{times[6]:.0f} ms ({times[0]:.0f} to {times[-1]:.0f}), one call of {asked:.0f} ms"
    print(f"a step near entry 5,000 of {count}: {took}")


@section
def what_takes_long_is_stopped(page):
    opened(page)
    before = page.get("svcsim.page.session.steps.join(';')")
    page.choose("#src", ENDLESS)
    page.wait("document.querySelector('.okline')", "the text assembles")
    page.settle()
    page.driver.execute_script("document.querySelector('#brun').click()")
    page.wait("!document.querySelector('#wait').hidden", "it takes long")
    page.click("#bhalt")
    assert "Stopped" in page.text("#mmsg"), page.text("#mmsg")
    assert page.get("svcsim.page.session.steps.join(';')") == before
    page.click("#bf")
    assert place(page) == 1


def overflow(page):
    assert page.get("document.documentElement.scrollWidth") <= page.width, "the page scrolls sideways"


def screenshots(file, folder):
    for width, is_dark in [(1280, False), (1280, True), (400, False), (400, True)]:
        page = Page(file, width, 900, is_dark)
        page.settle()
        page.wait("document.querySelector('.seen')", "all schedules were followed")
        for _ in range(6):
            page.click("#bf")
        overflow(page)
        page.picture(f"{folder}/{width}-{'dark' if is_dark else 'light'}.png")
        page.click("#bpred")
        page.click("#bf")
        page.click("#bf")
        says(page, "Who serves it?")
        page.picture(f"{folder}/{width}-{'dark' if is_dark else 'light'}-predict.png")
        page.close()


def main(file, folder=None):
    failed = 0
    with tempfile.TemporaryDirectory() as downloads:
        page = Page(file, folder=downloads)
        page.folder = downloads
        print(f"from opening to the first picture: {page.get('document.body.dataset.opened')} ms")
        for it in SECTIONS:
            try:
                it(page)
                faults = page.faults()
                assert not faults, faults
                print(f"{it.__name__} ok")
            except Exception as why:
                failed += 1
                print(f"{it.__name__}: {type(why).__name__} {why}")
        page.close()
    if folder:
        os.makedirs(folder, exist_ok=True)
        screenshots(file, folder)
    print(f"student: {len(SECTIONS) - failed} of {len(SECTIONS)} parts as expected")
    return 1 if failed else 0


if __name__ == "__main__":
    sys.exit(main(*sys.argv[1:3]))

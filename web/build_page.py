"""Puts module, worker, style, texts and programs into one page: build_page.py MODULE.wasm > page.html

Each script of the page becomes a function of its own, in the order in which they need one another; an import is what
another one returned. So the page needs neither a server nor a tool that packs it."""
import base64
import json
import os
import re
import sys

HERE = os.path.dirname(os.path.abspath(__file__))
ROOT = os.path.dirname(HERE)
# The programs of the menu: where the text is, and the machine and the schedule that show what it is about.
EXAMPLE = "crates/svc_cases/data/examples/{}.s"
PROGRAMS = [
    ("violation", EXAMPLE, {"units": 2}, "youngest"),
    ("handed_on", EXAMPLE, {"units": 2}, "rotate"),
    ("wrong_guess", EXAMPLE, {"units": 2}, "rotate"),
    ("full_set", EXAMPLE, {"units": 2, "sets": 1, "ways": 1}, "rotate"),
    ("lost_stack", EXAMPLE, {"units": 2}, "rotate"),
    ("sum", "docs/lessons/1-tasks.md", {"units": 4}, "rotate"),
    ("five", "docs/lessons/1-tasks.md", {"units": 4}, "rotate"),
    ("early", "docs/lessons/2-too-early.md", {"units": 3}, "youngest"),
    ("four", "docs/lessons/3-versions.md", {"units": 4}, "rotate"),
    ("rounds", "docs/lessons/4-guesses.md", {"units": 2}, "rotate"),
    ("lazy", "docs/lessons/5-lazy-commit.md", {"units": 2}, "rotate"),
    ("full", "docs/lessons/6-full-sets.md", {"units": 2, "sets": 1, "ways": 1}, "rotate"),
]


def text_of(name):
    with open(name, encoding="utf-8") as it:
        return it.read()


def program_of(name, place, config, order):
    text = text_of(f"{ROOT}/{place.format(name)}")
    if place.endswith(".md"):
        text = re.search(rf"^```asm {name}\.s\n(.*?)^```", text, re.M | re.S)[1]
    whole = {"units": 2, "sets": 16, "ways": 2, **config}
    return {"lesson": name, "text": text, "config": whole, "by": {"order": order, "seed": 0, "burst": 63}}


IMPORT = re.compile(r"^import \{([^}]*)\} from '\./(\w+)\.js';$", re.M | re.S)
EXPORT = re.compile(r"^export (?:async )?(?:const|function|class) ([\w$]+)", re.M)


def in_order(name, done):
    """The scripts that this one needs, and then it, each once."""
    if name not in done:
        for names, needed in IMPORT.findall(text_of(f"{HERE}/{name}.js")):
            in_order(needed, done)
            exported = EXPORT.findall(text_of(f"{HERE}/{needed}.js"))
            missing = [it for it in re.findall(r"[\w$]+", names) if it not in exported]
            assert not missing, f"{needed}.js exports no {missing}, which {name}.js imports"
        done.append(name)
    return done


def function_of(name):
    text = text_of(f"{HERE}/{name}.js")
    names = ", ".join(EXPORT.findall(text))
    text = IMPORT.sub(lambda it: f"const {{{it[1].replace(' as ', ': ')}}} = ${it[2]};", text)
    text = re.sub(r"^export (?=(?:async )?(?:const|function|class))", "", text, flags=re.M)
    return f"const ${name} = (() => {{\n{text}\nreturn {{ {names} }};\n}})();\n"


def literal(it):
    return json.dumps(it, ensure_ascii=False).replace("</", "<\\/").replace("<!--", "<\\!--")


def main():
    with open(sys.argv[1], "rb") as it:
        module = base64.b64encode(it.read()).decode()
    script = "'use strict';\n" + "".join(map(function_of, in_order("main", [])))
    parts = {
        "/*PROGRAMS*/ []": literal([program_of(*it) for it in PROGRAMS]),
        "/*WORKER*/ ''": literal(text_of(f"{HERE}/worker.js")),
        "/*MODULE*/ ''": literal(module),
    }
    for hole, filling in parts.items():
        assert script.count(hole) == 1, hole
        script = script.replace(hole, filling)
    page = text_of(f"{HERE}/index.html").replace("/*STYLE*/", text_of(f"{HERE}/style.css"))
    head, tail = page.split("/*SCRIPT*/")
    assert "</script" not in script
    sys.stdout.write(head + script + tail)


if __name__ == "__main__":
    main()

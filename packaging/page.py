"""Puts the page together: page.py WEB MODULES VERSION PAGE [--maps] writes one file of the parts
in WEB, the two modules in the folder MODULES and the version in the file VERSION.

The scripts in WEB, and those of the package in js/ beside it, are modules that name each other by
`import` and `export`; esbuild makes one script of them for the page and one for its worker, which
has Debian's pako to unpack the modules. With --maps each has a source map in it, for work on the
page. The page's policy lets run and style what was put into it, by its hash, and nothing else.
"""
import base64
import gzip
import hashlib
import json
import os
import subprocess
import sys
from pathlib import Path

MOST_BYTES = 460_000
# what tools/unproved puts into a module, and what a page of such modules says in place of its words
MARK = b"BEAROFF_UNPROVED"
UNPROVED = (
    ("<title>Bearing off, proved</title>", "<title>Bearing off, NOT PROVED</title>"),
    ('<p class="promise">Proved numbers.', '<p class="promise">NOT PROVED: made for tests.'),
)
# where Debian puts what is written for node
LIBRARIES = "/usr/share/nodejs"
# what the oldest browsers that have all else can read
TARGET = "es2020"
# the parts of the style: of two rules that are as specific the one in a later part
# holds. There are no cascade layers, since a browser that doesn't know them would show no style
STYLES = (
    "style/base",
    "board/style",
    "editor/style",
    "question/style",
    "review/style",
    "lesson/style",
    "teacher/style",
    "home/style",
    "style/training",
    "style/print",
)
# modules are strict, and a script says so
STRICT = '"use strict";'
# what each of the two scripts begins with
PAGE = 'import { start } from "./app.js";\nstart(document, window, PARTS);\n'
WORKER = (
    'import { ungzip } from "pako/dist/pako_inflate.js";\n'
    'import { serve } from "./worker.js";\nserve(self, ungzip);\n'
)


def run(words, **options):
    """What a tool writes on standard output."""
    try:
        done = subprocess.run(words, capture_output=True, text=True, **options)
    except FileNotFoundError:
        sys.exit(f"page: {words[0]} is missing: make needs installs it")
    if done.returncode != 0 or done.stderr:
        sys.exit(f"page: {words[0]} ended with status {done.returncode}\n{done.stderr}")
    return done.stdout


def script(web, entry, banner, maps):
    """One script of a text that imports modules, and of these."""
    words = [
        "esbuild",
        "--bundle",
        "--minify",
        "--format=iife",
        f"--target={TARGET}",
        "--log-level=warning",
        f"--banner:js={banner}",
        *(["--sourcemap=inline"] if maps else []),
    ]
    return run(words, cwd=web, input=entry, env={**os.environ, "NODE_PATH": LIBRARIES})


def packed(module):
    """A module as the page carries it."""
    return base64.b64encode(gzip.compress(module.read_bytes(), 9, mtime=0)).decode()


def hashed(text):
    """What the policy calls an element of this text."""
    return f"'sha256-{base64.b64encode(hashlib.sha256(text.encode()).digest()).decode()}'"


def policy(code, style):
    """What the page may do: run its script and its worker, have its style and its icon, and fetch
    nothing."""
    return "; ".join(
        (
            "default-src 'none'",
            f"script-src {hashed(code)} 'wasm-unsafe-eval'",
            f"style-src {hashed(style)}",
            "worker-src blob:",
            "img-src data:",
            "base-uri 'none'",
            "form-action 'none'",
        )
    )


def main(web, modules, version, page, maps=None):
    web, modules = Path(web), Path(modules)
    worker = script(web, WORKER, STRICT, maps)
    lessons = "".join(
        line
        for line in (web / "lessons.txt").read_text().splitlines(True)
        if not line.startswith("from:")
    )
    forms = {name: packed(modules / f"{name}.wasm") for name in ("wide", "narrow")}
    parts = json.dumps({"worker": worker, "lessons": lessons, **forms}).replace("</", "<\\/")
    # what the script is given stands behind it, so that its map holds
    code = script(web, PAGE, STRICT + "(PARTS=>{", maps)
    code = f"{code}}})({parts});"
    style = "".join((web / f"{name}.css").read_text() for name in STYLES)
    style = run(["esbuild", "--minify", "--loader=css"], input=style).strip()
    text = (web / "index.html").read_text()
    is_proved = not any(MARK in (modules / f"{name}.wasm").read_bytes() for name in forms)
    for words, others in () if is_proved else UNPROVED:
        if text.count(words) != 1:
            sys.exit(f"page: '{words}' stands not once in index.html")
        text = text.replace(words, others)
    licences = Path(__file__).with_name("third-party-licences.txt").read_text()
    for mark, part in (
        ("</html>", f"<!--\n{licences}-->\n</html>"),
        ("/*POLICY*/", policy(code, style)),
        ("/*STYLE*/", style),
        ("<!--VERSION-->", Path(version).read_text().strip()),
        ("<!--PROMISES-->", (web / "promises.html").read_text()),
        ("/*SCRIPT*/", code),
    ):
        if text.count(mark) != 1:
            sys.exit(f"page: {mark} stands not once in index.html")
        text = text.replace(mark, part)
    size = len(text.encode())
    if size > MOST_BYTES and not maps and is_proved:
        sys.exit(f"page: {size} bytes, more than {MOST_BYTES}")
    Path(page).parent.mkdir(parents=True, exist_ok=True)
    Path(page).write_text(text)
    print(f"page: {size} bytes in {page}{'' if is_proved else ', NOT PROVED'}")


main(*sys.argv[1:])

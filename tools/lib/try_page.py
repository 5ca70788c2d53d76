"""The page on which scripts are played in a browser: dali_web for WebAssembly, and the page around it, in one file."""

import base64
import json
import pathlib
import re
import zlib

from lib import ROOT, packing, program_files, proving, script_forms, site_script, targets
from yolgibat import story

WEB = ROOT / "tools/lib/web"
MADE = ROOT / "out/web/try.html"
EXAMPLES = ROOT / "examples"
FIRST = "plain-path.txt"
# What the file may have, in bytes.
MOST = 300_000
LIBRARY, CALLS = "dali_web", ("dali_web_play", "dali_web_tell")
STACK = 1 << 20
UNPROVED = '<p class="box bad">The player of this copy is not proved: it was made for a test of the page.</p>'


def player(module: pathlib.Path, folder: pathlib.Path) -> bytes:
    """The library for WebAssembly. It wants nothing of the page."""
    words = ["-Os", "-std=c11", "-ffreestanding", "-Wall", "-Wextra", "-Werror", "-I", targets.BARE]
    heap = targets.compiled(targets.WASM, words, WEB / "heap.c", folder / "heap.o")
    library, made = targets.library(targets.WASM, module, folder), folder / "player.wasm"
    link = ["--no-entry", "--gc-sections", "--strip-all", "--stack-first", "-z", f"stack-size={STACK}"]
    targets.kit_tool("wasm-ld", *link, *(f"--export={it}" for it in CALLS), library, heap, "-o", made)
    return made.read_bytes()


def packed(raw: bytes) -> str:
    """Bytes as text, compressed: the same ones each time."""
    press = zlib.compressobj(9, zlib.DEFLATED, -15)
    return base64.b64encode(press.compress(raw) + press.flush()).decode()


def texts() -> dict[str, object]:
    """What the page reads: the examples, the rules of made sites, and the licences."""
    licences = [f"{name}\n\n{file.read_text()}" for name, file in packing.licences(program_files.kit_crates([proving.workspace()[LIBRARY]]))]
    rules = {
        "frame": list(site_script.FRAME_TROUBLES), "commit": list(site_script.COMMIT_TROUBLES), "rounds": site_script.MOST_ROUNDS,
        "absence": site_script.LONGEST_ABSENCE, "draws": script_forms.MOST_DRAWS, "bytes": script_forms.MOST_BYTES, "last": site_script.LAST_RUN,
    }
    return {
        "examples": {it.name: it.read_text() for it in sorted(EXAMPLES.glob("*.txt"))}, "first": FIRST,
        "troubles": site_script.TROUBLES, "rules": rules, "licences": "\n\n".join(licences),
    }


def page(wasm: bytes, is_proved: bool) -> bytes:
    version, commit = packing.versions()[0], packing.commit() + (", with changes" if packing.is_changed() else "")
    parts = {
        "/*STYLE*/": (ROOT / "yolgibat/page.css").read_text(), "/*SITES*/": (WEB / "sites.js").read_text(), "/*PAGE*/": (WEB / "page.js").read_text(),
        "/*WORKER*/": (WEB / "player.js").read_text(), "/*PLAYER*/": packed(wasm), "/*VIEWER*/": packed(story.VIEWER.read_bytes()),
        "/*TEXTS*/": packed(json.dumps(texts()).encode()), "/*ABOUT*/": f"Version {version}, made of commit {commit}.",
        "<!--UNPROVED-->": "" if is_proved else UNPROVED,
    }
    text = (WEB / "page.html").read_text()
    return re.sub("|".join(map(re.escape, parts)), lambda it: parts[it[0]], text).encode()

#!/usr/bin/env python3
"""page.py page MODULE OUT [MADE]    puts the module, the parts of page/ and the example kernels into one file
page.py module PAGE OUT           takes the module out of a page
page.py text PAGE                 prints a page without its module, and without what says how that was made
page.py made PAGE                 prints what says how the module was made
page.py packed PAGE               prints how many bytes the module takes in the page
page.py table32 IN OUT            clears the 64-bit flag of a module's table, which no call uses, for Binaryen's lowering"""

import base64
import hashlib
import json
import pathlib
import re
import sys
import zlib

HERE = pathlib.Path(__file__).resolve().parent
TOP = HERE.parent
WORKER = ["machine.js", "worker.js"]
PAGE = ["run.js", "analysis.js", "runs.js", "hunt.js", "drawing.js", "map.js", "panels.js", "editor.js", "files.js", "page.js"]


def note(source):
    """The comment at the head of a kernel, as one text."""
    lines = []
    for line in source.splitlines():
        if not line.startswith("#"):
            break
        lines.append(line[1:].strip())
    return re.sub(r"\s+", " ", " ".join(lines)).replace("`", "")


def example(path, group):
    source = path.read_text()
    return {"name": path.stem, "group": group, "note": note(source), "processors": 3 if path.stem.startswith("three") else 2, "source": source}


def examples():
    """The labs, each with its fixed one, and the other kernels in assembly."""
    labs = sorted((TOP / "examples/labs").glob("*.s"))
    wrong = [it for it in labs if not it.stem.endswith("-fixed")]
    out = [example(it, "Labs: a bug of the interleaving") for it in wrong]
    out += [example(it.with_name(it.stem + "-fixed.s"), "The labs, fixed") for it in wrong]
    out += [example(it, "Other kernels") for it in sorted((TOP / "examples").glob("*.s"))]
    return json.dumps(out, ensure_ascii=False)[1:-1].replace("</", "<\\/")


def joined(names):
    """The parts, one behind the other, without the lines that are a comment."""
    return re.sub(r"^ *// .*\n", "", "".join((HERE / "page" / name).read_text() for name in names), flags=re.M)


def page(module, made):
    text = (HERE / "page/page.html").read_text()
    deflate = zlib.compressobj(9, zlib.DEFLATED, -15)
    packed = deflate.compress(module) + deflate.flush()
    parts = {
        "MADE": made, "STYLE": joined(["style.css"]), "DRAWING": joined(["drawing.css"]), "MODULE": base64.b64encode(packed).decode(),
        "WORKER": joined(WORKER), "EXAMPLES": examples(), "PAGE": joined(PAGE).replace("'use strict';\n", ""),
    }
    assert not any("</script" in it for it in parts.values())
    whole = re.sub(r"/\*(?!SCRIPT)([A-Z]+)\*/", lambda it: parts[it[1]], text)
    script = re.search(r"<script>(.*?)</script>", whole, re.S)[1]
    # the one script that the page may run is known by its sum, so that no text that is opened in it can bring another
    return whole.replace("/*SCRIPT*/", "sha256-" + base64.b64encode(hashlib.sha256(script.encode()).digest()).decode(), 1)


MODULE = re.compile(r'(<script type="application/base64" id="module">)([^<]*)(</script>)')
MADE = re.compile(r'(<meta name="talusdish" content=")([^"]*)(">)')


def module_of(text):
    return zlib.decompress(base64.b64decode(MODULE.search(text)[2]), -15)


def table32(module):
    out, i = bytearray(module), 8
    while i < len(out):
        kind, n, shift = out[i], 0, 0
        i += 1
        while True:
            byte = out[i]
            i += 1
            n |= (byte & 127) << shift
            shift += 7
            if not byte & 128:
                break
        if kind == 4:
            out[i + 2] &= ~4
        i += n
    return bytes(out)


def main():
    what, source, *rest = sys.argv[1:]
    if what == "page":
        pathlib.Path(rest[0]).write_text(page(pathlib.Path(source).read_bytes(), rest[1] if len(rest) > 1 else ""))
    elif what == "module":
        pathlib.Path(rest[0]).write_bytes(module_of(pathlib.Path(source).read_text()))
    elif what == "text":
        sys.stdout.write(MADE.sub(r"\1\3", MODULE.sub(r"\1\3", pathlib.Path(source).read_text())))
    elif what == "made":
        print(MADE.search(pathlib.Path(source).read_text())[2])
    elif what == "packed":
        print(len(MODULE.search(pathlib.Path(source).read_text())[2]))
    elif what == "table32":
        pathlib.Path(rest[0]).write_bytes(table32(pathlib.Path(source).read_bytes()))
    else:
        sys.exit(__doc__)


if __name__ == "__main__":
    main()

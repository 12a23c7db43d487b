#!/usr/bin/env python3
"""page.py MODULE LIBRARY VERSION TO [--served]: writes the page as one file that loads nothing else.

The file has the style, the scripts, the module (compressed, as base64) and the files of the library. Its content policy
allows these scripts and this style by their hashes and nothing from a network. With --served, TO is a folder for a server:
the page with a manifest and a service worker, by which a browser can install it. Its policy allows these two as well.
"""

import base64
import gzip
import hashlib
import json
import re
import shutil
import sys
from pathlib import Path

WEB = Path(__file__).resolve().parent.parent.parent / "web"
STYLE = '<link rel="stylesheet" href="style.css">'
DATA = '<script src="data.js"></script>'
SUPPORT = '<script src="support.js"></script>'
SCRIPT = re.compile(r'<script src="(\w+\.js)"></script>\n')
COMMENT = re.compile(r"^ *//.*\n", re.M)
MANIFEST = '<link rel="manifest" href="manifest.webmanifest">\n<link rel="icon" href="icon.svg">'
SELF = "'self'"
REGISTRATION = "\nnavigator.serviceWorker?.register('service_worker.js');\n"


def source_hash(text: str) -> str:
    return f"'sha256-{base64.b64encode(hashlib.sha256(text.encode()).digest()).decode()}'"


def data_of(module: bytes, library: Path, release: str) -> str:
    version = f"units {release}. Module of {len(module):,} bytes, SHA-256 {hashlib.sha256(module).hexdigest()}."
    # Without a time and with a fixed level, the bytes depend on the module alone.
    compressed = base64.b64encode(gzip.compress(module, 9, mtime=0)).decode()
    sources = {file.name: file.read_text() for file in sorted(library.glob("*.units"))}
    edition = hashlib.sha256(module + json.dumps(sources, sort_keys=True).encode()).hexdigest()[:8]
    data = {"edition": f"{release}-{edition}", "library": sources, "module": compressed, "version": version}
    return json.dumps(data, ensure_ascii=False, sort_keys=True).replace("</", "<\\/")


def script_of(*names: str) -> str:
    texts = ((WEB / name).read_text().replace("'use strict';\n", "") for name in names)
    return "\n'use strict';\n" + COMMENT.sub("", "".join(texts))


def page_of(data: str, is_served: bool) -> str:
    page = (WEB / "index.html").read_text()
    style = f"\n{(WEB / 'style.css').read_text()}"
    names = [name for name in SCRIPT.findall(page) if name not in ("data.js", "support.js")]
    support, script = script_of("support.js"), script_of(*names) + (REGISTRATION if is_served else "")
    policy = f"default-src 'none'; img-src {'data:' if not is_served else SELF}; style-src {source_hash(style)}; " \
        f"script-src {source_hash(support)} {source_hash(script)} 'wasm-unsafe-eval'"
    policy += f"; manifest-src {SELF}; worker-src {SELF}; connect-src {SELF}" * is_served
    meta = f'<meta http-equiv="Content-Security-Policy" content="{policy}">'
    page = page.replace('<meta charset="utf-8">', f'<meta charset="utf-8">\n{meta}')
    page = page.replace(STYLE, f"<style>{style}</style>")
    page = page.replace(SUPPORT, f"<script>{support}</script>")
    page = page.replace(DATA, f'<script type="application/json" id="data">{data}</script>')
    if is_served:
        page = page.replace('<link rel="icon" href="data:,">', MANIFEST)
    return SCRIPT.sub("", page).replace("</body>", f"<script>{script}</script>\n</body>")


def write_served(page: str, folder: Path) -> None:
    """Writes the files for a server. The service worker has the sum of the others, so that a new edition replaces it."""
    folder.mkdir(parents=True, exist_ok=True)
    (folder / "index.html").write_text(page)
    for name in ("manifest.webmanifest", "icon.svg"):
        shutil.copyfile(WEB / name, folder / name)
    files = b"".join((folder / name).read_bytes() for name in ("index.html", "manifest.webmanifest", "icon.svg"))
    worker = (WEB / "service_worker.js").read_text()
    (folder / "service_worker.js").write_text(worker.replace("'EDITION'", f"'{hashlib.sha256(files).hexdigest()[:16]}'"))


def main() -> None:
    module, library, to = Path(sys.argv[1]).read_bytes(), Path(sys.argv[2]), Path(sys.argv[4])
    is_served = sys.argv[5:] == ["--served"]
    page = page_of(data_of(module, library, sys.argv[3]), is_served)
    if is_served:
        write_served(page, to)
    else:
        to.write_text(page)


if __name__ == "__main__":
    main()

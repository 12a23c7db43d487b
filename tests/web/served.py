"""The page in a browser that lacks a feature, and a served copy that a browser can install."""

from __future__ import annotations

import gzip
import json
import subprocess
import tempfile
import threading
from functools import partial
from http.server import SimpleHTTPRequestHandler, ThreadingHTTPServer
from pathlib import Path
from typing import Any

from chromium import Chromium
from page import Page

ROOT = Path(__file__).resolve().parents[2]
MOST_BYTES = 450_000
ANSWER = ("60 mph", "km/h")
REPLY = "\t* 96.56064\n\t/ 0.010356187\n"


class QuietHandler(SimpleHTTPRequestHandler):
    extensions_map = {**SimpleHTTPRequestHandler.extensions_map, ".webmanifest": "application/manifest+json"}

    def log_message(self, *_: object) -> None:
        pass


def check_support(page_file: Path, browser: Chromium, equal: Any) -> None:
    for feature in ("DecompressionStream", "WebAssembly", "BigInt64Array"):
        script = browser.call("Page.addScriptToEvaluateOnNewDocument", source=f"delete window.{feature}")["identifier"]
        browser.open(page_file.as_uri())
        text = browser.value("document.getElementById('failure').hidden ? '' : document.getElementById('failure').textContent")
        equal(f"a browser without {feature}", f"has no {feature}" in text, True)
        browser.call("Page.removeScriptToEvaluateOnNewDocument", identifier=script)


def check_installed(browser: Chromium, equal: Any) -> None:
    with tempfile.TemporaryDirectory() as folder:
        subprocess.run([ROOT / "tools/web.sh", "--served", folder], check=True)
        with ThreadingHTTPServer(("127.0.0.1", 0), partial(QuietHandler, directory=folder)) as server:
            threading.Thread(target=server.serve_forever, daemon=True).start()
            page = Page(browser, f"http://127.0.0.1:{server.server_port}/")
            browser.events.clear()
            page.open()
            browser.value("navigator.serviceWorker.ready.then(() => true)")
            page.wait(500)
            manifest = browser.call("Page.getAppManifest")
            equal("faults of the manifest", manifest["errors"], [])
            equal("the name of the installed page", json.loads(manifest["data"])["name"], "units")
            faults = [fault["errorId"] for fault in browser.call("Page.getInstallabilityErrors")["installabilityErrors"]]
            equal("what keeps a browser from installing the page", [fault for fault in faults if fault != "in-incognito"], [])
            hosts = {url.split("/")[2] for url in browser.requests() if url.startswith("http")}
            equal("the hosts that a served copy asks", hosts, {f"127.0.0.1:{server.server_port}"})
            server.shutdown()
        page.open()
        equal("an answer without the server", page.ask([ANSWER])[0][0], REPLY)
        browser.value("navigator.serviceWorker.getRegistrations().then(all => Promise.all(all.map(one => one.unregister())))")


def check(page_file: Path, browser: Chromium, equal: Any) -> None:
    equal("at most 450 kB by gzip", len(gzip.compress(page_file.read_bytes(), 9)) <= MOST_BYTES, True)
    check_support(page_file, browser, equal)
    check_installed(browser, equal)

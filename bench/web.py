"""web.py PAGE ROUNDS: the measurements of web.sh."""

from __future__ import annotations

import base64
import gzip
import json
import re
import sys
import tempfile
from pathlib import Path
from statistics import median

ROOT = Path(__file__).resolve().parent.parent
sys.path.insert(0, str(ROOT / "tests/web"))
import cases  # noqa: E402
from chromium import Chromium  # noqa: E402
from page import Page  # noqa: E402

DATA = re.compile(r'<script type="application/json" id="data">(.*?)</script>', re.S)
QUESTIONS = 200
EMPTY_PAGE = """<!doctype html><html lang="en"><meta charset="utf-8"><title>empty</title><body>
<script type="application/json" id="data">{data}</script>
<script>(async () => {{
  const packed = Uint8Array.from(atob(JSON.parse(data.textContent).module), letter => letter.charCodeAt(0));
  const unpacked = new Blob([packed]).stream().pipeThrough(new DecompressionStream('gzip'));
  await WebAssembly.compile(await new Response(unpacked).arrayBuffer());
  document.documentElement.dataset.started = Math.round(performance.now());
}})();</script></body></html>
"""


def start_time(browser: Chromium, url: str) -> float:
    page = Page(browser, url)
    browser.open(url)
    page.wait_for("document.documentElement.dataset.started")
    return float(browser.value("document.documentElement.dataset.started"))


def main() -> None:
    page_file, rounds = Path(sys.argv[1]).resolve(), int(sys.argv[2])
    data = json.loads(DATA.search(page_file.read_text()).group(1))
    compressed = base64.b64decode(data["module"])
    print(f"page {page_file.stat().st_size:,} bytes; module {len(gzip.decompress(compressed)):,} bytes, "
          f"{len(compressed):,} by gzip")
    browser = Chromium()
    try:
        with tempfile.TemporaryDirectory() as folder:
            empty = Path(folder, "empty.html")
            empty.write_text(EMPTY_PAGE.format(data=json.dumps({"module": data["module"]})))
            urls = {"an empty page": empty.as_uri(), "the first answer": page_file.as_uri() + "#from=10+meters&to=feet"}
            times: dict[str, list[float]] = {name: [] for name in urls}
            for _ in range(rounds):
                for name, url in urls.items():
                    times[name].append(start_time(browser, url))
            for name, page_times in times.items():
                print(f"{name:18} {min(page_times):6.0f} ms at least, {median(page_times):6.0f} in the middle")
            one, other = times.values()
            print(f"{'ratio':18} {min(other) / min(one):6.2f} at least, {median(other) / median(one):6.2f} in the middle")
            for name, text in data["library"].items():
                Path(folder, name).write_text(text)
            pairs = [question for question in cases.questions(QUESTIONS, Path(folder)) if question[0].strip()]
        page_times = sorted(time for _, _, time in Page(browser, urls["the first answer"]).ask(pairs))
        print(f"from typing to the answer: {median(page_times):.0f} ms in the middle, {page_times[-1]:.0f} at most")
    finally:
        browser.close()


if __name__ == "__main__":
    main()

"""Checks the module in the page: runs with too little memory, and the module for 64-bit memory."""

from __future__ import annotations

import base64
import json
from pathlib import Path
from typing import Any

import cases

OUT_OF_MEMORY = 6
MEMORY_SECTION = 5
# The memory section is near the start of a module.
HEAD_BYTES = 16384

# Defines `runModule(bytes, runs)`, which runs a module with the page's files and returns [status, out, err, trap] of
# each run, and `ownModule`, the bytes of the page's module.
DEFINITIONS = """(async () => {
  window.bytesOf = base64 => Uint8Array.from(atob(base64), letter => letter.charCodeAt(0));
  window.runModule = async (bytes, runs) => {
    const module = await WebAssembly.compile(bytes);
    return runs.map(({words, input}) => {
      const {status, out, err, trap} = program.run(module, {words, input, files: files.contents()});
      return [status, out, err, trap];
    });
  };
  const packed = bytesOf(JSON.parse(document.getElementById('data').textContent).module);
  const unpacked = new Blob([packed]).stream().pipeThrough(new DecompressionStream('gzip'));
  window.ownModule = new Uint8Array(await new Response(unpacked).arrayBuffer());
})()"""


def read_number(code: bytes, at: int) -> tuple[int, int]:
    value = shift = 0
    while True:
        value |= (code[at] & 127) << shift
        shift, at = shift + 7, at + 1
        if code[at - 1] < 128:
            return value, at


def number(value: int) -> bytes:
    out = bytearray()
    while value > 127:
        out.append(value & 127 | 128)
        value >>= 7
    return bytes([*out, value])


def memory_limits(module: bytes) -> tuple[int, int, int, int]:
    """The start and the end of the memory section, and its minimum and maximum number of pages."""
    at = 8
    while at < len(module):
        start, kind = at, module[at]
        size, at = read_number(module, at + 1)
        if kind == MEMORY_SECTION:
            least, at_greatest = read_number(module, at + 2)
            return start, at + size, least, read_number(module, at_greatest)[0]
        at += size
    raise ValueError("a module without memory")


def with_memory_limit(module: bytes, pages: int) -> str:
    """An expression for the page's module with at most this number of pages of memory."""
    start, end, least, _ = memory_limits(module)
    limits = bytes([1, 1]) + number(least) + number(pages)
    section = bytes([MEMORY_SECTION]) + number(len(limits)) + limits
    return f"new Uint8Array([...ownModule.subarray(0, {start}), ...{list(section)}, ...ownModule.subarray({end})])"


def check_memory(page: Any, native: Any, tally: Any) -> None:
    """With any limit on memory, a run either ends as usual or runs out of memory after the first part of its output."""
    page.open()
    page.browser.value("localStorage.clear()")
    page.open()
    page.browser.value(DEFINITIONS)
    head = bytes(page.browser.value(f"[...ownModule.subarray(0, {HEAD_BYTES})]"))
    words, lines = ["-f", cases.OWN_FILE], ["10 m\n", "?\n", ":define smoot 67 in\n", "smoot\n", "m\n"]
    runs = json.dumps([{"words": words, "input": lines}])
    whole = native.run(words, "".join(lines))
    least, refusals = memory_limits(head)[2], 0
    for more in (0, 2, 8, 16, 32, 1024):
        [[status, out, _, trap]] = page.browser.value(f"runModule({with_memory_limit(head, least + more)}, {runs})")
        refusals += status == OUT_OF_MEMORY
        is_whole = (status, out, trap) == (whole.returncode, whole.stdout, None)
        is_refused = status == OUT_OF_MEMORY and trap is None and whole.stdout.startswith(out)
        tally.equal(f"a run with {more} more pages of memory: {status} {trap}", is_whole or is_refused, True)
    tally.equal("a run is refused memory with some limit", refusals > 0, True)


def check_module64(page: Any, file: Path, native: Any, tally: Any) -> None:
    """The module for 64-bit memory gives the same replies as the native program."""
    questions = [question for question in cases.questions(60, native.folder) if question[0].strip()]
    words = [["-f", cases.OWN_FILE, "--", from_, *([to] if to.strip() else [])] for from_, to in questions]
    runs = json.dumps([{"words": line, "input": []} for line in words])
    code = base64.b64encode(file.read_bytes()).decode()
    for line, result in zip(words, page.browser.value(f"runModule(bytesOf('{code}'), {runs})")):
        process = native.run(line)
        tally.equal(f"64-bit memory: {line}", result, [process.returncode, process.stdout, process.stderr, None])

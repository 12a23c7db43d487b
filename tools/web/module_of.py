#!/usr/bin/env python3
"""module_of.py PAGE TO: writes the WebAssembly module of the page."""

import base64
import gzip
import json
import re
import sys
from pathlib import Path

page, to = map(Path, sys.argv[1:])
data = re.search(r'<script type="application/json" id="data">(.*?)</script>', page.read_text(), re.S)
if data is None:
    sys.exit(f"module_of: {page} has no module")
to.write_bytes(gzip.decompress(base64.b64decode(json.loads(data.group(1))["module"])))

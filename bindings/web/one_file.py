#!/usr/bin/env python3
"""Writes the page with its scripts, its module and the books of countries in one file, which a browser opens without a server."""

import base64
import gzip
import re
import sys
from pathlib import Path

from books import books_of_countries

WEB = Path(__file__).resolve().parent
SCRIPTS = ("icu_calendar.mjs", "names.mjs", "words.mjs", "lists.mjs", "holidays.mjs", "address.mjs", "page.mjs")
# Base64 hides repetitions from the compression of a server, so what it holds is compressed below it. The module is compiled while the page is read.
UNPACKED = """<script>
function unpacked(packed, type) {
  const bytes = Uint8Array.fromBase64?.(packed) ?? Uint8Array.from(atob(packed), (it) => it.charCodeAt(0));
  const unpacking = new DecompressionStream("gzip");
  const writer = unpacking.writable.getWriter();
  writer.write(bytes);
  writer.close();
  return new Response(unpacking.readable, { headers: { "content-type": type } });
}
const MODULE = WebAssembly.compileStreaming(unpacked("%s", "application/wasm"));
MODULE.catch(() => {});
</script>
"""
# What the page fetches from a server, and what stands for it.
FETCHED = {'fetch("icu_calendar.wasm")': "MODULE", 'fetch("books.json")': 'unpacked("%s", "application/json")'}


def packed(content: bytes) -> str:
    return base64.b64encode(gzip.compress(content, 9, mtime=0)).decode()


def script(name: str) -> str:
    """A script without its imports, its exports and the lines of its comments: all of them stand in one module."""
    text = (WEB / name).read_text()
    text = re.sub(r"^ *(?:/\*\*(?:(?!\*/).)*\*/|//[^\n]*)\n", "", text, flags=re.M | re.S)
    text = re.sub(r"^import .*?;\n", "", text, flags=re.M | re.S)
    return re.sub(r"^export ", "", text, flags=re.M)


def main() -> int:
    module, books = packed(Path(sys.argv[1]).read_bytes()), packed(books_of_countries().encode())
    page = (WEB / "index.html").read_text()
    page, count = re.subn(r"^  import .*?;\n", "", page, flags=re.M)
    begin, head = '<script type="module">\n', "</head>\n"
    if count != 2 or any(page.count(it) != 1 for it in (begin, head, *FETCHED)):
        sys.exit("bindings/web/index.html isn't as this script takes it apart")
    for asked, given in FETCHED.items():
        page = page.replace(asked, given.replace("%s", books))
    page = page.replace(begin, begin + "\n".join(map(script, SCRIPTS)) + "\n")
    sys.stdout.write(page.replace(head, UNPACKED.replace("%s", module) + head))
    return 0


if __name__ == "__main__":
    sys.exit(main())

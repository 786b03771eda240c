"""giop-report in a browser without network: its pictures are drawn and nothing is refused; names of peers that are markup stay
text, so that the page has the elements, the attributes and the title of any other; and calls give what their lines give."""

from __future__ import annotations

import json
import os
import re
import subprocess
import sys
from collections import Counter
from html.parser import HTMLParser
from pathlib import Path
from tempfile import TemporaryDirectory
from typing import Any, Dict, List, Optional, Tuple

from failing import TOP

SCRIPTS = TOP / "scripts"
SESSION, HOSTILE = (SCRIPTS / f"tests/{name}.lines" for name in ("session", "hostile"))
CHROMIUM = "chromium --headless --no-sandbox --disable-gpu --virtual-time-budget=5000 --enable-logging=stderr --v=0"
ROWS = ("tr", "td", "th", "b", "span")  # elements of which there are as many as there are rows and columns


class Page(HTMLParser):
    """The elements of a page, the names of their attributes, and its title."""

    def __init__(self, text: str) -> None:
        super().__init__()
        self.elements: "Counter[str]" = Counter()
        self.attributes: Dict[str, int] = {}
        self.cells: List[str] = []
        self.title = ""
        self._open = ""
        self.feed(text)

    def handle_starttag(self, tag: str, attrs: List[Tuple[str, Optional[str]]]) -> None:
        self._open = tag
        self.elements[tag] += 1
        self.attributes.update((name, 1) for name, _ in attrs)
        if tag == "td":
            self.cells.append("")

    def handle_endtag(self, tag: str) -> None:
        self._open = ""

    def handle_data(self, data: str) -> None:
        if self._open == "title":
            self.title += data
        if self._open in ("td", "b") and self.cells:
            self.cells[-1] += data


def reported(octets: bytes, *words: str) -> str:
    """The page that giop-report makes of lines or calls."""
    done = subprocess.run([SCRIPTS / "giop-report", *words], input=octets, capture_output=True, timeout=60)
    assert (done.returncode, done.stderr) == (0, b""), done
    return done.stdout.decode()


def shown(page: str, folder: Path) -> str:
    """The document that a browser without network makes of a page, in which no script failed or was refused."""
    path = folder / "page.html"
    path.write_text(page)
    # Who isn't root needs a namespace of users too, which there is none of under chroot.
    apart = ["unshare", "--net"] if os.geteuid() == 0 else ["unshare", "--map-root-user", "--net"]
    words = [*apart, *CHROMIUM.split(), f"--user-data-dir={folder}/user", "--dump-dom"]
    done = subprocess.run([*words, path.as_uri()], capture_output=True, timeout=120)
    said = done.stderr.decode(errors="replace")
    assert done.returncode == 0 and not re.search("CONSOLE.* source: file:", said), said
    return done.stdout.decode()


def data_of(page: str) -> Any:
    """What the pictures of a page are drawn of, in which nothing can end a script."""
    found = re.search(r'<script type="application/json" id="data">(.*?)</script>', page)
    assert found and not re.search("[<>&]", found[1])
    return json.loads(found[1])


def check_calls(octets: bytes) -> Any:
    """The pictures of lines are those of their calls, which are read whole; gives what they are drawn of."""
    data = data_of(reported(octets))
    calls = subprocess.run([SCRIPTS / "giop-json", "--calls"], input=octets, stdout=subprocess.PIPE, check=True).stdout
    again = data_of(reported(calls))
    spread = {each["operation"]: each for each in again["spread"]}
    for each in data["spread"]:
        assert all(abs(spread[each["operation"]][name] - each[name]) < 1e-9 for name in ("min", "median", "p95", "max"))
    assert {**again, "spread": data["spread"], "top": data["top"], "sample": data["sample"]} == data
    return data


def check_session(folder: Path) -> Page:
    """The page of the session: its totals, its pictures, and those of its calls; gives it as it is shown."""
    octets = SESSION.read_bytes()
    page = reported(octets)
    data = check_calls(octets)
    assert [each["operation"] for each in data["spread"]][:3] == ["_is_a", "resolve", "bind"], data["spread"]
    assert len(data["sample"]) == 10 and sum(data["series"]["answered"]) == 8 and sum(data["series"]["failed"]) == 2
    for member in (b"operation", b"outcome", b"reply_message"):  # arguments that are called as what a call has
        named = check_calls(octets.replace(b"body.n", b"body." + member))
        assert named == data, member
    check_calls(HOSTILE.read_bytes())
    one = data_of(reported(octets, "--operation", "resolve"))
    assert [each["operation"] for each in one["spread"]] == ["resolve"] and len(one["sample"]) == 2
    document = shown(page, folder)
    drawn = re.findall(r'<canvas id="\w+" width="\d+" height="\d+"', document)
    assert len(drawn) == 3, drawn
    return Page(document)


def main() -> int:
    """Prints figures."""
    with TemporaryDirectory() as name:
        folder = Path(name)
        session = check_session(folder)
        page = reported(HOSTILE.read_bytes())
        data_of(page)
        hostile = Page(shown(page, folder))
        empty = Page(shown(reported(b"", "--title", "<b onclick=x>"), folder))
    assert session.title == hostile.title == "GIOP calls" and empty.title == "<b onclick=x>"
    for other in (hostile, empty):
        assert set(other.elements) <= set(session.elements), other.elements
        assert set(other.attributes) <= set(session.attributes), other.attributes
        assert all(other.elements[tag] == count for tag, count in session.elements.items() if tag not in ROWS)
    assert not any(name.startswith("on") for name in session.attributes)
    assert any("<script>" in cell for cell in hostile.cells), "no name that is markup"
    print(f"report: 3 pages in a browser, {sum(hostile.elements.values())} elements of one with hostile names")
    return 0


if __name__ == "__main__":
    sys.exit(main())

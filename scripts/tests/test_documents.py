"""The documents: where their links lead (scripts/tools/check-links), and how long README is."""

import sys

from shared.checks import expect
from shared.running import SCRIPTS, TOP, run
from tests.suite import make_folder, test, test_each

CHECK = [sys.executable, SCRIPTS / "tools/check-links"]
HERE = make_folder()
MOST_LINES, MOST_IN_BULLET, COLUMNS = 60, 5, 100
README = """# One

[two](docs/TWO.md), [its `part`](docs/TWO.md#a-part-of-it) and [elsewhere](https://example.org/)
"""
TWO = """# Two

## A `part` of it

## A `part` of it

[Above](#two), [the second](#a-part-of-it-1) and `[code](nowhere.md)`.

```
# No heading
[no link](nowhere.md)
```
"""


def check(readme=README, two=TWO):
    """What the check says of a repository: its status and its lines, without its own name."""
    (HERE / "docs").mkdir(exist_ok=True)
    (HERE / "README.md").write_text(readme)
    (HERE / "docs/TWO.md").write_text(two)
    end = run(*CHECK, HERE)
    return end.status, end.out.decode().replace("links: ", "").splitlines()


@test
def links_of_this_repository():
    end = run(*CHECK)
    expect("its links", (end.status, end.err), (0, ""))


@test_each
def links():
    """A file that isn't there, a heading that isn't, and one that is only in a block of code."""
    expect("good ones", check(), (0, ["4 lead to a file or a heading"]))
    wanted = "README.md: docs/TWO.md: there is no such file"
    other = README.replace("docs/TWO.md)", "docs/THREE.md)")
    expect("a file", check(readme=other), (1, [wanted.replace("TWO", "THREE")]))
    wanted = "docs/TWO.md: #{}: there is no such heading"
    for anchor in ("Two", "a-part", "a-part-of-it-2", "no-heading"):
        two = TWO.replace("(#two)", f"(#{anchor})")
        expect(f"a heading {anchor}", check(two=two), (1, [wanted.format(anchor)]))


@test
def readme_is_short():
    """README has at most sixty lines, and no bullet is longer than five lines of 100 columns."""
    lines = (TOP / "README.md").read_text().splitlines()
    expect("its lines are few", len(lines) <= MOST_LINES, True)
    bullets = (line for line in lines if line.startswith("- "))
    long = [line for line in bullets if len(line) > MOST_IN_BULLET * COLUMNS]
    expect("its long bullets", long, [])

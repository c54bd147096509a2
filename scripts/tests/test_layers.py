"""The check of the layers (scripts/tools/check-layers), on this repository and on broken ones."""

import sys

from shared.checks import expect
from shared.running import SCRIPTS, run
from tests.suite import make_folder, test, test_each

CHECK = [sys.executable, SCRIPTS / "tools/check-layers"]
HERE = make_folder()
CRATES = """# What each crate is for, and what it depends on.

# Numbers.
base:

# Pieces of numbers.
parts: base

# Puts the parts together.
whole: base parts thiserror
"""
PICTURE = """# Architecture

```text
 top:     whole          # the program
            |
 middle:  parts
            |
 bottom:  base           # numbers
```
"""
FILES = {
    "base/src/lib.rt": "pub fn one() {}\n",
    "parts/specs/Lib.antt": "use Rattle.base.specs.Numbers.{one}\n",
    "whole/src/main.rt": "use base::one;\nuse thiserror::Error;\nfn main() { parts::join(); }\n",
}


def check(crates=CRATES, picture=PICTURE, **changed):
    """What the check says of a repository: its status and its lines, without its own name."""
    files = {"crates.txt": crates, "docs/ARCHITECTURE.md": picture}
    files.update((f"crates/{name}", text) for name, text in FILES.items())
    files.update(changed)
    for name, text in files.items():
        path = HERE / name
        path.parent.mkdir(parents=True, exist_ok=True)
        path.write_text(text)
    end = run(*CHECK, HERE)
    return end.status, end.out.decode().replace("layers: ", "").splitlines()


def expect_refused(what, wanted, **changed):
    expect(what, check(**changed), (1, [wanted]))


@test
def this_repository():
    end = run(*CHECK)
    expect("its layers", (end.status, end.err), (0, ""))


@test
def a_small_repository():
    expect("its layers", check(), (0, ["3 crates on 3 levels, each above what it depends on"]))


@test_each
def levels():
    """A crate depends on one of a higher level, and on one of its own level."""
    turned = PICTURE.replace("parts", "x").replace("base ", "parts ").replace(" x", " base")
    wanted = "parts depends on base, which isn't on a lower level"
    expect_refused("a higher level", wanted, picture=turned)
    level = PICTURE.replace(" parts", "").replace(" base ", " base parts ")
    level = level.replace(" middle:", "   |")
    expect_refused("its own level", wanted, picture=level)


@test_each
def names():
    """The picture and crates.txt don't name the same crates, each once."""
    wanted = "parts isn't in the picture"
    expect_refused("one isn't drawn", wanted, picture=PICTURE.replace("parts", ""))
    wanted = "more is in the picture and not in crates.txt"
    expect_refused("one isn't listed", wanted, picture=PICTURE.replace("whole", "whole more"))
    wanted = "base is twice in the picture"
    expect_refused("one is drawn twice", wanted, picture=PICTURE.replace(" parts", " parts base"))
    wanted = "base is twice in crates.txt"
    expect_refused("one is listed twice", wanted, crates=f"{CRATES}\n# Again.\nbase:\n")


@test_each
def pictures():
    """A line that is no level, and no picture at all."""
    wanted = "the picture has a line that is no level: the parts"
    expect_refused("a line", wanted, picture=PICTURE.replace("            |\n", "the parts\n", 1))
    gone = PICTURE.replace("```text", "```")
    status, said = check(picture=gone)
    expect("no picture", (status, said[0]), (1, "docs/ARCHITECTURE.md has no picture"))


@test_each
def idle_dependencies():
    """A dependency counts as used where a file has `use NAME`, `NAME::` or `Rattle.NAME.`."""
    file = "crates/parts/specs/Lib.antt"
    for text in ("use base::one;", "base::one();", "ghost use Rattle.base.specs.Numbers.{one};"):
        expect(text, check(**{file: f"{text}\n"})[0], 0)
    for text in ("", "-- use base", "use database::one;", "crate::base::one();", "Rattle.basic.x"):
        wanted = "parts depends on base, and names it nowhere"
        expect_refused(text, wanted, **{file: f"{text}\n"})
    other = {"crates/whole/src/main.rt": "use base::one;\nfn main() { parts::join(); }\n"}
    wanted = "whole depends on thiserror, and names it nowhere"
    expect_refused("one that isn't of this repository", wanted, **other)


@test_each
def purposes():
    """A crate without a line above it that says what it is for."""
    wanted = "parts has no line in crates.txt that says what it is for"
    lines = CRATES.replace("# Pieces of numbers.\n", "")
    expect_refused("no line", wanted, crates=lines)
    expect_refused("an empty one", wanted, crates=CRATES.replace("# Pieces of numbers.", "#"))

"""Wrong site files: what is told of each, on standard error.

The first line is the fault with its number and key. Below it are the place, the line, what was
found and what was expected, and the other faults that can be found without the first one. The
cases are changes of examples/five_points.toml."""

import re

from shared.checks import expect_end
from shared.running import run
from shared.station import FIVE_POINTS
from tests.built import PROGRAM
from tests.suite import make_folder, test_each

HERE = make_folder()
WHOLE = FIVE_POINTS.read_text()
PRICE = "a price is a whole number of mills from 1 to 99999"
# A case: its name; lines that are left out (-), and lines in their place (+); what is told.
CASES = """\
== a comma in a price
- price = 1500
+ price = 1,500
fault 70
  --> line 15, column 10
   |
15 | price = 1,500
   |          ^ {COMMA}
== a leading zero in a price
- price = 1500
+ price = 01500
fault 70
  --> line 15, column 9
   |
15 | price = 01500
   |         ^^^^^ {VALUE}; a whole number is written without leading zeros
== single brackets above the first point
- [[point]]
+ [point]
fault 70
  --> line 27, column 1
   |
27 | [[point]]
   | ^^^^^^^^^ {BRACKETS}
== single brackets above the second product
- [[product]]
- number = 2
+ [product]
+ number = 2
fault 70
  --> line 17, column 1
   |
17 | [product]
   | ^^^^^^^^^ {BRACKETS}
== no price behind the equals sign
- price = 1500
+ price =
fault 70
  --> line 15, column 8
   |
15 | price =
   |        ^ {VALUE}
== a name without quotation marks
- name = "diesel"
+ name = diesel
fault 70
  --> line 14, column 8
   |
14 | name = diesel
   |        ^^^^^^ {VALUE}
== a quotation mark is missing
- name = "diesel"
+ name = "diesel
fault 70
  --> line 14, column 15
   |
14 | name = "diesel
   |               ^ invalid string
== the bracket behind a list is missing
- managers = [1]
+ managers = [1
fault 70
  --> line 12, column 1
   |
12 | [[product]]
   | ^ missing comma between array elements, expected `,` or `]`
== a colon
- price = 1500
+ price: 1500
fault 70
  --> line 15, column 6
   |
15 | price: 1500
   |      ^ key with no value, expected `=`
== a key twice
- price = 1500
+ price = 1500
+ price = 1600
fault 70
  --> line 16, column 1
   |
16 | price = 1600
   | ^^^^^^^^^^^^ duplicate key
== a table, and then a list of its name
- [[product]]
+ [product]
fault 70
  --> line 17, column 1
   |
17 | [[product]]
   | ^^^^^^^^^^^ {BRACKETS}
== a bracket is missing
- [[product]]
+ [[product]
fault 70
  --> line 12, column 11
   |
12 | [[product]
   |           ^ unclosed array table, expected `]]`
== a price above 64 bits
- price = 1500
+ price = 99999999999999999999
fault 70
  --> line 15, column 9
   |
15 | price = 99999999999999999999
   |         ^^^^^^^^^^^^^^^^^^^^ number out of range
== octets that aren't UTF-8
- name = "diesel"
+ name = "die\udcffs\N{LATIN SMALL LETTER E WITH ACUTE}l"
fault 70
  --> line 14, column 12
   |
14 | name = "die?s??l"
   |            ^ invalid UTF-8
== a misspelt price
- price = 1500
+ prise = 1500
fault 71 prise
  --> line 15, column 1: prise of the 1st product
   |
15 | prise = 1500
   | ^^^^^ no such key; a product has the keys number, name and price
line 12, column 1: fault 72: price of the 1st product: price is missing; {PRICE}
== a misspelt key of the file
- managers = [1]
+ manager = [1]
fault 71 manager
 --> line 8, column 1: manager
  |
8 | manager = [1]
  | ^^^^^^^ no such key; a site file has the keys rows, managers, product and point
== rows below a product
- price = 1799
+ price = 1799
+ rows = 5
fault 71 rows
  --> line 21, column 1: rows of the 2nd product
   |
21 | rows = 5
   | ^^^^ no such key; a product has the keys number, name and price
== an unknown key of a nozzle
- nozzles = [{product = 1, reading = 0}, {product = 2, reading = 1000}]
+ nozzles = [{product = 1, reading = 0, name = 7}, {product = 2, reading = 1000}]
fault 71 name
  --> line 25, column 39: name of nozzle 1 of the 1st point
   |
25 | nozzles = [{product = 1, reading = 0, name = 7}, {product = 2, reading = 1000}]
   |                                       ^^^^ {NO_KEY} a nozzle has the keys product and reading
== an unknown key between quotation marks
- price = 1500
+ price = 1500
+ "fuel type" = "\N{LATIN SMALL LETTER E WITH ACUTE}"
fault 71 fuel?type
  --> line 16, column 1: fuel type of the 1st product
   |
16 | "fuel type" = "\N{LATIN SMALL LETTER E WITH ACUTE}"
   | ^^^^^^^^^^^ no such key; a product has the keys number, name and price
== an unknown table
- [[product]]
+ [site]
+ a = 1
+ [[product]]
fault 71 site
  --> line 12, column 1: site
   |
12 | [site]
   | ^^^^^^ no such key; a site file has the keys rows, managers, product and point
== a product without a name
- name = "diesel"
fault 72 name
  --> line 12, column 1: name of the 1st product
   |
12 | [[product]]
   | ^^^^^^^^^^^ name is missing; {NAME}
== a nozzle without a reading
- nozzles = [{product = 1, reading = 0}, {product = 2, reading = 1000}]
+ nozzles = [{product = 1}, {product = 2, reading = 1000}]
fault 72 reading
  --> line 25, column 12: reading of nozzle 1 of the 1st point
   |
25 | nozzles = [{product = 1}, {product = 2, reading = 1000}]
   |            ^^^^^^^^^^^^^ reading is missing; {READING}
== a price as a text
- price = 1500
+ price = "1500"  # mills
fault 73 price
  --> line 15, column 9: price of the 1st product
   |
15 | price = "1500"  # mills
   |         ^^^^^^ found "1500"; {PRICE}
== a price with a point
- price = 1500
+ price = 15.00
fault 73 price
  --> line 15, column 9: price of the 1st product
   |
15 | price = 15.00
   |         ^^^^^ found 15.00; {PRICE}
== managers that aren't a list
- managers = [1]
+ managers = 1
fault 73 managers
 --> line 8, column 12: managers
  |
8 | managers = 1
  |            ^ found 1; {MANAGERS}
== a manager's name
- managers = [1]
+ managers = ["anna"]
fault 73 managers
 --> line 8, column 13: the 1st manager
  |
8 | managers = ["anna"]
  |             ^^^^^^ found "anna"; {MANAGERS}
== nozzles that aren't tables
- nozzles = [{product = 1, reading = 0}, {product = 2, reading = 1000}]
+ nozzles = [1, 2]
fault 73 nozzles
  --> line 25, column 12: nozzle 1 of the 1st point
   |
25 | nozzles = [1, 2]
   |            ^ found 1; {NOZZLES}
line 25, column 15: fault 73: nozzle 2 of the 1st point: found 2; {NOZZLES}
== a date as a point's number
- [[point]]
- number = 1
+ [[point]]
+ number = 2026-11-29
fault 73 number
  --> line 24, column 10: number of the 1st point
   |
24 | number = 2026-11-29
   |          ^^^^^^^^^^ found 2026-11-29; {POINT}
== a price of nothing
- price = 1500
+ price = 0
fault 74 price
  --> line 15, column 9: price of the 1st product
   |
15 | price = 0
   |         ^ found 0; {PRICE}
== two prices above the greatest
- price = 1500
+ price = 0x20000
- price = 1799
+ price = 100_000
fault 74 price
  --> line 15, column 9: price of the 1st product
   |
15 | price = 0x20000
   |         ^^^^^^^ found 0x20000; {PRICE}
line 20, column 9: fault 74: price of the 2nd product: found 100_000; {PRICE}
== a product's number above the greatest, on which nozzles depend
- [[product]]
- number = 1
+ [[product]]
+ number = 9
fault 74 number
  --> line 13, column 10: number of the 1st product
   |
13 | number = 9
   |          ^ found 9; {PRODUCT}
== a name with a capital
- name = "diesel"
+ name = "Diesel"
fault 74 name
  --> line 14, column 8: name of the 1st product
   |
14 | name = "Diesel"
   |        ^^^^^^^^ found "Diesel"; {NAME}
== a name with a tab, and letters of two octets before it
- name = "diesel"
+ "name"	= "di\N{LATIN SMALL LETTER E WITH ACUTE}	sel"	# \N{LATIN SMALL LETTER E WITH ACUTE}
fault 74 name
  --> line 14, column 10: name of the 1st product
   |
14 | "name" = "di\N{LATIN SMALL LETTER E WITH ACUTE} sel" # \N{LATIN SMALL LETTER E WITH ACUTE}
   |          ^^^^^^^^^ found "di\N{LATIN SMALL LETTER E WITH ACUTE} sel"; {NAME}
== a long name
- name = "diesel"
+ name = "diesel-without-lead-and-with-much-more-that-is-good"
fault 74 name
  --> line 14, column 8: name of the 1st product
   |
14 | name = "diesel-without-lead-and-with-much-more-that-is-good"
   |        ^^^^^^^^^^^^^^^^^^^^^^^^^^^^^^^^^^^^^^^^^^^^^^^^^^^^^ {LONG}; {NAME}
== a name of several lines
- name = "diesel"
+ name = '''die
+ sel'''
- price = 1799
+ price = 0
fault 74 name
  --> line 14, column 8: name of the 1st product
   |
14 | name = '''die
   |        ^^^^^^ found '''die ..; {NAME}
line 21, column 9: fault 74: price of the 2nd product: found 0; {PRICE}
== no nozzles
- nozzles = [{product = 1, reading = 0}, {product = 2, reading = 1000}]
+ nozzles = []
fault 74 nozzles
  --> line 25, column 11: nozzles of the 1st point
   |
25 | nozzles = []
   |           ^^ found a list of 0; {NOZZLES}
== a reading of thirteen digits, in a list of several lines
- nozzles = [{product = 1, reading = 0}, {product = 2, reading = 1000}]
+ nozzles = [
+   {product = 1, reading = 0}, # the first
+   {product = 2, reading = 1_000_000_000_000},
+ ]
fault 74 reading
  --> line 27, column 27: reading of nozzle 2 of the 1st point
   |
27 |   {product = 2, reading = 1_000_000_000_000},
   |                           ^^^^^^^^^^^^^^^^^ found 1_000_000_000_000; {READING}
== a reading below nothing, below a header of its own
- nozzles = [{product = 1, reading = 0}, {product = 2, reading = 1000}]
+ [[point.nozzles]]
+ product = 1
+ reading = 0
+ [[point.nozzles]]
+ product = 2
+ reading = -5
fault 74 reading
  --> line 30, column 11: reading of nozzle 2 of the 1st point
   |
30 | reading = -5
   |           ^^ found -5; {READING}
== a manager above the greatest
- managers = [1]
+ managers = [33]
fault 74 managers
 --> line 8, column 13: the 1st manager
  |
8 | managers = [33]
  |             ^^ found 33; {MANAGERS}
== no rows
- # rows = 1000000
+ rows = 0
fault 74 rows
 --> line 5, column 8: rows
  |
5 | rows = 0
  |        ^ found 0; rows is a whole number from 1 to 1000000
== a manager twice
- managers = [1]
+ managers = [1, 2, 1]
fault 75 managers
 --> line 8, column 19: the 3rd manager
  |
8 | managers = [1, 2, 1]
  |                   ^ found 1, which the 1st manager is too; {MANAGERS}
== a product's number twice, on which nozzles depend
- [[product]]
- number = 2
+ [[product]]
+ number = 1
fault 75 number
  --> line 18, column 10: number of the 2nd product
   |
18 | number = 1
   |          ^ found 1, which the 1st product has too; {PRODUCT}
== a name twice
- name = "petrol"
+ name = "diesel"
fault 75 name
  --> line 19, column 8: name of the 2nd product
   |
19 | name = "diesel"
   |        ^^^^^^^^ found "diesel", which the 1st product has too; {NAME}
== a point's number twice
- number = 5
+ number = 2
fault 75 number
  --> line 40, column 10: number of the 5th point
   |
40 | number = 2
   |          ^ found 2, which the 2nd point has too; {POINT}
== a nozzle of no product
- nozzles = [{product = 1, reading = 0}, {product = 2, reading = 1000}]
+ nozzles = [{product = 3, reading = 0}, {product = 2, reading = 1000}]
fault 76
  --> line 25, column 23: product of nozzle 1 of the 1st point
   |
25 | nozzles = [{product = 3, reading = 0}, {product = 2, reading = 1000}]
   |                       ^ found 3; a nozzle's product is the number of a product of this file
== faults in another order than that of the checks
- managers = [1]
+ managers = [0]
+ rows = 0
- price = 1500
+ price = -1
- number = 5
+ point = 5
fault 74 rows
 --> line 9, column 8: rows
  |
9 | rows = 0
  |        ^ found 0; rows is a whole number from 1 to 1000000
line 8, column 13: fault 74: the 1st manager: found 0; {MANAGERS}
line 16, column 9: fault 74: price of the 1st product: found -1; {PRICE}
line 40, column 1: fault 72: number of the 5th point: number is missing; {POINT}
line 41, column 1: fault 71: point of the 5th point: {NO_POINT_KEY}
== a key written with an escape has no place
- price = 1500
+ "pr\\u0069ce" = 0
fault 74 price
 --> price of the 1st product: {PRICE}
"""
RULES = {
    "COMMA": "unexpected key or value, expected newline, `#`; a whole number is written without "
    "commas",
    "BRACKETS": "duplicate key; each product and each point stands below a line with two brackets, "
    "as [[point]]",
    "VALUE": "invalid value, expected a string, number, boolean, date-time, array or inline table",
    "NO_KEY": "no such key;",
    "NO_POINT_KEY": "no such key; a point has the keys number and nozzles",
    "LONG": 'found "diesel-without-lead-and-with-much-more- ..',
    "PRICE": PRICE,
    "NAME": "a product's name is 1 to 20 of a to z, 0 to 9 and hyphen between quotation marks, of "
    "one product alone",
    "READING": "a reading is a whole number of millilitres from 0 to 999999999999",
    "MANAGERS": "managers is a list of tills' numbers from 1 to 32, none twice",
    "NOZZLES": "a point has a list of 1 to 8 nozzles, each as {product = 1, reading = 0}",
    "PRODUCT": "a product's number is a whole number from 1 to 8, of one product alone",
    "POINT": "a point's number is a whole number from 1 to 64, of one point alone",
}


def read_cases():
    """The cases: name, site file, text that is told."""
    for case in CASES.split("== ")[1:]:
        name, *lines = case.splitlines()
        text, changes, told = WHOLE, [], []
        for line in lines:
            sign = line[:2]
            if sign == "- " and (not changes or changes[-1][1]):
                changes.append(([line[2:]], []))
            elif sign in ("- ", "+ "):
                changes[-1][sign == "+ "].append(line[2:])
            else:
                told.append(line)
        for old, new in changes:
            text = text.replace(join_lines(old), join_lines(new), 1)
        for rule, words in RULES.items():
            told = [line.replace(f"{{{rule}}}", words) for line in told]
        yield name, text, "\n".join(told)


def join_lines(lines):
    return "".join(f"{line}\n" for line in lines)


def expect_told(what, site, told, *words):
    """The command ends with what is told of a wrong site file, and does nothing else."""
    file = HERE / "site.toml"
    file.write_bytes(site if isinstance(site, bytes) else site.encode(errors="surrogateescape"))
    end = run(PROGRAM, *(words or ["check"]), file)
    expect_end(what, end, 1, b"", told)


@test_each
def wrong_files():
    """Each case; with a line feed and a carriage return at each end of a line, and behind the mark
    of UTF-8, the same is told."""
    for name, text, told in read_cases():
        expect_told(name, text, told)
        if "'''" not in text:
            expect_told(f"{name}, carriage returns", text.replace("\n", "\r\n"), told)
        if "line 1," not in told and "UTF-8" not in told:
            expect_told(f"{name}, the mark of UTF-8", f"\ufeff{text}", told)
        expect_told(f"{name}: report", text, told, "report")


@test_each
def whole_files():
    """Files without lines of their own to show."""
    below = "each below a line"
    points = f"point: point is missing; there are 1 to 64 points, {below} [[point]]"
    products = f"product: product is missing; there are 1 to 8 products, {below} [[product]]"
    for name, text in (("an empty file", ""), ("comments alone", "# nothing\n\n")):
        told = f"fault 72 product\n --> {products}\nalso: fault 72: {points}"
        expect_told(name, text, told)
    short = 'product = [{number = 1, name = "x", price = 0}]'
    expect_told(
        "no line feed at the end",
        short,
        f"fault 74 price\n --> line 1, column 45: price of the 1st product\n  |\n1 | {short}\n"
        f"  | {' ' * 44}^ found 0; {PRICE}\nalso: fault 72: {points}",
    )


@test_each
def long_lines():
    """Of a long line a part is shown."""
    nozzle, wrong = "{product = 1, reading = 0}, ", "{product = 1, reading = -1}]"
    line = "nozzles = [" + 7 * nozzle + wrong
    old = re.search("nozzles = .*", WHOLE)[0]
    expect_told(
        "the end of a line",
        WHOLE.replace(old, line, 1),
        "fault 74 reading\n  --> line 25, column 232: reading of nozzle 8 of the 1st point\n"
        f"   |\n25 | g = 0}}, {nozzle}{wrong}\n   | {' ' * 60}^^ found -1; {RULES['READING']}",
    )
    name = "x" * 300
    expect_told(
        "the front of a line",
        WHOLE.replace("diesel\"", f"{name}\""),
        "fault 74 name\n  --> line 14, column 8: name of the 1st product\n   |\n"
        f'14 | name = "{name[:112]}\n   |        {"^" * 113} found "{name[:39]} ..; '
        f"{RULES['NAME']}",
    )


@test_each
def many_faults():
    """Below the first fault 20 others are told, and how many more there are."""
    for count, more in ((21, ""), (22, "\nand 1 more"), (64, "\nand 43 more")):
        text = WHOLE[: WHOLE.index("[[point]]")]
        begin = text.count("\n") + 1
        text += "[[point]]\nnumber = 0\nnozzles = [{product = 1, reading = 0}]\n" * count
        lines = [
            f"line {begin + 3 * n + 1}, column 10: fault 74: number of the {ordinal(n + 1)} point: "
            f"found 0; {RULES['POINT']}"
            for n in range(1, min(count, 21))
        ]
        told = (
            f"fault 74 number\n  --> line {begin + 1}, column 10: number of the 1st point\n   |\n"
            f"{begin + 1} | number = 0\n   |          ^ found 0; {RULES['POINT']}\n"
        )
        expect_told(f"{count} faults", text, told + "\n".join(lines) + more)


def ordinal(number):
    ending = {1: "st", 2: "nd", 3: "rd"}.get(number % 10, "th")
    return f"{number}{'th' if number in (11, 12, 13) else ending}"

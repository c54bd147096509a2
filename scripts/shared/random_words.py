"""Random events and texts in words, for whoever tries what reads them."""

POINTS, TILLS, PRODUCTS, NOZZLES = 64, 32, 8, 8
GREATEST_READING, GREATEST_AMOUNT, GREATEST_SHIFT, GREATEST_SEQ = 10**12 - 1, 2**32 - 1, 999, 9999
ALONE = "SignOn SignOff CloseShift ReadSite".split()
OF_POINT = """
Open Close Assign Unassign Release TestRelease Suspend Resume Terminate ReadPoint
""".split()
OF_SALE = "Lock Unlock Clear ReadTransaction".split()
OF_METER = "Lift Flow HangUp".split()


def choose_number(chance, least, most):
    """A number from the least to the greatest, often one of these two."""
    return chance.choice([least, most, chance.randint(least, most)])


def choose_meter(chance):
    n, reading = chance.randint(1, NOZZLES), choose_number(chance, 0, GREATEST_READING)
    return f"{n}@{reading}"


def choose_sale(chance, p):
    seq = choose_number(chance, 1, GREATEST_SEQ)
    if chance.random() < 0.5:
        return f"{p}/{seq}"
    return f"{p}/{choose_number(chance, 1, GREATEST_SHIFT)}/{seq}"


def choose_event(chance):
    """An event of an actor of its kind, in words."""
    p, q = choose_number(chance, 1, POINTS), chance.randint(1, PRODUCTS)
    amount = choose_number(chance, 0, GREATEST_AMOUNT)
    tills = [
        chance.choice(ALONE), f"{chance.choice(OF_POINT)} {p}", f"Release {p} volume {amount}",
        f"Release {p} money {amount}", f"Prepay {p} {amount}", f"SetPrice {q} {amount}",
        f"ReadProduct {q}", f"ReplaceMeter {p} {choose_meter(chance)}",
        f"{chance.choice(OF_SALE)} {choose_sale(chance, p)}",
    ]  # fmt: skip
    reports = [
        f"Online {p}", f"Offline {p}", f"{chance.choice(OF_METER)} {p} {choose_meter(chance)}"
    ]
    if chance.random() < 0.3:
        return f"d{choose_number(chance, 1, POINTS)} {chance.choice(reports)}"
    return f"t{choose_number(chance, 1, TILLS)} {chance.choice(tills)}"


def choose_text(chance):
    """A line of up to 200 octets: an event with a few octets changed, or octets alone."""
    text = bytearray(choose_event(chance).encode())
    if chance.random() < 0.2:
        text = bytearray(chance.randrange(256) for _ in range(chance.randint(1, 200)))
    for _ in range(chance.randint(0, 3)):
        text[chance.randrange(len(text))] = chance.choice(b" \t\r,@/+#0123456789dt\x00\xff")
    return bytes(text).replace(b"\n", b" ")[:200]

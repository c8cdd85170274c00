"""Sweeps for the cases of random_cases.py: scales in odd but accepted spellings and in refused
ones, networks at the limit of a sweep, and demands that are too many at some scale."""

SCALES = ["0.001", "0.1", "0.5", "0.8", "1", "1", "1.2", "1.5", "2", "3", "10"]
ODD_SCALES = ["", "0", "0.0009", "0.001", "10", "10.0009", "10.001", "11", "1e1", "1e2", "-1", "-0",
              "-0.0001", "1;", ";1", ";", "1;;2", "1; 2", " 1", "1 ", "1\t", "1,2", "x", "1;x",
              "1e400", "1e-400", "0e5", "+1", "+", "1.", ".5", ".", "1..5", "1:2", "0x1", "nan",
              "1e0000", "1e", "\u0661", "0.5;0.0005", "99999999999", "1e999", "1;1;1",
              ";".join(["1"] * 16), ";".join(["1"] * 17), "0" * 63 + "1", "0" * 64 + "1",
              "0." + "0" * 61 + "1", "1." + "0" * 62, "1." + "0" * 63, "1;2;3;4;5;6;7;8;9;10;0"]


def spell_scale(r, text):
    """Another text of the same scale, or of one that is rounded down to it."""
    choice = r.randrange(10)
    if choice == 0 and "." not in text:
        return text + r.choice([".", ".0", ".0004", ".000999", "e0", "E+0", "e-0", "e00"])
    if choice == 1:
        return "+" + text
    if choice == 2 and text.startswith("0."):
        return text[1:]
    if choice == 3 and text.isdigit():
        return text + "000e-3"
    if choice == 4 and text.isdigit():
        return f"0.{text}e{len(text)}"
    if choice == 5:
        return text.zfill(r.choice([5, 63, 64]))
    return text


def some_scales(r):
    """Scales of a sweep as one word, some of them more than once."""
    count = r.choice([1, 1, 2, 2, 2, 3, 3, 4, 5, 6, 16])
    scales = [r.choice([r.choice(SCALES), f"{r.uniform(0.001, 2.5):.3f}", str(r.randint(1, 4))])
              for _ in range(count)]
    if r.random() < .4:
        scales = [spell_scale(r, one) for one in scales]
    return ";".join(scales)


def too_many(r, demand):
    """Adds rows to a demand table with which some of the usual scales have too many vehicles."""
    for _ in range(r.choice([1, 1, 2])):
        volume = r.choice(["1e9", "999999999.999", "4e6", "2000001", "2000000", "1000001",
                           str(r.randint(1300000, 5000000))])
        ends = list(r.choice(demand.rows)[:2]) if demand.rows else ["1", "3"]
        others = [""] * (len(demand.columns) - 3)
        demand.rows.insert(r.randint(0, len(demand.rows)), ends + [volume] + others)


def many_links(r, links):
    """Adds links until links times a long horizon are about at the limit of a sweep."""
    rows = links.rows
    count = r.choice([193, 194, 195, 196, 220])
    number = 10 ** 9
    while rows and len(rows) < count:
        number += 1
        rows.append([str(number)] + list(r.choice(rows)[1:]))
    return r.choice([86400, 86400, 86000, 76000, 16777216 // max(1, len(rows))])

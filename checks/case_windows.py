"""Texts of the column `capacity_by_step` for the cases of random_cases.py: good ones, the same in
other spellings, and ones that break its rules."""

LAST_STEP = 86400
MOST_PARTS = 64
RATES = ["0", "0", "300", "577.7", "600", "900", "1800", "3600", "50", "1e6", "0.5", "1000000000"]


def windows(r, is_turn):
    """A good text; of a turn, some of its parts are without a limit."""
    if r.random() < .35:
        return signal(r, is_turn)
    count = r.choice([1, 1, 2, 2, 3, 4, 8, MOST_PARTS])
    last = r.choice([MOST_PARTS, 150, 400, LAST_STEP])
    steps = [0] + sorted(r.sample(range(1, last + 1), count - 1))
    return ";".join(f"{step}:{rate(r, is_turn)}" for step in steps)


def rate(r, is_turn):
    return "none" if is_turn and r.random() < .4 else r.choice(RATES)


def signal(r, is_turn):
    """Green and red in turn, from green or from red on."""
    cycle = r.choice([2, 4, 10, 15])
    green = r.randint(1, cycle - 1)
    rates = ["none" if is_turn and r.random() < .6 else r.choice(["600", "1800", "3600"]), "0"]
    if r.random() < .3:
        rates.reverse()
    parts = []
    for k in range(r.randint(1, MOST_PARTS // 2)):
        parts += [f"{k * cycle}:{rates[0]}", f"{k * cycle + green}:{rates[1]}"]
    return ";".join(parts)


def spell(r, text, spell_quantity):
    """The same windows, with numbers in other spellings."""
    parts = []
    for part in text.split(";"):
        step, _, limit = part.partition(":")
        if r.random() < .2:
            step = r.choice(["0", "000", "0" * 20]) + step
        if limit != "none" and r.random() < .3:
            limit = spell_quantity(r, limit)
        parts.append(f"{step}:{limit}")
    return ";".join(parts)


def bad_form(r, parts):
    """Parts of which one isn't of the form, as a list."""
    place = r.randrange(len(parts))
    step, _, limit = parts[place].partition(":")
    odd = ["", step, ":" + limit, step + ":", f"{step}:{limit}:1", f" {step}:{limit}",
           f"{step} :{limit}", f"{step}: {limit}", f"+{step}:{limit}", f"-{step}:{limit}",
           f"{step}.0:{limit}", f"x:{limit}", f"{step}:x", f"{step}:None", f"{step}:NONE",
           f"{step}:none ", f"{step},{limit}", f"{step}:+", f"{step}:1e", f"{step}:1e1000",
           f"{step}:" + "0" * 65, "\u0660:600", "none", f"{step}:no", f"{step}:600\0"]
    return parts[:place] + [r.choice(odd)] + parts[place + 1:]


def bad_range(r, parts):
    """Parts of the form that break one of the other rules, as a list."""
    choice = r.randrange(8)
    step, _, limit = parts[-1].partition(":")
    if choice == 0:
        return [f"{r.choice([1, 10, LAST_STEP])}:{limit}"] + parts[1:]
    if choice == 1:
        return parts + [f"{step}:600"]
    if choice == 2:
        return parts + [f"{LAST_STEP}:0", f"{r.randrange(LAST_STEP)}:600"]
    if choice == 3:
        above = r.choice([LAST_STEP + 1, 99999, 10 ** 9, 2 ** 32, 2 ** 64, 10 ** 40])
        return parts + [f"{above}:600"]
    if choice == 4:
        count = r.choice([MOST_PARTS + 1, MOST_PARTS + 1, 100, 1000])
        return [f"{k}:600" for k in range(count)]
    if choice == 5:
        over = r.choice(["-1", "-0.0001", "1000000000.001", "1e10", "-1e-999", "1000000001"])
        place = r.randrange(len(parts))
        return parts[:place] + [parts[place].partition(":")[0] + ":" + over] + parts[place + 1:]
    if choice == 6:
        return [f"{LAST_STEP + 1}:-1"]
    return list(reversed(parts)) + ["0:600"]


def odd(r, text):
    """A text that breaks a rule, two of them, or one that comes near to it and is accepted."""
    parts = text.split(";") if text else ["0:600"]
    choice = r.randrange(10)
    if choice < 4:
        return ";".join(bad_form(r, parts))
    if choice < 7:
        return ";".join(bad_range(r, parts))
    if choice == 7:
        return ";".join(bad_form(r, bad_range(r, parts)))
    if choice == 8:
        return ";".join(bad_range(r, bad_form(r, parts)))
    return r.choice(["0:none", "0:-0", "0:1e9", "0:1000000000.0009", f"0:600;{LAST_STEP}:0",
                     "0:0;1:none", ";".join(f"{k}:{600 + k}" for k in range(MOST_PARTS)),
                     "0:600;", ";0:600", ";", ":", "0", "600", "0:600;;20:0", "0:.5e3", "00:600"])

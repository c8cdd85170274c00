"""Start tables for the cases of random_cases.py: the agent table of an earlier run over the same
tables or over others, with rows that fit nobody, and with odd texts in their fields."""

REQUIRED = ["agent_id", "o_zone_id", "d_zone_id", "link_ids"]
ODD_LISTS = [";", "10;", ";10", "10;;20", "10; 20", "10 ;20", "x", "1;x", "x;9223372036854775808",
             "9223372036854775808;x", "9223372036854775808", "1;9223372036854775808", "-1", "1;-1",
             "-0", "1.5", "1;1.5", "1e0", "+1", "0", "0;0", "999999", "1,2", "1:2", "\u0661",
             "1;" * 200 + "1", "1\0", "none", "-1;-1", "- 1"]


def earlier_columns_and_rows(text):
    """Of an agent table as bytes: its columns, and its rows as lists of fields."""
    lines = [line.split(",") for line in text.decode("ascii").splitlines()]
    return lines[0], lines[1:]


def other_links(r, row, links):
    """Another list of links for a row, mostly near to its own."""
    own = row.split(";") if row else []
    place = r.randrange(len(own)) if own else 0
    choice = r.randrange(9)
    if choice == 0:
        return ""
    if choice == 1 or not own:
        return ";".join(r.choices(links, k=r.choice([1, 1, 2, 3, 40]))) if links else "1"
    if choice == 2:
        own = own[:-1]
    elif choice == 3:
        own = own[1:]
    elif choice == 4:
        del own[place]
    elif choice == 5:
        own[place] = r.choice(links) if links else "1"
    elif choice == 6:
        own += own
    elif choice == 7:
        own.reverse()
    else:
        own.insert(place, own[place])
    return ";".join(own)


def turn_stale(r, columns, rows, links):
    """Changes rows so that they fit nobody, another vehicle or the same one."""
    at = {name: columns.index(name) for name in REQUIRED}
    share = r.choice([0, 0, .1, .4, 1])
    for row in rows:
        if r.random() >= share:
            continue
        choice = r.randrange(6)
        if choice < 3:
            row[at["link_ids"]] = other_links(r, row[at["link_ids"]], links)
        elif choice == 3:
            row[at[r.choice(["o_zone_id", "d_zone_id"])]] = str(r.choice([0, 1, 2, 3, 999]))
        elif choice == 4:
            ends = at["o_zone_id"], at["d_zone_id"]
            row[ends[0]], row[ends[1]] = row[ends[1]], row[ends[0]]
        else:
            other = r.choice(rows)
            row[at["link_ids"]] = other[at["link_ids"]]


def number_anew(r, columns, rows):
    """Gives rows the numbers of others, leaves some out, or puts all in another order."""
    at = columns.index("agent_id")
    choice = r.randrange(8)
    if choice == 0:
        numbers = [row[at] for row in rows]
        r.shuffle(numbers)
        for row, number in zip(rows, numbers):
            row[at] = number
    elif choice == 1:
        for row in rows:
            row[at] = str(int(row[at]) + r.choice([0, 1000000, 2 ** 32, 2 ** 63 - 1 - len(rows)]))
    elif choice == 2:
        del rows[r.randint(0, len(rows)):]
    elif choice == 3:
        rows[:] = [row for row in rows if r.random() < .7]
    elif choice == 4 and rows:
        rows.insert(r.randint(0, len(rows)), list(r.choice(rows)))
    if r.random() < .2:
        r.shuffle(rows)


def leave_columns_out(r, columns, rows):
    """Leaves columns out that a start table needn't have."""
    for name in [name for name in columns if name not in REQUIRED]:
        if r.random() < .5:
            place = columns.index(name)
            del columns[place]
            for row in rows:
                del row[place]


def spell_list(r, text, spell_identifier):
    """The same list of links, in other spellings."""
    return ";".join(spell_identifier(r, one) if r.random() < .4 else one for one in text.split(";"))

"""Audits for the cases of random_cases.py: the agent table and the link times of an assignment, as
they are or with something changed."""

AGENT_COLUMNS = ["agent_id", "o_zone_id", "d_zone_id", "departure_step", "arrival_step", "status",
                 "link_ids", "entry_steps"]
STATES = ["arrived", "running", "waiting", "unrouted"]
ODD_STATES = ["", "Arrived", "arrive", "arrived.", "x", "arrived,", "\u0430rrived", "arrived\0",
              "running waiting", "1", "\udcff"]


def other_number(r, text):
    """A number that isn't the one of a text, mostly near to it; none, where there was one."""
    if text and r.random() < .1:
        return ""
    number = int(text) if text.isdigit() else 0
    near = [number + 1, number + 1, max(0, number - 1), max(0, number - 1), number + 10, 0, 1,
            2 ** 32 + number, r.randrange(300)]
    return str(r.choice(near))


def other_list(r, text, others):
    """A list of numbers that isn't the one of a text, mostly near to it."""
    own = text.split(";") if text else []
    place = r.randrange(len(own)) if own else 0
    choice = r.randrange(10)
    if not own or choice == 0:
        return r.choice(others) if others else "1"
    if choice == 1:
        return ""
    if choice == 2:
        del own[place]
    elif choice == 3:
        own.insert(place, own[place])
    elif choice == 4:
        own.append(own[-1])
    elif choice == 5:
        own.reverse()
    elif choice == 6:
        own.pop()
    elif choice == 7:
        own = own[1:]
    else:
        own[place] = other_number(r, own[place]) or "0"
    return ";".join(own)


def change_field(r, columns, rows, row, links):
    """Changes one field of a row of an agent table."""
    name = r.choice(AGENT_COLUMNS + AGENT_COLUMNS[4:] * 2)
    place = columns.index(name)
    text = row[place]
    if name == "status":
        row[place] = r.choice(STATES + STATES + ODD_STATES)
    elif name == "link_ids":
        near = [other[place] for other in rows] + [r.choice(links)] if links else [""]
        row[place] = r.choice(near) if r.random() < .5 else other_list(r, text, near)
    elif name == "entry_steps":
        row[place] = other_list(r, text, [other[place] for other in rows])
    else:
        row[place] = other_number(r, text) or ("" if name == "arrival_step" else "0")


def change_route(r, columns, rows, row):
    """Gives a vehicle the route of another one between the same zones."""
    ends, place = columns.index("o_zone_id"), columns.index("link_ids")
    same = [other for other in rows if other[ends:ends + 2] == row[ends:ends + 2]]
    row[place] = r.choice(same)[place]


def change_rows(r, columns, rows):
    """Drops rows, doubles them, puts them elsewhere, or adds one."""
    choice = r.randrange(8)
    place = r.randrange(len(rows)) if rows else 0
    if not rows or choice == 0:
        empty = {"arrival_step", "status", "link_ids", "entry_steps", "route_iteration"}
        rows.append(["" if name in empty else "1" for name in columns])
    elif choice == 1:
        del rows[place]
    elif choice == 2:
        rows.pop()
    elif choice == 3:
        del rows[place:]
    elif choice == 4:
        rows.append(list(rows[-1]))
    elif choice == 5:
        rows.insert(place, list(rows[place]))
    elif choice == 6:
        rows[place], rows[0] = rows[0], rows[place]
    else:
        rows.append([str(len(rows))] + list(rows[place][1:]))


def change_agents(r, columns, rows, links):
    """Changes one thing in an agent table."""
    choice = r.randrange(12)
    if choice == 0 or not rows:
        change_rows(r, columns, rows)
    elif choice == 1:
        change_route(r, columns, rows, r.choice(rows))
    else:
        change_field(r, columns, rows, r.choice(rows), links)


def change_times(r, columns, rows):
    """Changes one thing in a table of link times; mostly what an audit looks at."""
    if not rows:
        return
    row = r.choice(rows)
    if r.random() < .9:
        name = r.choice(["entered", "travel_steps"])
        place = columns.index(name)
        row[place] = other_number(r, row[place]) or "1"
        if name == "travel_steps" and row[place] == "0" and r.random() < .9:
            row[place] = "1"
    else:
        change_rows(r, columns, rows)


def change(r, agents, times, links):
    """Changes nothing, one thing or a few things in the two tables, each columns and rows."""
    for _ in range(r.choice([0, 1, 1, 1, 1, 1, 1, 2, 3])):
        if r.random() < .7:
            change_agents(r, agents.columns, agents.rows, links)
        else:
            change_times(r, times.columns, times.rows)

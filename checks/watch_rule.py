"""What the watch lines of a run by workers must be: which steps they tell is up to the threads.

The rule: the steps of an iteration's lines rise; each line but the last has more whole multiples
of `--watch` in its steps than the line before it, or than 0; the last line is the state after the
last step. The state after any number of steps of the last iteration follows from its agent table.
"""


def parse(watch):
    """The lines of each iteration, as lists of nine numbers."""
    iterations = []
    for line in watch.splitlines():
        numbers = [int(x) for x in line.split(b",")]
        if len(numbers) != 9:
            raise ValueError(f"{line!r} has not nine numbers")
        if not iterations or iterations[-1][0][0] != numbers[0]:
            iterations.append([])
        iterations[-1].append(numbers)
    return iterations


def state(steps, agents, first_links):
    """The state after so many steps, by the lines of an agent table: how many wait, run and have
    arrived, and how many are on each of these links."""
    waiting = running = arrived = 0
    on = [0, 0, 0, 0]
    for agent in agents:
        departure, arrival, links, entries = agent
        entered = sum(1 for entry in entries if entry < steps)
        if not links or departure >= steps:
            continue
        if arrival is not None and arrival < steps:
            arrived += 1
        elif entered == 0:
            waiting += 1
        else:
            running += 1
            if links[entered - 1] in first_links:
                on[first_links.index(links[entered - 1])] += 1
    return [waiting, running, arrived] + on


def read_agents(table):
    """Departure, arrival, links and entries of each line of an agent table."""
    agents = []
    for line in table.decode().splitlines()[1:]:
        fields = line.split(",")
        agents.append((int(fields[3]), int(fields[4]) if fields[4] else None,
                       fields[6].split(";") if fields[6] else [],
                       [int(x) for x in fields[7].split(";")] if fields[7] else []))
    return agents


def read_first_links(table):
    """The first four links of a table of link times, which stand in the order of the links."""
    links = []
    for line in table.decode().splitlines()[1:]:
        link = line.split(",")[0]
        if not links or links[-1] != link:
            if len(links) == 4:
                break
            links.append(link)
    return links


def faults(watch, last_lines, every, files):
    """What is wrong with the watch lines of a run, in words; none where they are by the rule.
    `last_lines` are those of the plain loading, one for each iteration, `every` is that of
    `--watch`, and `files` are the run's outputs, where it has any."""
    try:
        iterations = parse(watch)
    except ValueError as why:
        return [f"a watch line is not one: {why}"]
    if [lines[-1] for lines in iterations] != [lines[-1] for lines in parse(last_lines)]:
        return ["the last watch lines of the iterations differ"]
    wrong = []
    for lines in iterations:
        steps = [0] + [line[1] for line in lines]
        if any(b <= a for a, b in zip(steps[1:], steps[2:])):
            wrong.append(f"the steps {steps[1:]} do not rise")
        if any(b // every <= a // every for a, b in zip(steps, steps[1:-1])):
            wrong.append(f"the steps {steps[1:]} are too close for every {every}")
    if iterations and "agent.csv" in files and "link_performance.csv" in files:
        agents = read_agents(files["agent.csv"])
        first_links = read_first_links(files["link_performance.csv"])
        for line in iterations[-1]:
            told = state(line[1], agents, first_links)
            if line[2:] != told:
                wrong.append(f"the state of the line {line} is {told} by the agent table")
    return wrong

"""Read by textbook.py: what a run of the program left in its folder, as a textbook measures it."""
import csv
import os


def rows(folder, name):
    with open(os.path.join(folder, name), newline="") as table:
        return list(csv.DictReader(table))


def numbers(text):
    return [int(piece) for piece in text.split(";")] if text else []


class Trip:
    """A vehicle: its zones, its departure and arrival in steps, its links and the steps in which it
    entered them."""

    def __init__(self, row):
        self.zones = row["o_zone_id"], row["d_zone_id"]
        self.departure = int(row["departure_step"])
        self.arrival = int(row["arrival_step"]) if row["arrival_step"] else None
        self.links = row["link_ids"].split(";")
        self.entries = numbers(row["entry_steps"])

    def taken(self):
        return self.arrival - self.departure

    def exits(self):
        return self.entries[1:] + ([] if self.arrival is None else [self.arrival])


class Run:
    """A run with `words`, whose tables stand in `folder`."""

    def __init__(self, folder, words):
        self.second = int(words[words.index("--step") + 1]) if "--step" in words else 6
        self.hour = 3600 // self.second
        self.trips = [Trip(row) for row in rows(folder, "agent.csv")]
        self.free = {row["link_id"]: int(row["free_steps"])
                     for row in rows(folder, "link_performance.csv")}
        self.gaps = [int(row["gap_ppm"]) for row in rows(folder, "gap.csv")]

    def entries(self, link):
        """The steps in which vehicles entered a link, in order."""
        return sorted(step for trip in self.trips
                      for name, step in zip(trip.links, trip.entries) if name == link)

    def exits(self, link):
        """The steps in which vehicles left a link, in order."""
        return sorted(step for trip in self.trips
                      for name, step in zip(trip.links, trip.exits()) if name == link)

    def entered(self, link, first, last):
        """How many vehicles entered a link in steps `first` to `last` - 1."""
        return sum(first <= step < last for step in self.entries(link))

    def left(self, link, first, last):
        return sum(first <= step < last for step in self.exits(link))

    def on_link(self, link, step):
        """How many vehicles are on a link once a step is over."""
        return self.entered(link, 0, step + 1) - self.left(link, 0, step + 1)

    def queue(self, link, step):
        """How many vehicles have driven the free-flow time of a link and are still on it."""
        ready = step + 1 - self.free[link]
        return self.entered(link, 0, max(ready, 0)) - self.left(link, 0, step + 1)

    def delays(self, origin=None, destination=None):
        """Of each trip between these zones, or any, the steps above its links' free-flow steps."""
        return [trip.taken() - sum(self.free[link] for link in trip.links) for trip in self.trips
                if origin in (None, trip.zones[0]) and destination in (None, trip.zones[1])]

    def hours(self, steps):
        return steps * self.second / 3600

    def minutes(self, steps):
        return steps * self.second / 60

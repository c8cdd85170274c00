"""Least times between zones, for traffic_laws.py: by free-flow times (Dijkstra's way, backward
from a zone), and by a table of link times (the A* way, with free-flow times for what is ahead)."""
import heapq

NEVER = 10 ** 18
MOST_STATES = 10_000_000  # links and steps that all searches by a table may look at


def free_ahead(net, zone):
    """For each link the least steps from its beginning into the zone, by free-flow steps and
    penalties; NEVER where no path leads there."""
    inward = [[] for _ in net.links]
    for number, onward in enumerate(net.onward):
        for other, penalty in onward.items():
            inward[other].append((number, penalty))
    least = [NEVER] * len(net.links)
    heap = [(link.free, number) for number, link in enumerate(net.links)
            if net.ends_in(number, zone)]
    heapq.heapify(heap)
    while heap:
        steps, number = heapq.heappop(heap)
        if steps < least[number]:
            least[number] = steps
            for before, penalty in inward[number]:
                heapq.heappush(heap, (steps + penalty + net.links[before].free, before))
    return least


class Searches:
    """Least times over a network. What is ahead of each link is searched once for a zone."""

    def __init__(self, net):
        self.net = net
        self.ahead, self.firsts, self.states = {}, {}, 0

    def prepare(self, origin, destination):
        """The first links of the origin, and what is ahead of each link on the way to the
        destination."""
        if destination not in self.ahead:
            self.ahead[destination] = free_ahead(self.net, destination)
        if origin not in self.firsts:
            self.firsts[origin] = self.net.first_links(origin)
        return self.firsts[origin], self.ahead[destination]

    def least_free(self, origin, destination):
        """The least free-flow steps between two zones; NEVER where there is no path."""
        firsts, ahead = self.prepare(origin, destination)
        return min((ahead[number] for number in firsts), default=NEVER)

    def least(self, trip, time):
        """The least steps of a trip from its departure, where `time(link, step)` is the time of a
        link, never below free flow. A link may be entered in several steps: where times change,
        the later one may come to an end earlier, and a loop may pay. None where it is too much
        work."""
        departure, origin, destination = trip
        firsts, ahead = self.prepare(origin, destination)
        heap = [(departure + ahead[number], -departure, number) for number in firsts
                if ahead[number] < NEVER]
        heapq.heapify(heap)
        seen = set()
        while heap and self.states < MOST_STATES:
            bound, step, number = heapq.heappop(heap)
            self.states += 1
            if number is None:
                return bound - departure
            if (step, number) not in seen:
                seen.add((step, number))
                end = time(number, -step) - step
                for one in self.onward(number, end, ahead, destination):
                    heapq.heappush(heap, one)
        return None if heap else NEVER

    def onward(self, number, end, ahead, destination):
        """Where one may be who comes to the end of a link in this step: the earliest arrival, the
        step (below 0, so that later ones come first) and the link, or none at the destination."""
        if self.net.ends_in(number, destination):
            return [(end, -end, None)]
        return [(end + penalty + ahead[other], -end - penalty, other)
                for other, penalty in self.net.onward[number].items() if ahead[other] < NEVER]

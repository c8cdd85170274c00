'use strict';
// Where first vehicles stand. Nobody passes on a link, so the vehicle that is first on it stands
// from the step on in which it might go on: its own free-flow time is over, and the vehicle
// before it has left. The link is blocked once the first vehicle has stood for longer than the
// free-flow time, and already once it stands where the link holds all that it stores.
class Stands {
    constructor(run) {
        this.visits = run.visits;
        this.free = run.times.free;
        this.run = run;
    }

    // The step from which on a visit stands as the first of its link.
    since(link, visit) {
        const {linkStarts, enter, leave} = this.visits;
        const ready = enter[visit] + this.free[link];
        return visit > linkStarts[link] ? Math.max(ready, leave[visit - 1]) : ready;
    }

    // The step from which on the link is blocked while the visit is its first. It isn't blocked
    // where that is no earlier than the end of the visit.
    blockedFrom(link, visit) {
        const {linkStarts, enter} = this.visits, since = this.since(link, visit);
        const long = since + this.free[link] + 1;
        const last = visit + this.run.storage[link] - 1;
        if (!this.run.storageBinds || last >= linkStarts[link + 1]) return long;
        return Math.min(long, Math.max(since, enter[last]));
    }

    // For how many steps the first of the vehicles on a link has stood where the link is
    // blocked, else -1. The first two are the places of those who are on it.
    at(link, [first, behind], step) {
        if (first === behind || this.blockedFrom(link, first) > step) return -1;
        return step - this.since(link, first);
    }

    // The places of those who are on a link once a step is done.
    range(link, step) {
        const {linkStarts, enter, leave} = this.visits;
        const from = linkStarts[link], to = linkStarts[link + 1];
        return [Stands.above(leave, from, to, step), Stands.above(enter, from, to, step)];
    }

    // The first place of a part of a rising list that has more than a value.
    static above(list, from, to, value) {
        let least = from, behind = to;
        while (least < behind) {
            const middle = (least + behind) >> 1;
            if (list[middle] <= value)
                least = middle + 1;
            else
                behind = middle;
        }
        return least;
    }

    // Of the whole run: the steps in which the link is blocked, the visit with which that
    // begins, and for how long a first vehicle stands at most. Of those who go on once their
    // free-flow time is over nobody stands.
    of(link) {
        const {linkStarts, enter, leave} = this.visits, free = this.free[link];
        const found = {steps: 0, visit: -1, longest: 0};
        for (let visit = linkStarts[link]; visit < linkStarts[link + 1]; visit += 1) {
            if (leave[visit] - enter[visit] <= free) continue;
            const from = this.blockedFrom(link, visit);
            if (from >= leave[visit]) continue;
            if (found.visit < 0) found.visit = visit;
            found.steps += leave[visit] - from;
            found.longest = Math.max(found.longest, leave[visit] - this.since(link, visit));
        }
        return found;
    }
}

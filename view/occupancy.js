'use strict';
// How many vehicles have entered and left each link once a step is done. It moves from step to
// step by the visits that begin and end there, so that playing costs little.
class Occupancy {
    constructor(run) {
        const {visits, waits} = run;
        this.visits = visits;
        this.waits = waits;
        this.horizon = run.horizon;
        this.entered = new Int32Array(run.links.count);
        this.left = new Int32Array(run.links.count);
        this.waiting = new Int32Array(run.links.count);
        this.step = -1;
        this.most = null;
    }

    moveTo(step) {
        const goal = Math.min(step, this.horizon - 1);
        while (this.step < goal) {
            this.step += 1;
            this.change(1);
        }
        while (this.step > goal) {
            this.change(-1);
            this.step -= 1;
        }
    }

    // What happens in the step, done or undone.
    change(by) {
        const {step, visits, waits} = this;
        Occupancy.add(this.entered, visits.enterLinks, visits.enterStarts, step, by);
        Occupancy.add(this.left, visits.leaveLinks, visits.leaveStarts, step, by);
        Occupancy.add(this.waiting, waits.beginLinks, waits.beginStarts, step, by);
        Occupancy.add(this.waiting, waits.endLinks, waits.endStarts, step, -by);
    }

    static add(counts, links, starts, step, by) {
        for (let at = starts[step]; at < starts[step + 1]; at += 1) counts[links[at]] += by;
    }

    vehiclesOn(link) {
        return this.entered[link] - this.left[link];
    }

    // The places in the link's list of visits of those who are on it: they stand side by side.
    rangeOn(link) {
        const start = this.visits.linkStarts[link];
        return [start + this.left[link], start + this.entered[link]];
    }

    // The most vehicles that wait for any link at once in the whole run. A count can only be
    // greatest in a step in which it has grown.
    mostWaiting() {
        if (this.most !== null) return this.most;
        const {waits, horizon} = this, waiting = new Int32Array(this.waiting.length);
        this.most = 0;
        for (let step = 0; step < horizon; step += 1) {
            Occupancy.add(waiting, waits.beginLinks, waits.beginStarts, step, 1);
            Occupancy.add(waiting, waits.endLinks, waits.endStarts, step, -1);
            for (let at = waits.beginStarts[step]; at < waits.beginStarts[step + 1]; at += 1)
                this.most = Math.max(this.most, waiting[waits.beginLinks[at]]);
        }
        return this.most;
    }
}

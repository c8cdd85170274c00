'use strict';
// The time that is shown: the slider, the play button and their keys.
class Player {
    constructor(elements, told) {
        this.elements = elements;
        this.told = told;
        this.step = 0;
        this.end = 1;
        this.isPlaying = false;
        elements.slider.addEventListener('input', () => this.goTo(Number(elements.slider.value)));
        elements.play.addEventListener('click', () => this.toggle());
    }

    // Buckets of the run with the most of them, for the keys.
    setTimes(end, bucketStarts) {
        this.end = Math.max(end, 1);
        this.bucketStarts = bucketStarts;
        this.elements.slider.max = this.end - 1;
        this.goTo(Math.min(this.step, this.end - 1));
    }

    goTo(step) {
        this.step = Math.min(Math.max(Math.round(step), 0), this.end - 1);
        this.exact = this.step;
        this.elements.slider.value = this.step;
        this.told.moved();
    }

    nextBucket() {
        const next = this.bucketStarts.find((start) => start > this.step);
        this.goTo(next === undefined ? this.end - 1 : next);
    }

    bucketBefore() {
        const earlier = this.bucketStarts.filter((start) => start < this.step);
        this.goTo(earlier.length === 0 ? 0 : earlier[earlier.length - 1]);
    }

    toggle() {
        this.isPlaying = !this.isPlaying;
        this.elements.play.textContent = this.isPlaying ? 'Pause' : 'Play';
        if (!this.isPlaying) return;
        if (this.step >= this.end - 1) this.goTo(0);
        this.last = performance.now();
        requestAnimationFrame((now) => this.tick(now));
    }

    // Time goes on by the clock, so that slow machines show fewer pictures, not a slower day.
    tick(now) {
        if (!this.isPlaying) return;
        const passed = Math.min((now - this.last) / 1000, 0.25);
        this.last = now;
        const exact = this.exact + passed * Number(this.elements.speed.value);
        if (exact >= this.end - 1) {
            this.goTo(this.end - 1);
            this.toggle();
            return;
        }
        this.goTo(exact);
        this.exact = exact;
        requestAnimationFrame((next) => this.tick(next));
    }

    // Answers whether the key was one of the player's.
    key(event) {
        const by = {ArrowRight: 1, ArrowLeft: -1}[event.key];
        if (event.key === ' ')
            this.toggle();
        else if (by !== undefined && event.shiftKey)
            this.goTo(this.step + by);
        else if (by === 1)
            this.nextBucket();
        else if (by === -1)
            this.bucketBefore();
        else if (event.key === 'Home')
            this.goTo(0);
        else if (event.key === 'End')
            this.goTo(this.end - 1);
        else
            return false;
        return true;
    }
}

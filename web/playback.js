/* playback.js: replays a log by its moments: the map shows the positions up to a moment. */
"use strict";

const SLIDER_STEPS = 1000;

class Playback {
  /** @param {TrackMap} map */
  constructor(map) {
    this.map = map;
    this.first = 0;
    this.last = 0;
    this.playing = false;
    this.before = 0;
    this.clock = new LogClock(0n);
    byId("play-button").addEventListener("click", () => (this.playing ? this.pause() : this.play()));
    byId("play-slider").addEventListener("input", () => this.slide());
    this.take(new Tracks(0));
  }

  /** Takes the tracks of another log. All of it is shown until it is played. @param {Tracks} tracks */
  take(tracks, clock = new LogClock(0n)) {
    const isPlayable = tracks.last > tracks.first;
    this.pause();
    this.clock = clock;
    this.first = isPlayable ? tracks.first : 0;
    this.last = isPlayable ? tracks.last : 0;
    for (const name of ["play-button", "play-slider", "play-speed"]) byId(name).disabled = !isPlayable;
    this.go(this.last);
  }

  /** Shows the positions up to a moment, and at the end all of them. */
  go(moment) {
    this.moment = Math.min(Math.max(moment, this.first), this.last);
    const isEnd = this.moment >= this.last, whole = BigInt(Math.floor(this.moment));
    const text = this.last > this.first ? this.clock.named(whole, false) : "";
    this.map.until = isEnd ? Infinity : this.moment;
    const part = (this.moment - this.first) / (this.last - this.first || 1);
    byId("play-slider").value = String(isEnd ? SLIDER_STEPS : Math.floor(SLIDER_STEPS * part));
    byId("play-slider").setAttribute("aria-valuetext", text);
    byId("play-moment").textContent = text;
    this.map.redraw();
  }

  slide() {
    this.pause();
    this.go(this.first + (this.last - this.first) * Number(byId("play-slider").value) / SLIDER_STEPS);
  }

  /** Plays from the moment shown, or from the start if that is the end. */
  play() {
    if (this.moment >= this.last) this.go(this.first);
    this.playing = true;
    this.before = performance.now();
    byId("play-button").textContent = "Pause";
    requestAnimationFrame((now) => this.tick(now));
  }

  pause() {
    this.playing = false;
    byId("play-button").textContent = "Play";
  }

  tick(now) {
    if (!this.playing) return;
    const passed = Math.max(0, now - this.before) * Number(byId("play-speed").value);
    this.before = now;
    this.go(this.moment + passed);
    if (this.moment >= this.last) return this.pause();
    requestAnimationFrame((next) => this.tick(next));
  }
}

/* layer.js: a part of the map that is kept on a canvas of its own, larger than the view, while the map is moved. */
"use strict";

/** A layer is larger than the view by this part of it on each side, so that it can be moved. */
const LAYER_MARGIN = 0.25;

class Layer {
  constructor() {
    this.canvas = document.createElement("canvas");
    /** The key that was painted last, and that of the canvas. */
    this.wanted = "";
    this.key = "";
    this.center = { x: 0, y: 0 };
    /** How often the canvas was drawn; the tests look here. */
    this.drawings = 0;
  }

  /** Paints the layer onto the canvas of a map. A new key is drawn there at once, because the next one may be new too,
   * as while a log is played. A key that comes again is drawn on the layer's canvas, and again once the map has moved
   * past its margin.
   * @param {CanvasRenderingContext2D} pen @param {TrackMap} map @param {number} ratio @param {string} key
   * @param {(pen: CanvasRenderingContext2D, view: Box) => void} draw draws a view, in CSS pixels of the map */
  paint(pen, map, ratio, key, draw) {
    const { measured: { width, height }, scale, center } = map, full = `${scale} ${width} ${height} ${ratio} ${key}`;
    const right = (this.center.x - center.x) * scale, down = (center.y - this.center.y) * scale;
    const margin = { x: Math.round(width * LAYER_MARGIN), y: Math.round(height * LAYER_MARGIN) };
    if (full !== this.wanted) {
      this.wanted = full;
      draw(pen, map.view({ x: 0, y: 0 }));
      return;
    }
    const isFresh = full === this.key && Math.abs(right) <= margin.x && Math.abs(down) <= margin.y;
    if (!isFresh) {
      this.key = full;
      this.center = { ...center };
      this.redraw(map, ratio, margin, draw);
    }
    // Whole pixels of the screen keep the layer sharp.
    const whole = (points) => Math.round(points * ratio) / ratio;
    const x = isFresh ? whole(right) : 0, y = isFresh ? whole(down) : 0, { canvas } = this;
    pen.drawImage(canvas, x - margin.x, y - margin.y, canvas.width / ratio, canvas.height / ratio);
  }

  redraw(map, ratio, margin, draw) {
    const { width, height } = map.measured, { canvas } = this;
    const wide = Math.round((width + 2 * margin.x) * ratio), high = Math.round((height + 2 * margin.y) * ratio);
    if (canvas.width !== wide) canvas.width = wide;
    if (canvas.height !== high) canvas.height = high;
    const pen = canvas.getContext("2d");
    if (!pen) return;
    pen.setTransform(1, 0, 0, 1, 0, 0);
    pen.clearRect(0, 0, wide, high);
    pen.setTransform(ratio, 0, 0, ratio, margin.x * ratio, margin.y * ratio);
    draw(pen, map.view(margin));
    this.drawings++;
  }
}

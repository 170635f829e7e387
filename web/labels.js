/* labels.js: places for labels on a map, so that no label overlaps another, and pictures of labels. */
"use strict";

/** @typedef {{x: number, y: number, wide: number, high: number}} LabelBox  its left and top, in CSS pixels */
/** @typedef {{text: string, font: string, box: LabelBox}} MapLabel */

/** Boxes are kept by the cells of a grid that they touch. A label is wider than high. */
const CELL_WIDE = 64, CELL_HIGH = 16, CELLS_WIDE = 4096;

/** The distance of a label from the middle of its mark, and from another label (CSS pixels). */
const LABEL_AWAY = 9, LABEL_APART = 2;

class LabelPlaces {
  constructor(width, height) {
    this.width = width;
    this.height = height;
    /** @type {Map<number, LabelBox[]>} */
    this.cells = new Map();
  }

  /** Calls a function with each cell that a box touches, until one returns true. Returns whether one did.
   * @param {LabelBox} box @param {(key: number) => boolean} visit */
  someCell({ x, y, wide, high }, visit) {
    const left = Math.floor(x / CELL_WIDE), right = Math.floor((x + wide) / CELL_WIDE);
    const bottom = Math.floor((y + high) / CELL_HIGH);
    for (let row = Math.floor(y / CELL_HIGH); row <= bottom; row++) {
      for (let column = left; column <= right; column++) if (visit(row * CELLS_WIDE + column)) return true;
    }
    return false;
  }

  /** Whether a box lies within the map and apart from all that are taken. @param {LabelBox} box */
  isFree(box) {
    const { x, y, wide, high } = box;
    if (x < 0 || y < 0 || x + wide > this.width || y + high > this.height) return false;
    const isNear = (one) => x < one.x + one.wide + LABEL_APART && one.x < x + wide + LABEL_APART &&
      y < one.y + one.high + LABEL_APART && one.y < y + high + LABEL_APART;
    return !this.someCell(box, (key) => this.cells.get(key)?.some(isNear) ?? false);
  }

  /** Takes a box if it is free. @param {LabelBox} box @returns {boolean} */
  take(box) {
    if (!this.isFree(box)) return false;
    this.block(box);
    return true;
  }

  /** Keeps labels out of a box. @param {LabelBox} box */
  block(box) {
    const { x, y, wide, high } = box, apart = LABEL_APART;
    // A label in the next cell may be too near as well.
    this.someCell({ x: x - apart, y: y - apart, wide: wide + 2 * apart, high: high + 2 * apart }, (key) => {
      const cell = this.cells.get(key);
      if (cell) cell.push(box);
      else this.cells.set(key, [box]);
      return false;
    });
  }

  /** Takes a box beside a mark: to its right or left, below or above. Returns null if none is free.
   * @returns {LabelBox | null} */
  beside(x, y, wide, high) {
    const middle = y - high / 2, left = x - wide / 2;
    const boxes = [
      [x + LABEL_AWAY, middle], [x - LABEL_AWAY - wide, middle], [left, y + LABEL_AWAY], [left, y - LABEL_AWAY - high],
    ].map(([at, top]) => ({ x: at, y: top, wide, high }));
    return boxes.find((box) => this.take(box)) ?? null;
  }
}

/** The width of the halo of a label, and the height of its text (CSS pixels). */
const HALO = 2, LABEL_HIGH = 14;

/** Pictures of labels stand in rows on one canvas. */
const SPRITE_WIDE = 72, SPRITE_HIGH = LABEL_HIGH + 2 * HALO, SPRITES_IN_ROW = 16, SPRITE_ROWS = 32;

/** Addresses with a halo, as pictures: a text with a border takes long to draw. */
class LabelSprites {
  constructor() {
    this.canvas = document.createElement("canvas");
    this.pen = this.canvas.getContext("2d");
    this.key = "";
    this.ratio = 1;
    this.colors = { ink: "", halo: "" };
    /** @type {Map<string, number>} */
    this.slots = new Map();
    /** The widths of hexadecimal digits. @type {Map<string, number>} */
    this.digits = new Map();
  }

  /** Draws labels for this ratio and these colours from now on. */
  use(ratio, ink, halo) {
    const key = `${ratio} ${ink} ${halo}`;
    if (key === this.key) return;
    this.key = key;
    this.ratio = ratio;
    this.colors = { ink, halo };
    this.clear();
  }

  clear() {
    this.slots.clear();
    this.canvas.width = SPRITE_WIDE * SPRITES_IN_ROW * this.ratio;
    this.canvas.height = SPRITE_HIGH * SPRITE_ROWS * this.ratio;
  }

  /** Returns the width of an address (CSS pixels). */
  wide(text, font) {
    let wide = 0;
    for (const digit of text) {
      const known = this.digits.get(font + digit);
      if (known === undefined && this.pen) {
        this.pen.font = font;
        this.digits.set(font + digit, this.pen.measureText(digit).width);
      }
      wide += this.digits.get(font + digit) ?? 0;
    }
    return wide;
  }

  /** Draws labels. Makes the pictures that are missing first, because a browser copies the canvas if it has changed
   * since the last one. @param {CanvasRenderingContext2D} pen @param {MapLabel[]} labels */
  draw(pen, labels) {
    const missing = labels.filter(({ text, font }) => !this.slots.has(font + text));
    if (this.slots.size + missing.length > SPRITES_IN_ROW * SPRITE_ROWS) this.clear();
    for (const { text, font } of labels) if (!this.slots.has(font + text)) this.make(text, font);
    for (const label of labels) this.drawOne(pen, label);
  }

  /** @param {CanvasRenderingContext2D} pen @param {MapLabel} label */
  drawOne(pen, { text, font, box }) {
    const { ratio } = this, slot = this.slots.get(font + text) ?? 0;
    const x = slot % SPRITES_IN_ROW * SPRITE_WIDE, y = Math.floor(slot / SPRITES_IN_ROW) * SPRITE_HIGH;
    const left = Math.round((box.x - HALO) * ratio) / ratio, top = Math.round((box.y - HALO) * ratio) / ratio;
    pen.drawImage(this.canvas, x * ratio, y * ratio, SPRITE_WIDE * ratio, SPRITE_HIGH * ratio, left, top, SPRITE_WIDE,
      SPRITE_HIGH);
  }

  /** Makes the picture of an address. */
  make(text, font) {
    const slot = this.slots.size, { pen, ratio, colors } = this;
    this.slots.set(font + text, slot);
    if (!pen) return;
    const x = slot % SPRITES_IN_ROW * SPRITE_WIDE + HALO, y = Math.floor(slot / SPRITES_IN_ROW) * SPRITE_HIGH + HALO;
    pen.setTransform(ratio, 0, 0, ratio, 0, 0);
    pen.font = font;
    pen.lineWidth = 2 * HALO;
    pen.lineJoin = "round";
    pen.strokeStyle = colors.halo;
    pen.strokeText(text, x, y + LABEL_HIGH - 3);
    pen.fillStyle = colors.ink;
    pen.fillText(text, x, y + LABEL_HIGH - 3);
  }
}

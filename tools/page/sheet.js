// The sheet: where a drawing's points lie in the picture, y upwards, and the shapes of it as SVG.
import { bounds } from "./drawing.js";

const SPACE = "http://www.w3.org/2000/svg";
// Room round the drawing, and below it for the scale.
const MARGIN = 52, BAR = 24;

export function shape(name, attributes, words) {
  const made = document.createElementNS(SPACE, name);
  for (const [key, value] of Object.entries(attributes)) made.setAttribute(key, value);
  if (words !== undefined) made.textContent = words;
  return made;
}

export class Sheet {
  // A small one has no scale.
  constructor(svg, small = false) {
    Object.assign(this, { svg, small });
    this.scale = 1;
    this.left = this.top = 0;
    // Whether all of it was last put in sight, and nobody has moved it since.
    this.fitted = true;
    this.measure();
  }

  measure() {
    const { width, height } = this.svg.getBoundingClientRect();
    [this.wide, this.high] = [width, height].map(side => Math.max(side, this.small ? 20 : 120));
    this.svg.setAttribute("viewBox", `0 0 ${this.wide} ${this.high}`);
  }

  // All points in sight; an empty sheet is some 100 mm wide.
  fit(points) {
    this.measure();
    this.fitted = true;
    let [left, low, right, high] = points.length ? bounds(points) : [0, 0, 100000, 60000];
    const least = 8;
    if (right - left < least) [left, right] = [left - least / 2, right + least / 2];
    if (high - low < least) [low, high] = [low - least / 2, high + least / 2];
    const margin = Math.min(MARGIN, this.wide / 8, this.high / 8), below = this.small ? 0 : BAR;
    this.scale = Math.min((this.wide - 2 * margin) / (right - left), (this.high - below - 2 * margin) / (high - low));
    this.left = (left + right) / 2 - this.wide / 2 / this.scale;
    this.top = (low + high) / 2 + (this.high - below) / 2 / this.scale;
  }

  // Closer or farther, about a place of the picture.
  zoom(times, [across, down] = [this.wide / 2, this.high / 2]) {
    const [x, y] = this.exact([across, down]);
    this.fitted = false;
    this.scale = Math.min(Math.max(this.scale * times, 1e-4), 200);
    this.left = x - across / this.scale;
    this.top = y + down / this.scale;
  }

  pan(across, down) {
    this.fitted = false;
    this.left -= across / this.scale;
    this.top += down / this.scale;
  }

  at([x, y]) {
    return [(x - this.left) * this.scale, (this.top - y) * this.scale];
  }

  exact([across, down]) {
    return [this.left + across / this.scale, this.top - down / this.scale];
  }

  // The whole micrometres at a place of the picture: as round as a pixel allows.
  whole(place) {
    const round = this.round();
    return this.exact(place).map(value => Math.round(value / round) * round + 0);
  }

  round() {
    return 10 ** Math.max(0, Math.ceil(Math.log10(1 / this.scale)));
  }

  // A pointer's place in the picture.
  place(event) {
    const box = this.svg.getBoundingClientRect();
    return [((event.clientX - box.left) * this.wide) / box.width, ((event.clientY - box.top) * this.high) / box.height];
  }

  d(points, closed) {
    return points.length ? `M${points.map(point => this.at(point).map(value => value.toFixed(2)).join(" ")).join(" L")}${closed ? " Z" : ""}` : "";
  }

  // An open ring runs from the point after its first round to that.
  ring({ open, points }) {
    return this.d(open ? [...points.slice(1), ...points.slice(0, 1)] : points, !open);
  }

  // A length of 1, 2 or 5 and zeros, in micrometres, that is some 50 to 120 wide.
  unit() {
    const least = 50 / this.scale, power = 10 ** Math.max(Math.floor(Math.log10(least)), 0);
    return [1, 2, 5, 10].map(step => step * power).find(step => step >= least) ?? 10 * power;
  }

  grid() {
    const unit = this.unit(), lines = [];
    const right = this.left + this.wide / this.scale, low = this.top - this.high / this.scale;
    for (let x = Math.ceil(this.left / unit) * unit; x <= right; x += unit) lines.push(`M${this.at([x, 0])[0].toFixed(1)} 0 V${this.high}`);
    for (let y = Math.ceil(low / unit) * unit; y <= this.top; y += unit) lines.push(`M0 ${this.at([0, y])[1].toFixed(1)} H${this.wide}`);
    return shape("path", { class: "grid", d: lines.join(" ") });
  }

  // How long a unit is, in the corner.
  bar() {
    const wide = this.unit() * this.scale, right = this.wide - 24, down = this.high - 24;
    const group = shape("g", {});
    group.append(shape("path", { class: "bar", d: `M${right - wide} ${down - 5} V${down + 5} M${right - wide} ${down} H${right} M${right} ${down - 5} V${down + 5}` }));
    const length = this.unit() < 1000 ? `${this.unit()} µm` : `${this.unit() / 1000} mm`;
    group.append(shape("text", { class: "label", x: right - wide / 2, y: down - 9, "text-anchor": "middle" }, length));
    return group;
  }
}

// The picture of one fact's versions: time across and commits down. A version is where it holds, and from its commit to
// the one that closed it.

// The indices in a version of its period and of its commits; its values follow them.
const FROM = 1, TO = 2, MADE = 3, CLOSED = 4, VALUES = 5;
// An end from then on isn't known, nor is a start on the first day that there is.
const OPEN = "9999", EVER = "0001-01-01";
// There is no picture of more versions. Sizes are in pixels.
const MOST = 150, WIDTH = 640, LEFT = 100, RIGHT = 12, TOP = 36, LANE = 24, LETTER = 6.8, SHADES = 8;

function secondsOf(point) {
  return Date.parse(point.length === 10 ? `${point}T00:00:00Z` : `${point}Z`) / 1000;
}

class Square {
  constructor(versions, columns, fact) {
    this.versions = versions;
    this.columns = columns;
    this.names = columns.map(([name]) => name);
    const commits = versions.flatMap((one) => [one[MADE], one[CLOSED]]).filter(Boolean).map(Number);
    this.commits = [...new Set(commits)].sort((one, other) => one - other);
    this.points = [...new Set(versions.flatMap((one) => [one[FROM], one[TO]]))].sort();
    this.bottom = TOP + this.commits.length * LANE;
    this.setSpan();
    this.cross = drawn("path", { class: "cross" });
    this.crossText = drawn("text", { y: TOP - 14 });
    this.element = drawn("svg", {
      viewBox: `0 0 ${WIDTH} ${this.bottom + 28}`, width: WIDTH, height: this.bottom + 28, role: "img",
      "aria-label": `Picture of ${fact}: time across and commits down. The table beside it has the same.`,
    }, ...this.lanes(), ...this.ticks(), ...this.bars(), this.cross, this.crossText);
  }

  // From the first to the last known point, and somewhat more on a side that is open.
  setSpan() {
    const { points } = this;
    const known = points.filter((point) => point < OPEN && !point.startsWith(EVER)).map(secondsOf);
    const first = known.length ? known[0] : 0;
    const last = known.length > 1 ? known[known.length - 1] : first + 86400;
    const more = (last - first) / 6;
    this.low = points[0].startsWith(EVER) ? first - more : first;
    this.high = points[points.length - 1] >= OPEN ? last + more : last;
  }

  across(point) {
    const inside = Math.min(Math.max(secondsOf(point), this.low), this.high);
    return Math.round(LEFT + (inside - this.low) / (this.high - this.low) * (WIDTH - LEFT - RIGHT));
  }

  // Where the lane begins in which a commit is the newest.
  down(commit) {
    return TOP + (this.commits.filter((one) => one <= commit).length - 1) * LANE;
  }

  lanes() {
    return this.commits.flatMap((commit, place) => {
      const next = this.commits[place + 1] ?? data.newest + 1, top = TOP + place * LANE;
      const label = next > commit + 1 ? `commits ${commit}-${next - 1}` : `commit ${commit}`;
      return [
        drawn("text", { x: LEFT - 8, y: top + LANE - 8, "text-anchor": "end" }, label),
        drawn("line", { class: "grid", x1: LEFT, x2: WIDTH - RIGHT, y1: top, y2: top }),
      ];
    });
  }

  ticks() {
    let taken = 0;
    return this.points.filter((point) => point < OPEN && !point.startsWith(EVER)).flatMap((point) => {
      const x = this.across(point), start = Math.min(x, WIDTH - RIGHT - point.length * LETTER);
      const line = drawn("line", { class: "grid", x1: x, x2: x, y1: TOP - 4, y2: this.bottom + 4 });
      if (start < taken) {
        return [line];
      }
      taken = start + point.length * LETTER + 10;
      return [line, drawn("text", { x: start, y: this.bottom + 18 }, point)];
    });
  }

  bars() {
    const different = this.names.map((_, place) => place).slice(VALUES)
      .filter((place) => new Set(this.versions.map((one) => one[place])).size > 1);
    const shades = new Map();
    return this.versions.flatMap((version) => {
      const shown = version.map((field, place) => shownField(this.columns[place], field));
      const label = different.map((place) => shown[place]).join(" ") || shown.slice(VALUES).join(" ") || `row ${version[0]}`;
      shades.set(label, shades.get(label) ?? shades.size % SHADES);
      const title = this.names.map((name, place) => `${name}: ${shown[place]}`).join(", ");
      return this.bar(version, label, shades.get(label), title);
    });
  }

  bar(version, label, shade, title) {
    const x = this.across(version[FROM]), width = Math.max(this.across(version[TO]) - x, 2);
    const top = this.down(Number(version[MADE]));
    const end = version[CLOSED] === "" ? this.bottom : this.down(Number(version[CLOSED]));
    const size = { x, y: top + 1, width, height: end - top - 2 };
    const box = drawn("rect", { class: `bar shade${shade}`, ...size }, drawn("title", {}, title));
    const hasRoom = label.length * LETTER < width - 8;
    return hasRoom ? [box, drawn("text", { x: x + 4, y: (top + end) / 2 + 4 }, label)] : [box];
  }

  // Lines at a commit and, if it is within the picture, at a point of time.
  mark(point, commit) {
    const x = this.across(point), y = Math.max(this.down(commit) + LANE - 4, TOP - 4), second = secondsOf(point);
    const upright = this.low <= second && second <= this.high ? `M${x} ${TOP - 8}V${this.bottom + 4}` : "";
    this.cross.setAttribute("d", `${upright}M${LEFT} ${y}H${WIDTH - RIGHT}`);
    this.crossText.textContent = `${point}, commit ${commit}`;
    this.crossText.setAttribute("x", Math.min(x, WIDTH - RIGHT - this.crossText.textContent.length * LETTER));
  }
}

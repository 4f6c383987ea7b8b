"use strict";
// Elements, and tables that a reader sorts, filters and saves. No text of the data is read as HTML: elements are made one
// by one, and their content is text.

const SVG = "http://www.w3.org/2000/svg";
const collator = new Intl.Collator(undefined, { numeric: true });
// Characters that can't be seen, or that turn the direction of later ones, are shown by their codes: controls and formats,
// blanks other than a space, and letters and marks without ink.
const UNSEEN = /(?![ \n\t])[\p{C}\p{Z}\p{Default_Ignorable_Code_Point}\u2800]/gu;
// The most records of a table on paper, as page.css has it; the most characters of a text that stays in one line; the
// most records of a table without room for a bar to scroll.
const ON_PAPER = 100, BRIEF = 24, LONG = 12;

function blockOf(id) {
  return JSON.parse(document.getElementById(id).textContent);
}

const data = blockOf("data");

function make(name, attributes = {}, ...inner) {
  return filled(document.createElement(name), attributes, inner);
}

function drawn(name, attributes = {}, ...inner) {
  return filled(document.createElementNS(SVG, name), attributes, inner);
}

function filled(element, attributes, inner) {
  for (const [name, value] of Object.entries(attributes)) {
    element.setAttribute(name, value);
  }
  element.append(...inner.map((one) => (typeof one === "string" ? seen(one) : one)));
  return element;
}

function seen(text) {
  return text.replace(UNSEEN, codeOf);
}

function codeOf(character) {
  const code = character.codePointAt(0).toString(16);
  return code.length > 4 ? `\\U${code.padStart(8, "0")}` : `\\u${code.padStart(4, "0")}`;
}

function pressed(text, act) {
  const button = make("button", { type: "button" }, text);
  button.addEventListener("click", act);
  return button;
}

function grouped(number) {
  return number.toLocaleString("en");
}

function counted(count, what) {
  return `${grouped(count)} ${what}${count === 1 ? "" : "s"}`;
}

// --- How fields are shown ---

// The whole number of the smallest unit with its decimals: of 2, 123450 is 1,234.50; without a mark between thousands
// where that is the empty text.
function money(field, digits, [thousands, decimals]) {
  const sign = field.startsWith("-") ? "-" : "", number = field.slice(sign.length).padStart(digits + 1, "0");
  const end = number.length - digits, whole = number.slice(0, end).replace(/\B(?=(\d{3})+$)/g, thousands);
  return `${sign}${whole}${digits ? decimals + number.slice(end) : ""}`;
}

// The day before an end. One in the year 9999 isn't known, and stays.
function lastDay(end) {
  const day = new Date(`${end}T00:00:00Z`);
  day.setUTCDate(day.getUTCDate() - 1);
  return end >= OPEN ? end : day.toISOString().slice(0, 10);
}

// A field as a column shows it, which may have decimals, or ends that are shown as last days.
function shownAs([, , look], field, marks) {
  if (look === undefined || field === "") {
    return field;
  }
  return look.end === undefined ? money(field, look.digits, marks) : lastDay(field);
}

function shownField(column, field) {
  return shownAs(column, field, data.isGerman ? [".", ","] : [",", "."]);
}

// --- Orders ---

// The texts of points are in the order of time.
function ordered(one, other) {
  return (one > other) - (one < other);
}

// Long sums are past the numbers that are exact. An empty field comes before all numbers.
function byNumber(...fields) {
  return ordered(...fields.map((field) => (field === "" ? -Infinity : BigInt(field))));
}

// --- A table ---

// Records under columns of a name and a kind. It is saved as `file`, where that is given. Of `count` records some may not be
// in the page, and `shown` are shown at first. `look` gives the class of a record's row.
class Grid {
  constructor({ label, columns, records, file, shown = data.shown, count = records.length, look = () => "" }) {
    Object.assign(this, { columns, records, count, look, limit: shown, words: "", only: null, sorted: null, isFalling: false });
    this.body = make("tbody");
    this.body.addEventListener("click", (event) => this.pick(event.target.closest("td")));
    this.all = pressed("", () => { this.only = null; this.refresh(); });
    this.status = make("output", { class: "soft" });
    this.more = pressed("Show more", () => { this.limit = data.shown; this.refresh(); });
    this.heads = columns.map(([name, kind], place) => this.headOf(name, kind, place));
    const table = make("table", {}, make("thead", {}, make("tr", {}, ...this.heads)), this.body);
    this.scroll = make("div", { class: "scroll", tabindex: "0", role: "region", "aria-label": label }, table);
    this.element = make("div", { class: "table" }, this.toolsFor(label, file), this.scroll);
    this.refresh();
  }

  toolsFor(label, file) {
    const tools = make("div", { class: "tools" }, this.status, this.all, this.more);
    if (this.count > 5) {
      const search = make("input", { type: "search", "aria-label": `Filter ${label}`, placeholder: "Filter" });
      search.addEventListener("input", () => { this.words = search.value.toLowerCase(); this.refresh(); });
      tools.append(search);
    }
    if (file) {
      const note = make("output", { class: "soft" });
      const csv = pressed("Save as CSV", () => { note.textContent = saveAs(file, this.columns, this.records); });
      csv.setAttribute("aria-label", `Save as CSV: ${label}`);
      tools.append(note, csv);
    }
    return tools;
  }

  // A browser doesn't print buttons again at the head of a table's next page, so the name stands there once more.
  headOf(name, kind, place) {
    const button = pressed(name, () => this.sortBy(place));
    return make("th", { scope: "col", class: kind, "aria-sort": "none" }, button, make("span", { class: "on-paper" }, name));
  }

  // Rising, then falling, then as the records were.
  sortBy(place) {
    const isSame = this.sorted === place;
    this.sorted = isSame && this.isFalling ? null : place;
    this.isFalling = isSame && !this.isFalling;
    this.heads.forEach((head, at) => {
      head.setAttribute("aria-sort", at !== this.sorted ? "none" : this.isFalling ? "descending" : "ascending");
    });
    this.refresh();
  }

  // Of a field that is clicked, the records that have it in that column. Who marks a text to copy it clicks too.
  pick(cell) {
    if (cell && getSelection().isCollapsed) {
      const record = this.visible[cell.parentNode.sectionRowIndex];
      this.only = { place: cell.cellIndex, field: record[cell.cellIndex] };
      this.refresh();
    }
  }

  found() {
    const { words, sorted, only } = this;
    const isWanted = (record) => (!only || record[only.place] === only.field)
      && (!words || record.some((field, place) => shownField(this.columns[place], field).toLowerCase().includes(words)));
    const found = this.records.filter(isWanted);
    if (sorted !== null) {
      const compare = { int: byNumber, point: ordered }[this.columns[sorted][1]] ?? collator.compare, sign = this.isFalling ? -1 : 1;
      found.sort((one, other) => sign * compare(one[sorted], other[sorted]));
    }
    return found;
  }

  refresh() {
    const found = this.found(), { limit, count, records, only } = this;
    this.visible = found.slice(0, limit);
    this.body.replaceChildren(...this.visible.map((record) => this.rowOf(record)));
    this.scroll.classList.toggle("long", this.visible.length > LONG);
    const front = found.length > limit ? `first ${grouped(limit)} of ` : "";
    const lacking = records.length < count ? `; of ${grouped(count)} the others aren't in this page` : "";
    this.status.textContent = `${front}${counted(found.length, "record")}${this.words || only ? " found" : ""}${lacking}`;
    if (Math.min(found.length, limit) > ON_PAPER) {
      this.status.append(make("span", { class: "on-paper" }, `; on paper the first ${ON_PAPER}`));
    }
    this.all.hidden = only === null;
    const field = only ? seen(shownField(this.columns[only.place], only.field)) || "empty" : "";
    this.all.textContent = only ? `${this.columns[only.place][0]}: ${field} \u00d7` : "";
    this.all.setAttribute("aria-label", "Show all records again");
    this.more.hidden = limit >= data.shown || found.length <= limit;
  }

  rowOf(record) {
    const kinds = record.map((field, place) => `${this.columns[place][1]}${field.length <= BRIEF ? " brief" : ""}`);
    const cells = record.map((field, place) => make("td", { class: kinds[place] }, shownField(this.columns[place], field)));
    return make("tr", { class: this.look(record) }, ...cells);
  }

  show(records) {
    this.records = records;
    this.count = records.length;
    this.refresh();
  }
}

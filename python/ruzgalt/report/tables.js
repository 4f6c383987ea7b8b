// What each table of the script held at each point of time, as each commit knew it, and the history of one fact.

const POINT = /^\d{4}-\d\d-\d\d(T\d\d:\d\d:\d\d)?$/;

// A commit's number, day, place and command; of one that isn't in the page the number alone.
function commitOf(number) {
  return data.commits[number - 1] || [String(number), "", "", ""];
}

function commitText(number) {
  const [, day] = commitOf(number);
  return number === 0 ? "commit 0, the empty store" : `commit ${number}${day ? `, entered ${day}` : ""}`;
}

function isShown(version, commit) {
  return Number(version[MADE]) <= commit && (version[CLOSED] === "" || commit < Number(version[CLOSED]));
}

function holds(version, point) {
  return version[FROM] <= point && point < version[TO];
}

// The point in its shortest text, or nothing where it is none.
function pointIn(text) {
  const point = text.trim().replace("T00:00:00", "");
  const date = new Date(point.length === 10 ? `${point}T00:00:00Z` : `${point}Z`);
  return POINT.test(point) && !Number.isNaN(date.getTime()) && date.toISOString().startsWith(point) ? point : null;
}

function withoutCommits(record) {
  return record.filter((_, place) => place !== MADE && place !== CLOSED);
}

function slider(label, most, value) {
  const input = make("input", { type: "range", min: 0, max: most, value, "aria-label": label });
  const text = make("span", { class: "soft" });
  return { input, text, element: make("div", { class: "slider" }, label, input, text) };
}

// What held of a table at a point, as the store stood at a commit. `mark` is given both.
class Moment {
  constructor(table, versions, mark) {
    Object.assign(this, { table, versions, mark });
    this.points = [...new Set(versions.flatMap((version) => [version[FROM], version[TO]]))].sort();
    this.point = versions.map((version) => version[FROM]).reduce((one, other) => (one < other ? other : one));
    this.day = slider("Day", this.points.length - 1, this.points.indexOf(this.point));
    this.commit = slider("Commit", data.newest, data.newest);
    this.exact = make("input", { type: "text", value: this.point, autocomplete: "off" });
    this.status = make("output", { "aria-live": "polite" });
    const label = `what held of ${table.name}`;
    this.grid = new Grid({ label, columns: withoutCommits(table.columns), records: [], file: `${table.name}-held.csv` });
    this.day.input.addEventListener("input", () => this.slide());
    this.commit.input.addEventListener("input", () => this.refresh());
    this.exact.addEventListener("input", () => this.read());
    this.refresh();
  }

  get element() {
    const other = make("label", {}, "Another day or second, as 2024-01-31 or 2024-01-31T08:30:00 ", this.exact);
    return make("fieldset", {}, make("legend", {}, `What held of ${this.table.name}`), this.day.element,
      make("div", { class: "tools" }, other), this.commit.element, make("p", {}, this.status), this.grid.element);
  }

  slide() {
    this.point = this.exact.value = this.points[Number(this.day.input.value)];
    this.exact.removeAttribute("aria-invalid");
    this.refresh();
  }

  read() {
    const point = pointIn(this.exact.value);
    this.exact.setAttribute("aria-invalid", String(point === null));
    if (point !== null) {
      this.point = point;
      this.day.input.value = Math.max(this.points.filter((one) => one <= point).length - 1, 0);
      this.refresh();
    }
  }

  refresh() {
    const { point, table } = this, commit = Number(this.commit.input.value);
    const found = this.versions.filter((version) => isShown(version, commit) && holds(version, point));
    const next = this.points.find((one) => one > point);
    this.day.text.textContent = `${point}${next ? `; nothing starts or ends before ${next}` : ""}`;
    this.day.input.setAttribute("aria-valuetext", point);
    this.commit.text.textContent = `${commitText(commit)}: ${seen(commitOf(commit)[3])}`.replace(/: $/, "");
    this.commit.input.setAttribute("aria-valuetext", commitText(commit));
    const held = `On ${point}, as commit ${commit} shows it, ${counted(found.length, "row")} held. The program is asked so: `;
    this.status.replaceChildren(held, make("code", {}, `at,${table.name},${point},asof,${commit}`));
    this.grid.show(found.map(withoutCommits));
    this.mark(point, commit);
  }
}

// The versions of one fact: of values of the key, or of a column that is chosen.
class Fact {
  constructor(table, versions) {
    Object.assign(this, { table, versions });
    this.kinds = this.kindsOf(table);
    this.kind = make("select", { "aria-label": `What a fact of ${table.name} is known by` },
      ...this.kinds.map(({ name }, place) => make("option", { value: place }, name)));
    this.about = make("p", { class: "soft" });
    this.figure = make("figure", { class: "square" });
    this.choice = make("select", { "aria-label": `Fact of ${table.name}` });
    this.search = make("input", { type: "search", placeholder: "Find", "aria-label": `Find a fact of ${table.name}` });
    this.picked = make("span", { class: "on-paper" });
    const columns = [...table.columns.slice(FROM), table.columns[0], ["made by", "code"]];
    const label = `the history of one fact of ${table.name}`;
    this.grid = new Grid({ label, columns, records: [], file: `${table.name}-history.csv` });
    this.choice.addEventListener("change", () => this.refresh());
    this.search.addEventListener("input", () => this.offer());
    this.kind.addEventListener("change", () => this.group());
    this.group();
  }

  // The columns by whose values facts differ: those of the key, or each alone.
  kindsOf(table) {
    const names = table.columns.map(([name]) => name);
    const { key } = table;
    const single = names.map((_, place) => [place]).slice(VALUES);
    const others = single.filter(([place]) => key.length !== 1 || place !== key[0]);
    const kinds = [...(key.length ? [key] : []), ...others].map((places) => {
      return { places, name: places.map((place) => names[place]).join(", ") };
    });
    return kinds.length ? kinds : [{ places: [], name: "all rows" }];
  }

  group() {
    this.chosen = this.kinds[Number(this.kind.value)];
    this.facts = this.grouped(this.chosen.places);
    this.sorted = [...this.facts.values()].sort((one, other) => collator.compare(one.label, other.label));
    this.search.hidden = this.sorted.length <= 20;
    this.search.value = "";
    this.offer();
  }

  grouped(places) {
    const facts = new Map();
    for (const version of this.versions) {
      const values = places.map((place) => version[place]), key = JSON.stringify(values);
      if (!facts.has(key)) {
        const shown = places.map((place) => shownField(this.table.columns[place], version[place]));
        facts.set(key, { key, label: shown.join(", ") || "(the empty text)", versions: [] });
      }
      facts.get(key).versions.push(version);
    }
    return facts;
  }

  get element() {
    const choose = make("div", { class: "tools" });
    if (this.table.columns.length > VALUES) {
      choose.append(this.kind, this.search, this.choice, this.picked);
    }
    return make("fieldset", {}, make("legend", {}, `History of one fact of ${this.table.name}`), choose, this.about,
      this.figure, this.grid.element);
  }

  // The facts that are searched for, at first that of the most versions.
  offer() {
    const words = this.search.value.toLowerCase();
    const found = this.sorted.filter(({ label }) => label.toLowerCase().includes(words)).slice(0, data.shown);
    this.choice.replaceChildren(...found.map(({ key, label }) => make("option", { value: key }, label)));
    if (found.length) {
      this.choice.value = found.reduce((one, other) => (other.versions.length > one.versions.length ? other : one)).key;
      this.refresh();
    }
  }

  refresh() {
    const { label, versions } = this.facts.get(this.choice.value);
    const found = [...versions].sort((one, other) => Number(one[MADE]) - Number(other[MADE]) || ordered(one[FROM], other[FROM]));
    this.picked.textContent = `${this.chosen.name} ${seen(label)}`;
    this.about.textContent = `${counted(found.length, "version")}. Each is shown by the commits from sys_from on and before sys_to; `
      + "where that is empty, by the newest too.";
    this.grid.show(found.map((version) => [...version.slice(FROM), version[0], madeBy(version)]));
    this.square = found.length <= MOST ? new Square(found, this.table.columns, label) : null;
    this.figure.hidden = this.square === null;
    this.figure.replaceChildren(...(this.square ? [this.square.element] : []));
    this.mark(...(this.moment || []));
  }

  mark(point, commit) {
    this.moment = [point, commit];
    if (this.square && point) {
      this.square.mark(point, commit);
    }
  }
}

function madeBy(version) {
  const [, , place, command] = commitOf(Number(version[MADE]));
  return `${place}: ${command}`;
}

function tableOf(table) {
  const values = table.columns.slice(VALUES).map(([name]) => name);
  const columns = values.length ? `Columns: ${values.join(", ")}.` : "It has no columns.";
  const names = table.key.map((place) => table.columns[place][0]);
  const key = names.length ? ` Its key is ${names.join(", ")}.` : "";
  const about = make("p", { class: "soft" }, `${columns}${key} ${counted(table.count, "version")} of rows.`);
  const article = make("article", {}, make("h3", {}, make("code", {}, table.name)), about);
  if (!table.isThere) {
    const command = make("code", {}, `${data.tool} csv ${data.scriptWord} --ask at,${table.name},DAY,asof,N`);
    article.append(make("p", {}, "So many versions aren't in this page. What held is listed by ", command, "."));
  } else if (table.count === 0) {
    article.append(make("p", {}, "No row was ever in it."));
  } else {
    const versions = blockOf(`versions-${table.number}`);
    const fact = new Fact(table, versions);
    article.append(new Moment(table, versions, (point, commit) => fact.mark(point, commit)).element, fact.element);
  }
  return article;
}

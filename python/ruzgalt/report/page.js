// The parts of the page: what it is of, what a reader looks at first, commits, then and now, questions, tables.

// A table of more columns takes the whole width, on the screen and on paper.
const WIDEST = 8, WIDEST_ON_PAPER = 5;

function section(id, ...inner) {
  document.getElementById(id).append(...inner);
}

function fileText(file) {
  return [`${file.name}, ${counted(file.size, "byte")}, SHA-256 `, make("span", { class: "mark" }, file.sha256)];
}

function answeredBy() {
  const [command, program] = data.files;
  if (!command) {
    return ["a program whose file can't be read"];
  }
  const version = data.version ? [`version ${data.version}: `] : [];
  return [...version, ...fileText(command), ...(program ? [", which runs ", ...fileText(program)] : [])];
}

function runAgain() {
  const again = `The program ran twice on this script, and its ${counted(data.answers, "answer")} had the same bytes.`;
  return data.kept ? [again, " So have the answers that were kept: ", ...fileText(data.kept), "."] : [again];
}

function showHead() {
  const { name } = data.script;
  const title = seen(data.title || `Answers to ${name}`);
  document.title = title;
  document.querySelector("h1").textContent = title;
  const notes = data.note.split("\n").filter((line) => line.trim());
  document.querySelector("h1").after(...notes.map((line) => make("p", { class: "note" }, line)));
  const { refused, idle, doubtful, questions } = data.counts;
  const findings = [[refused, "refused"], [idle, "touched nothing"], [doubtful, "possible mistakes"]];
  const short = findings.map(([count, what]) => `${grouped(count)} ${what}`).join(", ");
  const counts = `${counted(data.newest, "commit")}, ${counted(questions, "question")}; ${short}.`;
  const facts = [["Script", fileText(data.script)], ["Answered by", answeredBy()], ["Run again", runAgain()], ["In short", [counts]]];
  for (const [what, text] of facts) {
    document.getElementById("facts").append(make("dt", {}, what), make("dd", {}, ...text));
  }
  document.getElementById("facts").after(savingChoice());
}

// For each kind of findings its title, and what is said of some and of none.
const FINDINGS = {
  refused: ["Refused commands", "Each changed nothing: none of its rows was taken, and it is no commit.", "No command was refused."],
  idle: ["Changes that touched nothing", "Each is a commit, but no row was made or closed.", "Each change of rows made or closed some."],
  doubtful: ["Possible mistakes", "Each was done as it is written. Its author knows whether it is meant.", "Nothing else was noticed."],
};

function showFirst() {
  for (const [kind, [title, about, none]] of Object.entries(FINDINGS)) {
    const found = data[kind], count = data.counts[kind];
    section("first", make("h3", {}, `${title}: ${grouped(count)}`), make("p", {}, found.length ? about : none));
    if (found.length) {
      const name = kind === "refused" ? [["refusal", "bad"]] : [];
      const columns = [["place", "short"], ["command", "code"], ...name, ["reason", "reason"]];
      const reasons = found.map(({ reason, more }) => [reason, ...more].join("\n"));
      const records = found.map((one, place) => [one.place, one.command, ...name.map(() => one.name), reasons[place]]);
      section("first", new Grid({ label: title, columns, records, count }).element);
    }
  }
}

function showCommits() {
  const hasDays = data.diary !== null;
  const about = hasDays
    ? `Days are those of the table ${data.diary}: the first day on which a commit was there.`
    : "The store has no clock, and no diary is given (--diary TABLE), so commits have numbers and no days.";
  const all = [
    ["commit", "int"], ["day", "point"], ["place", "short"], ["command", "code"], ["rows added", "int"], ["rows closed", "int"],
  ];
  const withDays = (record) => record.filter((_, place) => hasDays || place !== 1);
  section("commits", make("p", {}, "Each accepted change, and how many versions of rows it made and closed. ", about));
  const records = data.commits.map(withDays), count = data.newest;
  section("commits", new Grid({ label: "commits", columns: withDays(all), records, count, file: "commits.csv" }).element);
}

// --- Then and now ---

// The records, each with nothing before it, or with `only` if its sign says that the other answer has fewer such ones.
function signed(records, signs, only) {
  return records.map((record, place) => [signs[place] === "1" ? only : "", ...record]);
}

function sideOf(when, question, records) {
  const label = `${when}: ${commitText(question.commit)}`;
  const columns = [["said", "short"], ...question.columns];
  const file = `${when.toLowerCase()}-${question.number}.csv`;
  const look = ([mark]) => mark.slice(5);
  const grid = new Grid({ label: `${label}, ${question.command}`, columns, records, look, file });
  const which = question.name ? `${question.name}, ${question.place}` : question.place;
  const title = make("h4", {}, label, make("span", { class: "soft" }, ` (${which})`));
  return { element: make("div", {}, title, grid.element), only: (is) => grid.show(records.filter(([mark]) => mark || !is)) };
}

// A question's name, or where it has none its command.
function headOf(name, command) {
  return name || make("code", {}, command);
}

function pairOf(then, now) {
  const name = now.name || then.name;
  const command = name ? [make("p", { class: "soft" }, make("code", {}, now.command))] : [];
  const article = make("article", {}, make("h3", {}, headOf(name, now.command)), ...command);
  if (!then.hasAll || !now.hasAll) {
    const command = make("code", {}, `${data.tool} changed ${data.scriptWord} ${then.number} ${now.number}`);
    article.append(make("p", {}, "Not all records are in this page. What changed is listed by ", command, "."));
    return article;
  }
  const before = blockOf(`records-${then.number}`), after = blockOf(`records-${now.number}`);
  const signs = data.said[then.number];
  const said = [signed(before, signs[0], "only then"), signed(after, signs[1], "only now")];
  const [gone, come] = said.map((records) => records.filter(([mark]) => mark).length);
  const both = before.length - gone, still = after.length - come;
  const cut = both === still ? "" : ` (${grouped(still)} now, as changes have cut or left them)`;
  const sides = [sideOf("Then", then, said[0]), sideOf("Now", now, said[1])];
  article.append(make("p", {}, `${counted(both, "record")} said both times${cut}, ${gone} only then, ${come} only now.`));
  if (both && gone + come) {
    const only = make("input", { type: "checkbox" });
    const refresh = () => sides.forEach((side) => side.only(only.checked));
    only.checked = true;
    only.addEventListener("change", refresh);
    refresh();
    article.append(make("div", { class: "tools" }, make("label", { class: "stays" }, only, "Only what differs is shown")));
  }
  const width = now.columns.length < WIDEST_ON_PAPER ? "two pair narrow" : now.columns.length < WIDEST ? "two pair" : "";
  article.append(make("div", { class: `beside ${width}` }, ...sides.map((side) => side.element)));
  return article;
}

function showPairs() {
  const byNumber = new Map(data.questions.map((question) => [question.number, question]));
  const pairs = data.pairs.map((pair) => pairOf(...pair.map((number) => byNumber.get(number))));
  const none = make("p", {}, "No question is asked twice: as of a commit (asof,N), and of a later one.");
  section("pairs", ...(pairs.length ? pairs : [none]));
}

// --- Questions, each with its picture ---

function pictureOf([name, attributes, ...inner]) {
  return drawn(name, attributes, ...inner.map((one) => (typeof one === "string" ? one : pictureOf(one))));
}

function figureOf(tree, label) {
  const picture = pictureOf(tree);
  picture.setAttribute("role", "img");
  picture.setAttribute("aria-label", `Picture of ${label}. The table beside it has the same.`);
  return make("figure", {}, picture);
}

function questionOf(question) {
  const { number, command, columns, count, shown, picture } = question;
  const records = blockOf(`records-${number}`), file = `${number}-${question.word}.csv`;
  const about = `${question.place}, answer ${number}; it reads ${commitText(question.commit)}.`;
  const grid = new Grid({ label: command, columns, records, count, shown, file });
  const beside = make("div", { class: `beside ${picture && columns.length <= WIDEST ? "two" : ""}` }, grid.element);
  beside.append(...(picture ? [figureOf(picture, command)] : []));
  const sentence = question.sentence ? [make("p", {}, question.sentence)] : [];
  const none = question.noPicture ? [make("p", { class: "soft" }, question.noPicture)] : [];
  const name = question.name ? [`${question.name}: `] : [];
  const title = make("h3", { id: `question-${number}` }, ...name, make("code", {}, command));
  return make("article", {}, title, make("p", { class: "soft" }, about), ...sentence, beside, ...none, ...partsOf(question));
}

function partsOf({ number, command, parts }) {
  const columns = [["part", "int"], ["rows", "text"]];
  const label = `the parts of ${command}`;
  return parts.length ? [make("p", {}, "The parts that were checked:"), new Grid({ label, columns, records: parts }).element] : [];
}

function listOf(questions) {
  const links = questions.map(({ number, name, place, command, count }) => {
    const link = make("a", { href: `#question-${number}` }, headOf(name, command));
    return make("li", {}, link, make("span", { class: "soft" }, ` ${place}, ${counted(count, "record")}`));
  });
  return make("ul", { class: "list" }, ...links);
}

function showQuestions() {
  if (!data.questions.length) {
    section("questions", make("p", {}, "The script asks nothing."));
    return;
  }
  section("questions", make("p", { class: "soft unprinted" }, "A click on a column's name sorts by it; one on a field finds the "
    + "records that have it there."));
  section("questions", listOf(data.questions), ...data.questions.map(questionOf));
}

// --- Tables, and what the page is ---

function showTables() {
  const source = "This part is made of the versions that the program printed: after the script it was asked "
    + "between,TABLE,0,1000000 for each table.";
  const times = "Two times are kept apart: the day for which a row holds, and the commit from which on the store knew it.";
  section("tables", make("p", {}, source), make("p", {}, times));
  section("tables", ...(data.tables.length ? data.tables.map(tableOf) : [make("p", {}, "The script makes no table.")]));
}

function showAbout() {
  const made = data.isInstalled
    ? `It was made by ${data.tool} as it is installed; tools/answers of a clone of the repository names other commands.`
    : `It was made by ${data.tool} of a clone of the repository; dipq-answers as it is installed names other commands.`;
  const left = data.leftOut.length ? data.leftOut : ["nothing"];
  section("about",
    make("p", {}, "This page is one file, and asks no network. The same script and the same program give the same page, byte by "
      + `byte, by the same tool. ${made} So whoever has them makes it once more, and compares:`),
    make("p", {}, make("code", {}, `sha256sum ${data.scriptWord}\n${data.command} > again.html\ncmp again.html PAGE`)),
    make("p", {}, "A period begins with its first point and ends before its second; 9999-12-31 stands for an end that isn't "
      + "known. Records are sorted and filtered in the page alone. What is saved as CSV has all records of a table that are in "
      + "the page, in the order of the answer."),
    ...(data.hasLastDays ? [make("p", {}, "A column last_day has the last day on which a record holds, and not its end; "
      + "what is saved as the program prints it has ends.")] : []),
    make("h3", {}, "Left out of this page"), make("ul", {}, ...left.map((one) => make("li", {}, one))));
}

showHead();
showFirst();
showCommits();
showPairs();
showQuestions();
showTables();
showAbout();

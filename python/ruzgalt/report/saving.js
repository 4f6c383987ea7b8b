// Tables saved as CSV: as the program prints them, or for a spreadsheet, which runs what begins like a formula.

// What is guarded, and by what, is as spreadsheets.py has it.
const FORMULA = /^(?![+-]$)(?:[=+@\t\r\n\uff1d\uff0b\uff0d\uff20]|-(?!\d+(?:[.,]\d+)?$))/;
const GUARD = "'", BYTE_ORDER_MARK = "\ufeff";
const FORMS = [
  { name: "as the program prints them", mark: ",", end: "\n", isGuarded: false },
  { name: "for a spreadsheet", mark: ",", end: "\r\n", isGuarded: true },
  { name: "for a spreadsheet set to German", mark: ";", end: "\r\n", isGuarded: true },
];
let saving = FORMS[0];

function isRun(field, [, kind]) {
  return kind !== "int" && kind !== "point" && FORMULA.test(field);
}

function csvField(text, isAlone, mark) {
  const isQuoted = /["\r\n]/.test(text) || text.includes(mark) || (isAlone && text === "");
  return isQuoted ? `"${text.replaceAll('"', '""')}"` : text;
}

function csvOf(columns, records, { mark, end, isGuarded }) {
  const marks = ["", mark === ";" ? "," : "."];
  const saved = (field, column) => (isRun(field, column) ? GUARD + field : shownAs(column, field, marks));
  const guarded = (row) => row.map((field, place) => (isGuarded ? saved(field, columns[place]) : field));
  // As the program prints them, ends are no last days.
  const names = columns.map(([name, , look]) => (isGuarded || !look?.end ? name : look.end));
  const rows = [names, ...records.map(guarded)];
  const lines = rows.map((row) => `${row.map((field) => csvField(field, row.length === 1, mark)).join(mark)}${end}`);
  return (isGuarded ? BYTE_ORDER_MARK : "") + lines.join("");
}

// Saves the records in the form that is chosen, and answers what is to be known of it.
function saveAs(name, columns, records) {
  const address = URL.createObjectURL(new Blob([csvOf(columns, records, saving)], { type: "text/csv" }));
  const link = make("a", { href: address, download: name });
  document.body.append(link);
  link.click();
  link.remove();
  setTimeout(() => URL.revokeObjectURL(address), 60000);
  const count = records.flat().filter((field, place) => isRun(field, columns[place % columns.length])).length;
  return count && !saving.isGuarded
    ? `a spreadsheet would run ${counted(count, "field")} of it: choose "${FORMS[1].name}" at the top` : "";
}

function savingChoice() {
  const choice = make("select", {}, ...FORMS.map(({ name }, place) => make("option", { value: place }, name)));
  choice.addEventListener("change", () => { saving = FORMS[Number(choice.value)]; });
  return make("div", { class: "tools" }, make("label", {}, "Tables are saved as CSV", choice));
}

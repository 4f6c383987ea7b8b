"""The table into which a file is loaded, from a record or a script, and the file's columns for it."""
from argparse import Namespace
from pathlib import Path
from typing import Dict, List, Optional, Sequence, Tuple

from ruzgalt.errors import Misfit
from ruzgalt.script import answers, commands, records, refusals, run
from ruzgalt.script.forms import NAME_HAS, NO_END, is_name, printed, read_point
from ruzgalt.script.records import Source, visible
from ruzgalt.script.schemas import MOST_COLUMNS, Kind, Schema, is_schema, listed
from ruzgalt.which import program


def schema_of(options: Namespace) -> Optional[Schema]:
    """The table that is given by its record, or by a script that has it."""
    if options.record is None:
        return None
    is_file = not options.record.startswith("table,")
    data = Path(options.record).read_bytes() if is_file else options.record.encode("utf-8", "surrogateescape")
    tables = [one.record.fields for one in commands.commands(Source(data)) if one.word == "table"]
    found = next((fields for fields in tables if fields[1:2] == [options.table]), None)
    if found is None:
        raise Misfit(f"--table: there is no `table` record of {options.table} in it")
    if not is_schema(found):
        form = f"table,T,COLUMN,KIND..[,key,COLUMN..], with {MOST_COLUMNS} columns at most, each once"
        parts = f"a KIND is int or text, and a name has {NAME_HAS}"
        raise Misfit(f"--table: {records.to_record(found)}: not of the form {form}; {parts}")
    return Schema.read(found)


def refuse_day(options: Namespace) -> None:
    """Refuses a day for the diary if it is none, or if the script isn't there that has the diary."""
    if read_point(options.day.rpartition("=")[2]) is None:
        raise Misfit(f"--day {visible(options.day)}: not a day such as 2024-07-25, or diary=2024-07-25")
    if not options.record or options.record.startswith("table,") or options.print_table:
        raise Misfit("--day needs --table SCRIPT, which has the table, the diary and all earlier commits")


def entry(options: Namespace, made: bytes) -> bytes:
    """Returns the diary's entry: from the day on, the newest commit is the last one that the program makes of `made`.

    The program answers the script with these commands, and the diary's rows. Raises Misfit if it refuses one.
    """
    name, _, day = options.day.rpartition("=")
    name = name or "diary"
    before = Path(options.record).read_bytes().rstrip(b"\r\n") + b"\n"
    script = before + made + f"rows,{name}\n".encode()
    *found, rows = answers.of(script, run.output(program(), script))
    refused = next((one for one in [*found, rows] if one.refusal and one.line > before.count(b"\n")), None)
    if refused:
        raise Misfit(f"--day: after the script of --table, {refusals.described(refused)}")
    if len(rows.schema.columns) != 1 or rows.schema.columns[0].kind is not Kind.INT:
        raise Misfit(f"--day: {name} isn't a diary of one column, the newest commit: write its entry by hand")
    periods = [record[1:3] for record in rows.table.texts()]
    later = [start for start, _ in periods if start > printed(day)]
    if later:
        raise Misfit(f"--day {day}: {name} has a later entry already, from {later[-1]} on")
    newest = str(rows.commits)
    if any(end >= NO_END for _, end in periods):
        return records.encode(records.to_text([["update", name, day, NO_END, "set", rows.schema.names[0], newest]]))
    return records.encode(records.to_text([["load", name], ["row", day, NO_END, newest], ["end"]]))


def rename(options: Namespace, header: Sequence[str]) -> None:
    """Parts each COLUMN that is NAME=COLUMN into the table's name and the header's.

    A word that is in the header as it is, is a name, whatever signs it has.
    """
    options.renamed = {}
    for place, word in enumerate(options.column):
        name, mark, column = word.partition("=")
        if mark and word not in header:
            if not is_name(name):
                raise Misfit(f"{visible(word)}: {visible(name)} can't be the name of a table's column")
            if name in options.renamed.values():
                raise Misfit(f"{visible(word)}: the table's column {name} is given twice")
            options.column[place] = column
            options.renamed[column] = name


def fit(options: Namespace, schema: Schema, header: Sequence[str]) -> Tuple[Schema, List[str]]:
    """Returns the table's columns in the order of the COLUMNs, and the columns that the file lacks in updates.

    Fills in the COLUMNs: if none is given, the table's, or for deletes its key's; for a load also the columns without
    a new name. Refuses columns that aren't the table's, as far as names show it.
    """
    refuse_twins(options, schema.names)
    left_out: List[str] = []
    if options.renamed and not (options.update or options.delete):
        options.column = in_order(options, schema, header)
    elif not options.column:
        if options.delete and schema.columns and not schema.key:
            raise Misfit(f"--delete: {schema.name} has no key, so give the COLUMNs that select the rows")
        names = [schema.names[place] for place in schema.key] if options.delete else schema.names
        pairs = [(name, name_in(header, name)) for name in names]
        left_out = [name for name, found in pairs if options.update and found not in header]
        options.column = [found for name, found in pairs if name not in left_out]
    names = [options.renamed.get(name, name) for name in options.column]
    fitted = some_of(schema, names) if options.update or options.delete else schema
    if fitted is schema:
        refuse_others(names, schema)
    take_names_of_file(options, dict(zip(fitted.names, options.column)))
    return fitted, left_out


def take_names_of_file(options: Namespace, of_file: Dict[str, str]) -> None:
    """Replaces the table's names by the file's in all options that have names of columns, which may be either."""
    def own(name: str) -> str:
        return name if name in of_file.values() else of_file.get(plain(name), name)

    for names in (options.update, options.empty):
        names[:] = map(own, names)
    options.decimals = [(own(name), digits) for name, digits in options.decimals]


def refuse_twins(options: Namespace, known: Sequence[str]) -> None:
    """Refuses two COLUMNs for one of the table's, as far as its names are known: the values of one would be lost."""
    names = [plain(options.renamed.get(column, column)) for column in options.column]
    for place, name in enumerate(names):
        if name in known and name in names[:place]:
            raise Misfit(f"{visible(options.column[place])}: the table's column {name} is given twice")


def in_order(options: Namespace, schema: Schema, header: Sequence[str]) -> List[str]:
    """The file's columns in the order of the table's: the COLUMNs by their names there, and the others by their own."""
    of_table = {plain(options.renamed.get(name, name)): name for name in options.column}
    for name, column in of_table.items():
        if name not in schema.names:
            raise Misfit(f"{visible(column)}: {schema.name} has no column {visible(name)}; {listed(schema.names)}")
    return [of_table[name] if name in of_table else name_in(header, name) for name in schema.names]


def plain(name: str) -> str:
    return name.strip().lower()


def name_in(header: Sequence[str], name: str) -> str:
    """Returns the header's name that equals one of the table's except for capitals and spaces around it."""
    alike = [one for one in header if plain(one) == name]
    if len(alike) > 1 and name not in header:
        both = " and ".join(f"'{visible(one)}'" for one in alike)
        raise Misfit(f"{name} is in the header as {both}: give the one that is meant as a COLUMN")
    return name if name in header or not alike else alike[0]


def some_of(schema: Schema, columns: Sequence[str]) -> Schema:
    """The table's columns that these are by their names, for changes, whose records have names; the table itself where
    all of its columns are given, and one has another name.
    """
    unknown = [name for name in columns if plain(name) not in schema.names]
    if unknown and len(columns) >= len(schema.names):
        return schema
    if unknown:
        known = f"{schema.name} has no such column, and only some of its columns are given; {listed(schema.names)}"
        raise Misfit(f"{visible(unknown[0])}: {known}")
    places = [schema.index_of(plain(name)) for name in columns]
    kept = [places.index(place) for place in schema.key if place in places]
    return Schema(schema.name, tuple(schema.columns[place] for place in places), tuple(kept))


def refuse_others(columns: Sequence[str], schema: Schema) -> None:
    if len(columns) != len(schema.names):
        wanted = f"{schema.name} has {len(schema.names)}: {', '.join(schema.names)}"
        raise Misfit(f"{len(columns)} columns are given, but {wanted}")
    for place, name in enumerate(columns):
        if plain(name) in schema.names and schema.names[place] != plain(name):
            raise Misfit(f"{visible(name)} is given as column {place + 1}, which is {schema.names[place]} in the table")

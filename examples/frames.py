"""Pay, claims and desks by frames: a notebook of cells, for an editor that runs them, or python3 examples/frames.py.

Each cell's output stands below it, behind # |. The files are those of the pages of payroll, insurance and desks.
"""
# %% German files: 31.12.2024 and 4.180,35. An end is the last day; a missing one isn't known. Amounts stay exact.
import tempfile
from decimal import Decimal
from pathlib import Path

import pandas as pd

import ruzgalt

FILES = Path(__file__).resolve().parent / "files"
pd.set_option("display.width", 120, "display.max_columns", None)


def read(name, *days, amount=None):
    texts = [*days, amount] if amount else days
    frame = pd.read_csv(FILES / name, sep=";", dtype=dict.fromkeys(texts, str))
    for day in days:
        frame[day] = pd.to_datetime(frame[day], format="%d.%m.%Y")
    if amount:
        frame[amount] = [Decimal(text.replace(".", "").replace(",", ".")) for text in frame[amount]]
    return frame


contract = read("contracts.csv", "Beginn", "Letzter Tag")
pay = read("pay.csv", "Von", "Bis", amount="Monatsgehalt")
print(len(pay), "lines,", len(pay.drop_duplicates()), "different")
pay = pay.drop_duplicates()
# | 8 lines, 6 different

# %% Which contract does each pay fall under? A row without one has missing cells.
ends = {"period": ("Von", "Bis"), "last_day": True, "open_end": True}
of_contract = {"left_on": "Wer", "right_on": "Name", "right_period": ("Beginn", "Letzter Tag")}
pairs = ruzgalt.join(pay, contract, how="left", **of_contract, **ends)
unpaid = pairs[pairs["Name"].isna()]
print(unpaid[["Von", "Bis", "Wer", "Monatsgehalt"]])
# |          Von        Bis            Wer Monatsgehalt
# | 4 2024-07-01 2024-08-31     Byron, Ada      3420.50
# | 7 2024-11-01 2024-11-15  Noether, Emmy      2975.90

# %% The same without the others: pay while no contract holds.
print(ruzgalt.anti(pay, contract, **of_contract, **ends))
# |              Wer Kostenstelle        Von        Bis Monatsgehalt
# | 0     Byron, Ada        Druck 2024-07-01 2024-08-31      3420.50
# | 5  Noether, Emmy      Bindung 2024-11-01 2024-11-15      2975.90

# %% Pay by month and department, exactly: cents are whole, and the months of a department add up.
autumn = {"by": "Kostenstelle", "within": ("2024-09-01", "2024-11-30"), "decimals": {"Monatsgehalt": 2}}
autumn["amount"] = "per month"
before = ruzgalt.spread(pay, "Monatsgehalt", **autumn, **ends)
print(before)
# |   Kostenstelle        Von        Bis Monatsgehalt
# | 0      Bindung 2024-09-01 2024-09-30      6025.90
# | 1      Bindung 2024-10-01 2024-10-31      6025.90
# | 2      Bindung 2024-11-01 2024-11-30      4537.95
# | 3         Büro 2024-09-01 2024-09-30      3610.00
# | 4         Büro 2024-10-01 2024-10-31      3610.00
# | 5         Büro 2024-11-01 2024-11-30      3610.00
# | 6        Druck 2024-09-01 2024-09-30      4180.35
# | 7        Druck 2024-10-01 2024-10-31      4250.20
# | 8        Druck 2024-11-01 2024-11-30      4250.20

# %% Several at once, at each time: the sum, the greatest, and the mean.
several = {"Monatsgehalt": ["sum", "max", "mean"]}
costs = ruzgalt.agg(pay, several, by="Kostenstelle", decimals={"Monatsgehalt": 2}, **ends)
print(costs[costs["Kostenstelle"] == "Druck"])
# |   Kostenstelle        Von        Bis sum_Monatsgehalt max_Monatsgehalt  mean_Monatsgehalt
# | 4        Druck 2024-01-01 2024-02-29          3420.50          3420.50           3420.500
# | 5        Druck 2024-03-01 2024-08-31          7600.85          4180.35           3800.425
# | 6        Druck 2024-09-01 2024-09-30          4180.35          4180.35           4180.350
# | 7        Druck 2024-10-01        NaT          4250.20          4250.20           4250.200

# %% A store has a past. A raise of 2.5 per cent from September on, rounded half up: first what it would do.
store = ruzgalt.Store()
print(store.table("pay", pay, key="Wer", decimals={"Monatsgehalt": 2}, **ends))
raising = {"percent": "2.5", "start": "2024-09-01", "round": "half-up"}
print(store.raise_by("pay", "Monatsgehalt", dry_run=True, **raising))
print(store.raise_by("pay", "Monatsgehalt", **raising))
# | commit 2: 6 added, 0 closed
# |    rows  Monatsgehalt       exact  raised
# | 0     1        425020    435645.5  435646
# | 1     1        418035  428485.875  428486
# | 2     1        361000      370025  370025
# | 3     1        305000      312625  312625
# | 4     1        297590   305029.75  305030
# | commit 7: 8 added, 5 closed

# %% What it comes to, month by month. What was said at commit 2 is still there.
now, then = (store.rows("pay", as_of=commit).drop(columns="row_id") for commit in (None, 2))
after = ruzgalt.spread(now, "Monatsgehalt", **autumn, **ends)
print(after.assign(more=after["Monatsgehalt"] - before["Monatsgehalt"]))
# |   Kostenstelle        Von        Bis Monatsgehalt    more
# | 0      Bindung 2024-09-01 2024-09-30      6176.55  150.65
# | 1      Bindung 2024-10-01 2024-10-31      6176.55  150.65
# | 2      Bindung 2024-11-01 2024-11-30      4651.40  113.45
# | 3         Büro 2024-09-01 2024-09-30      3700.25   90.25
# | 4         Büro 2024-10-01 2024-10-31      3700.25   90.25
# | 5         Büro 2024-11-01 2024-11-30      3700.25   90.25
# | 6        Druck 2024-09-01 2024-09-30      4284.86  104.51
# | 7        Druck 2024-10-01 2024-10-31      4356.46  106.26
# | 8        Druck 2024-11-01 2024-11-30      4356.46  106.26

# %% Who is there at all, whatever the pay; and when not, within a year.
print(ruzgalt.coalesce(now, by="Wer", **ends))
print(ruzgalt.gaps(contract, by="Name", within=("2024-01-01", "2024-12-31"), period=("Beginn", "Letzter Tag"),
                   last_day=True, open_end=True))
# |              Wer        Von        Bis
# | 0     Byron, Ada 2024-01-01        NaT
# | 1    Hill, Grace 2024-03-01        NaT
# | 2  Noether, Emmy 2024-04-15 2024-11-15
# | 3   Yılmaz, Ömer 2024-01-01        NaT
# |             Name     Beginn Letzter Tag
# | 0     Byron, Ada 2024-07-01  2024-08-31
# | 1    Hill, Grace 2024-01-01  2024-02-29
# | 2  Noether, Emmy 2024-01-01  2024-04-14
# | 3  Noether, Emmy 2024-11-01  2024-12-31

# %% The store goes into a file, and out of it; its page is for a browser.
with tempfile.TemporaryDirectory() as folder:
    store.save(f"{folder}/pay.csv")
    store.page(f"{folder}/pay.html", ["cost=agg,pay,sum,monatsgehalt"], title="Pay of 2024")
    print(ruzgalt.Store.from_script(f"{folder}/pay.csv"), Path(folder, "pay.html").stat().st_size > 10_000)
# | <Store of 7 commits, tables: pay> True

# %% Claims without cover: as it was known, and as it is known now that two policies were cancelled.
cover = read("policies.csv", "Deckung ab", "Deckung bis")
cancelled = read("cancelled.csv", "Storniert ab", "Storniert bis")
losses = read("losses.csv", "Schaden von", "Schaden bis", amount="Betrag")
of_cover, of_loss = ("Deckung ab", "Deckung bis"), ("Schaden von", "Schaden bis")
both = {"on": "Police", "last_day": True}
of_cancelled = ("Storniert ab", "Storniert bis")
left = ruzgalt.anti(cover, cancelled, **both, period=of_cover, right_period=of_cancelled, open_end=True)
for held in cover, left:
    print(ruzgalt.anti(losses, held, **both, period=of_loss, right_period=of_cover, open_end="right"))
# |       Nr  Police Schaden von Schaden bis  Betrag
# | 1  C-502  H-1102  2024-02-20  2024-02-20  890.50
# | 5  C-506  H-1110  2024-06-14  2024-06-14   75.00
# |       Nr  Police Schaden von Schaden bis   Betrag
# | 1  C-502  H-1102  2024-02-20  2024-02-20   890.50
# | 2  C-503  H-1103  2024-03-30  2024-03-31  2310.00
# | 3  C-504  H-1101  2024-06-12  2024-06-12  3200.00
# | 5  C-506  H-1110  2024-06-14  2024-06-14    75.00

# %% Desks: the fewest, of the house and of each floor; who sits where with so few.
desk = read("desks.csv", "Von", "Bis")
days = {"period": ("Von", "Bis"), "last_day": True}
print(ruzgalt.dip(desk, **days))
floors = ruzgalt.dip(desk, by="Etage", **days)
print(pd.DataFrame({"desks": floors.count, "day": floors.instant}))
print(desk.assign(part=floors.parts).sort_values(["Etage", "part", "Von"]).head(4))
# | 4 parts of 10 rows, as many as hold at 2024-03-07 00:00:00
# |        desks        day
# | Etage
# | 1          3 2024-03-07
# | 2          2 2024-03-13
# |   Platz           Name  Etage        Von        Bis  part
# | 0   D01  Weiss, Tobias      1 2024-03-04 2024-03-06     0
# | 2   D01  Brunner, Nils      1 2024-03-07 2024-03-08     0
# | 8   D02  Weiss, Tobias      1 2024-03-11 2024-03-15     0
# | 1   D02     Lund, Sara      1 2024-03-04 2024-03-08     1

# %% Desks given twice, and the days on which a desk is free.
print(ruzgalt.overlaps(desk, by="Platz", **days))
print(ruzgalt.gaps(desk, by="Platz", **days))
# |          Von        Bis Platz   Name_left  Etage_left  Name_right  Etage_right
# | 0 2024-03-13 2024-03-14   D04  Osei, Kofi           2  Tran, Minh            2
# |   Platz        Von        Bis
# | 0   D01 2024-03-09 2024-03-13
# | 1   D02 2024-03-09 2024-03-10
# | 2   D04 2024-03-06 2024-03-10

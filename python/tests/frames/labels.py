"""Joins whose answer has the labels of each pair, as columns left_label and right_label after the period."""
import pandas as pd

import ruzgalt

LABELS = ["left_label", "right_label"]


def join(left, right, *given, **words):
    labelled = [frame.copy(deep=False) for frame in (left, right)]
    for frame, name in zip(labelled, LABELS):
        frame[name] = frame.index.to_flat_index().to_series(index=frame.index)
    got = ruzgalt.join(*labelled, *given, **words)
    names = [name for name in got.columns if name not in LABELS]
    count = 1 if isinstance(got.dtypes.iloc[0], pd.IntervalDtype) else 2
    return got[[*names[:count], *LABELS, *names[count:]]]

"""What a refusal must say."""
import contextlib

import ruzgalt


@contextlib.contextmanager
def refused(*words, **fields):
    """A block that must raise Refused, whose text has these words; fields are name, column or label."""
    try:
        yield
    except ruzgalt.Refused as said:
        assert all(word in str(said) for word in words), said
        assert {field: getattr(said, field) for field in fields} == fields, said
    else:
        raise AssertionError("nothing is refused")

"""The library libruzgalt over arrays of numpy: what frames ask, and a caller with arrays of its own may.

    library     the functions of ruzgalt.h, a call each
    threads     the same by several calls at once
    live        the program dipq-live, which a store keeps
"""

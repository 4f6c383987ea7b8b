"""Possible mistakes in accepted input: rules for texts, for rows that are loaded, and for scripts."""

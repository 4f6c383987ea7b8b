"""Answers as tables, CSV, JSON, tables of SQLite, pictures and one page for a browser."""

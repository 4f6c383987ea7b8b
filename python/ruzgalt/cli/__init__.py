"""The command lines: tools/answers and tools/csv-to-load, and the commands that a wheel installs."""

"""A CSV file with a header, or a sheet of a workbook, becomes a load of a script."""

"""Fill by Example: fills a column of a sheet of LibreOffice Calc from a few cells that a person has filled.

Python 3.8 or later, with the standard library and UNO alone: LibreOffice brings its own Python on most systems.
"""

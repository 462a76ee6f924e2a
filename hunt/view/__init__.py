"""Shows a trace: as a page (page.py) or rows (text.py), both of a Picture (picture.py), and to gdb (stub.py)."""

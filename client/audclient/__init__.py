"""A client of `aud` for the terminal: it loads, steps, searches and grades Ada tasking programs."""

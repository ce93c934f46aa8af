"""A plain, slow model of the program fuota: the definitions of docs/ and crates/*/specs in another language.

It shares nothing with the program's code. `tests/model/fuota` is the executable; a reader begins with `commands.py` and
`session.py`, goes on to `device.py` and `server.py`, and ends with `world.py` and `program.py`.
"""
from __future__ import annotations

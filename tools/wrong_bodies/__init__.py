"""Wrong bodies: the tables of docs/WRONG.md and docs/REFUSED.md, and the trial of the edits.

table.py    makes docs/REFUSED.md, and compares the pages with what there is
places.py   says in which function a place of a source is
checks.py   reads what `rt check` says of each function; the kit's words are known there alone
trial.py    tries the edits of a crate in rounds, each in a copy
verdicts.py keeps what a trial came to, with a sum of what it rests on
"""

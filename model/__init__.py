"""A model of 01 and of 02's requests 1, 2, 4 and 5 in Python, and the stored tables that it makes.

Two commands, from the repository's root:

    python3 -m model            makes every stored table anew; says of each file 'same' or 'written'
    python3 -m model --check    writes nothing; says of each file whether it is what would be made,
                                'same' or 'differs', and ends with status 1 if one differs

Both first hold the model to the figures that 01 marks and to its whole case (tables/marked.py), to
what 02 says of scripts that are written and read back (tables/writer_laws.py), of edges that are
listed (tables/edges_laws.py) and of label runs (tables/labels_laws.py), and to all that is worked
by hand; where it differs nothing is written. The check also holds the counts of rows in each
crate's `stdout` to the tables, and that of `test_scripts` to what the model makes of its scripts
when they are written again (tables/scripts_again.py); the rest of such a text is its program's.
Where each table goes stands in __main__.py and nowhere else. Python 3.9 or later will do, with
nothing beside it.

The model, each part over those before it:

    numbers.py    numbers in 16.16          hintmap.py    maps, adjusting and building
    stems.py      masks, stems, edges       calls.py      calls on a drawing, records
    zones.py      zones and capture         script.py     the tests of a script, and its run
                                            writer.py     scripts written, and read back
                                            edges.py      edges of a map, listed and counted
                                            labels.py     glyphs run one by one into one result

tables/ has the rows: figures.py (numbers to captures), maps.py, calls.py, scripts.py, writer.py,
edges.py and labels.py, with parts beside them that bear their names. The head of each says which
rows are chosen or worked by hand, which come from the model, and which are drawn at random, from a
seed that is written there, so that every run makes the same bytes.

What had been read before each part was written, which is what its agreement is worth:

- stems.py, zones.py and the tests in script.py: 01 and the readings of it alone. What zones.py has
  of request 4: the request, the readings of it, and that step of the Rust.
- writer.py: 02's first request, the readings of it, 01 and script.py alone.
- edges.py: 02's second request, the readings of it and the model's other parts; the definitions and
  the code of the crate `listing` had been seen. The map that it lists is hintmap.py's.
- labels.py: 02's fifth request, the readings of it and the model's other parts alone, before the
  crate `labels` was there. What a glyph's calls write is calls.py's.
- numbers.py: 01's rules, which it puts in exact fractions. What else is not on record.
- hintmap.py: this project's code and most of the Rust too, so that it is weaker evidence of what 01
  means.
- calls.py: the Rust's `HintingSink` too, with the same loss. What scripts write comes from there.

The parts but writer.py, edges.py and labels.py were written in four places and brought together
later. That changed no byte of any table, and nothing of this. No code of the project takes part in
the model; compare/model is another one, in Rust.
"""

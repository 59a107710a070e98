"""Rewrites a set of XML Schema 1.0 documents into the profile of Ruvkhiska.

The parts, in the order in which a set passes through them:

- `sources` reads the schema files, follows their references and hands them to python3-xmlschema.
- `index` lists the global components of the set, with the file and the line of each part.
- `facts`, `finding`, `restricting`, `unions` and `patterns` say what has to be known of a simple type, and `simple_types`
  what it becomes.
- `particles` makes content models clear; `contents` says what a content model becomes.
- `rewriting` says what elements, complex types and attributes become.
- `placing` names the types that need a name, and drops what the roots don't reach.
- `writing` writes one schema file for each target namespace.
- `report` keeps the lines about what isn't said as it was.
- `work` does all of it, `supervising` bounds its time and memory, and `cli` is the command.
"""

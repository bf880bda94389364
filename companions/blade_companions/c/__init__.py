"""From C to a labelled module: arguments, compiler and linker, objects, DWARF, declarations, lines.
Licence: public domain (CC0)."""

"""Splits a labelled module into one with C's memory and one with a public shadow of it: blade-split.
Licence: public domain (CC0)."""

"""Unit tests of the tools: python3 -B -m unittest discover -s companions/tests -t companions. Licence: public
domain (CC0)."""

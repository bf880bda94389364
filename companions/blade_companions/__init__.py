"""The code of the tools blade-cc, blade-explain, blade-label, blade-split, blade-stub, blade-trace and
blade-witness: a module each, with its `main`, over the packages formats, c, verdict, splitting and witnesses.
Licence: public domain (CC0)."""

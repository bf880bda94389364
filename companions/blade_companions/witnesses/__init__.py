"""The search for two runs that show a leak. Licence: public domain (CC0)."""

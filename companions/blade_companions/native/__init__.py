"""blade-native: from a hardened image to portable C11. Licence: public domain (CC0)."""

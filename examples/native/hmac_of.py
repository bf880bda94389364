#!/usr/bin/env python3
"""The same in Python, by ctypes: hmac_of.py libhmac.so KEY TEXT. Licence: public domain (CC0)."""
import ctypes
import sys
from ctypes import c_char_p, c_int, c_uint32, c_void_p

HMAC_MEMORY_HMAC, AT, TAG_SIZE = 1, 131072, 32  # the first as in hmac.h


class Hmac:
    """An instance of the library, which is wiped and freed at the end of a `with`."""

    def __init__(self, path: str) -> None:
        self.library = ctypes.CDLL(path)
        self.library.hmac_new.restype = c_void_p
        self.library.hmac_free.argtypes = [c_void_p]
        for name in ("hmac_read", "hmac_write"):
            getattr(self.library, name).argtypes = [c_void_p, c_uint32, c_uint32, c_char_p, c_uint32]
        self.library.hmac_hmac.argtypes = [c_void_p] + [c_uint32] * 6
        self.library.hmac_hmac.restype = c_int

    def __enter__(self) -> "Hmac":
        self.instance = self.library.hmac_new()
        if not self.instance:
            raise MemoryError
        return self

    def __exit__(self, *_: object) -> None:
        self.library.hmac_free(self.instance)

    def tag(self, key: bytes, text: bytes) -> bytes:
        """The tag of a text."""
        key_at, text_at, tag_at = AT, AT + len(key), AT + len(key) + len(text)
        found = ctypes.create_string_buffer(TAG_SIZE)
        if not self.library.hmac_write(self.instance, HMAC_MEMORY_HMAC, key_at, key + text, len(key + text)):
            raise ValueError("the key and the text are too long")
        end = self.library.hmac_hmac(self.instance, tag_at, key_at, len(key), text_at, len(text), len(text))
        if end or not self.library.hmac_read(self.instance, HMAC_MEMORY_HMAC, tag_at, found, TAG_SIZE):
            raise ValueError(f"the call ended with {end}")
        return found.raw


if __name__ == "__main__":
    with Hmac(sys.argv[1]) as made:
        print(made.tag(sys.argv[2].encode(), sys.argv[3].encode()).hex())

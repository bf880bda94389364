"""python3 -m blade_companions.native. Licence: public domain (CC0)."""
import sys

from .command import main

if __name__ == "__main__":
    sys.exit(main(sys.argv[1:]))

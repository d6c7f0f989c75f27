"""python3 -m fetch, in the folder above."""

from .main import leave, main

if __name__ == "__main__":
    leave(main())

"""Commands of `python3 -m zegdrut`: a module for each, with a function `main` that returns the exit status."""

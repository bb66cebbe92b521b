"""The tests of the package: `python3 -m unittest discover` in the folder above this one runs them.

Where the library is not built, the programs of second-opinion/ stand in for it, and what they have no command for is skipped.
"""

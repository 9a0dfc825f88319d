"""Tests of the program, as modules of the standard library's unittest.

    python3 -m unittest tests.cut -k midnight
"""

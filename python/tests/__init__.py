"""Tests of the package, by unittest. tools/gate/try-python runs them; those that ask the program need it to be
found."""

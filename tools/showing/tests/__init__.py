"""Tests of the viewer: `cd tools && python3 -m unittest discover -t . -s showing/tests`."""

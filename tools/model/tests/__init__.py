"""Tests of the model: `cd tools && python3 -m unittest discover -t . -s model/tests`."""

"""Random guest programs, each made from its seed: see program.py."""

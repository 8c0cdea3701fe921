"""What a folder of sets and a trace hold, in lines and pictures that a person reads (tools/show.py)."""

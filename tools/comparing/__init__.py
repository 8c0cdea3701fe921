"""The parts of compare_with_model.py: cases and what comes of them, damaged sets, bad program files, odd words."""

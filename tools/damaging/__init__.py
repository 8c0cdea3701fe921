"""Sets of which each field is damaged alone, and what docs/FORMATS.md says of each."""

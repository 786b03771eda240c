"""Plain Python of docs/FORMATS.md: an encoder of GIOP messages, and a reading of whole streams, for checks and benches."""

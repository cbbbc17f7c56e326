"""The stages of tools/write_tables.py: entries are read once and expanded to rows, and each stage behind makes generated files of these rows."""

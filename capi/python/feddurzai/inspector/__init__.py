"""The inspector: the command `python3 -m feddurzai` for ELF files.

It lists functions and sections, draws flow graphs, writes pages, and answers two questions: which processor does a file need, and which of its
functions can be hooked? `elf` reads files with pyelftools (pip: feddurzai[elf]; Debian: python3-pyelftools), `scan` decodes large code quickly,
`tables` resolves jump tables, and `command` is the command line. The modules may change between versions; the command and its JSON do not.
"""

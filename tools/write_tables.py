#!/usr/bin/env python3
"""Writes the generated tables of the repository from the entries in crates/row_entries/data, or compares them with these entries."""
import argparse
import os
import sys

sys.dont_write_bytecode = True
from tables import bare, branches, columns, effects, gnu, name_buckets, nodes, operand_sets, row_files  # noqa: E402
from tables.entries import BadEntry, read_all  # noqa: E402
from tables.rows import table_of  # noqa: E402

CRATES = os.path.join(os.path.dirname(os.path.dirname(os.path.abspath(__file__))), 'crates')

HELP = '''\
The entries are read once (docs/entries.md describes a line) and expanded to the rows of the table. From the rows these stages make

  rows      crates/rows_*/src/generated_table.rt, crates/opcode_rows/src/generated_{spots,cells,names}.rt
  columns   crates/operand_info/src/generated_columns.rt
  nodes     crates/handler_tables/src/generated_nodes.rt
  bare      crates/decoder/src/generated_bare_rows.rt
  names     crates/intel_reader/src/generated_buckets.rt
  operands  crates/intel_reader/src/generated_operands.rt
  branches  crates/move_goals/src/branch_forms/generated_codes.rt, crates/block_encoder/src/pushed_calls/generated_codes.rt,
            crates/code_assembler/src/generated_codes.rt
  effects   crates/instruction_info/src/generated_effects.rt, from the lines in crates/row_entries/data too (docs/instruction-info.md)
  gnu       crates/text_options/src/generated_gnu.rt (docs/texts.md)

No proof depends on this program: the crates prove the contracts and laws of what it writes, and row_entries compares the entries with the rows.
The exit status is 0 if all files agree with the entries, 1 if with --check a file differs (each is named), and 2 if a line is not an entry.
'''


def read(path):
    if not os.path.exists(path):
        return None
    with open(path) as file:
        return file.read()


def main():
    parser = argparse.ArgumentParser(description=__doc__, epilog=HELP, formatter_class=argparse.RawDescriptionHelpFormatter)
    parser.add_argument('--check', action='store_true', help='compare and write nothing')
    check = parser.parse_args().check
    try:
        table = table_of(read_all())
        files = {path: text for stage in (row_files, columns, nodes, bare, name_buckets, operand_sets, branches, effects, gnu) for path, text in stage.files(table).items()}
    except BadEntry as bad:
        print(bad, file=sys.stderr)
        return 2
    stale = [path for path, text in files.items() if read(os.path.join(CRATES, path)) != text]
    for path in stale:
        print(f"crates/{path}: {'differs' if check else 'written'}")
        if not check:
            with open(os.path.join(CRATES, path), 'w') as file:
                file.write(files[path])
    print(f'{len(table)} rows, {len(set(row.name for row in table))} names; {len(files) - len(stale)} of {len(files)} files were up to date')
    return 1 if check and stale else 0


if __name__ == '__main__':
    sys.exit(main())

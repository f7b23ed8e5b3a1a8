#!/usr/bin/env python3
"""Writes the functions that make typed nodes out of the cells of an arena, from the declarations of the node types.

    tools/write_from_cells.py [--check]

demangle_leaves_from_cells has those of words, numbers and the types of demangle_leaf_nodes, demangle_nodes_from_cells
those of demangle_nodes and demangle_entries. With --check nothing is written: it says which files aren't what would be
written, and fails where there is one.
"""
import sys

import from_cells_leaves
import from_cells_nodes
import node_types
import written


def main():
    types = node_types.all_types()
    written.settle({
        "demangle_leaves_from_cells": (from_cells_leaves.files(types), []),
        "demangle_nodes_from_cells": (from_cells_nodes.files(types), []),
    }, "--check" in sys.argv[1:])


main()

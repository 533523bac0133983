"""The file tree, its call table and its output, written apart from the repository's Rattle code."""

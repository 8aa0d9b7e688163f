"""A desk for case workers: what `aw_book` says of an office's journal, as pages and in a terminal."""

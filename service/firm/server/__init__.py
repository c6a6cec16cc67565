"""firmd: accepts clients' lines in turn, journals them, passes them to firm, and makes snapshots."""

"""firm-viewer: a copy of all rows for readers, so that no reader delays a line."""

"""Modules that several programs of the service share: rosters, rows, files, sockets, settings and messages."""

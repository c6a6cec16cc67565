"""The service around firm. Each folder is a part of it, which docs/SERVICE.md describes."""

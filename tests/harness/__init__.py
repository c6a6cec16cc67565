"""Code that the scripts of tests/ and bench/ share."""

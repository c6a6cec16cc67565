"""The API: HTTP and JSON for users, operators, programs and browsers."""

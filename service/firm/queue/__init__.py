"""The queue of a tenant: users of a cluster submit work to firm, and agents run it."""

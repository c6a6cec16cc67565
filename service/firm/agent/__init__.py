"""firm-agent: runs a tenant's tasks on its host, each by a supervisor that outlives it."""

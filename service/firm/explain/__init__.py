"""Answers from runs of firm's programs outside the service: why a task is where it is, and what lines would do."""

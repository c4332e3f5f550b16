"""Give all layers what they stand on: JSON, lines of a journal, refusals, names, settings, listeners, and tasks that are watched."""

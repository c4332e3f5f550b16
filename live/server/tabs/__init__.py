"""Talk with tabs: connections, seats, commands with their fields, refusals, and the answers to queries."""

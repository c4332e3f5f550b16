"""Make and share operations: seats, their gestures, the lists of changes, and the keeper of journal and program."""

"""Confirm what seats do: lines on the disk, their meaning, and the checks before an operation is written."""

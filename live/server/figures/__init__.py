"""Compute figures, reports and files of roads, beside the shared road."""

"""Feeds the original and this project's programs the same inputs and compares what they write."""

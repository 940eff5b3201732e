"""The rows of the stored tables."""

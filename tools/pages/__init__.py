"""What writes documents from the source, and what checks that they cite what is there."""

"""Reports: pages, verdicts, pictures."""

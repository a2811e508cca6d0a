"""Studies: plans, campaigns, folders, joined tables."""

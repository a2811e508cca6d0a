"""Evidence: kept calls, judgements of runs, what a run can show."""

"""What all tools share: words and ends of a call, the program's calls, files, units, TOML."""

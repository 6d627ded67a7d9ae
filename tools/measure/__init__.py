"""Python programs that try the repository's code, its checks and its program. Each runs as a file,
tools/measure/NAME.py, from any folder. `unproved` is no program: `mutants` imports it."""

"""The tools of the solver: `tools/run` is the command, `main` has its groups."""

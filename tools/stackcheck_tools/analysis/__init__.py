"""What is found of a firmware: the lines that the tools write, bounds and refusals, places, simulated runs, causes and cures."""

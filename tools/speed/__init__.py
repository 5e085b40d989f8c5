"""What measures the programs, and writes docs/trust/SPEED.md: `python3 -m tools.speed`."""

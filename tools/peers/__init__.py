"""What runs SUMO's controller and the bench, and writes docs/trust/PEERS.md: `python3 -m tools.peers`."""

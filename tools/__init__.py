"""The tools of the repository.

What a person types is here: gate, build, look, release and ready.py. The rest is run as a module at the top,
`python3 -m tools.FOLDER.NAME`:

- prover: runs the kit, for the gate and the first look;
- pages: writes documents from the source, and checks what they cite;
- programs: runs the built programs, and compares what they write with the documents;
- reference: makes stored sessions and tests laws by an independent implementation, which is not here;
- speed, peers: measure, and write docs/trust/SPEED.md and docs/trust/PEERS.md.
"""
import pathlib

# The top of the repository.
TOP = pathlib.Path(__file__).resolve().parent.parent

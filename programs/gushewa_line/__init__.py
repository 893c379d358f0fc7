"""What speaks the line between the controller and an interface for one DALI bus (docs/LINES.md).

An interface has `ends` (the line itself), `line` (the protocol) and, for a bus without wires,
`gateway`. A tool that asks a line has `controller`. It needs nothing but the standard library.
"""

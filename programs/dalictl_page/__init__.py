"""A page for a building: it stands between the controller and its interfaces, as a bus of the line.

One process passes on what goes over the lines (`relay`, `wires`), and starts another one for the
browser (`web`). They share a socket (`channel`), so that whatever the browser does, no line waits.

What decides is plain: `relay` (what is passed on), `words`, `names`, `state`, `view` (what is
shown), `allowed` and `doors` (who may do what). benches/page tries it.
"""

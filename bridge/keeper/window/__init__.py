"""A window into a running session: a page of this machine that shows what plays, and from which it can be stopped.

`keeper` holds the one end and `python3 -m keeper.window` is the other, a program of its own: it serves the page, and
whatever it has to do takes nothing of the time of the one that hands over the sound.
"""

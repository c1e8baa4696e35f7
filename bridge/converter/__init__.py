"""Turns what sclang writes into what `snova` reads."""

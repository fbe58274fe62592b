"""Draws what `sirob` prints: refusals, runs and audits, each as one SVG. `tools/picture` is the command."""

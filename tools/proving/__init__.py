"""The modules of tools/prove.py."""

"""What tools/written.py writes, a file for each crate or tool."""

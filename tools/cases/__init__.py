"""What is expected, by hand: tables alone (tools/README.md)."""

"""What sdk/cc is made of."""

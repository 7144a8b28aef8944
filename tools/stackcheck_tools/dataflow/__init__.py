"""What each byte that a firmware computes is made of, and from where it was loaded."""

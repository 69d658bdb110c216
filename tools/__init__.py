"""What the repository's Python programs share: builders, finders and measurements. Uses only the standard library."""

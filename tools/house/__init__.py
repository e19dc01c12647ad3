"""What tools for owners know of the sources."""

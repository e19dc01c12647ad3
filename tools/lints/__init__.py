"""What is legal in a program and most likely wrong: each module finds some of it, as pairs of a line and what is said of it."""

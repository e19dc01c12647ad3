"""Readers of texts for the script's tools. They tell more than the program does of a text that is wrong, and take what they can of it."""

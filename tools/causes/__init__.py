"""What is wrong with a text that the program refuses, in words: one cause, the line where it is to be mended, and what was expected there."""
from collections import namedtuple

# The line of the text that is shown, or None, and what is said below it.
Cause = namedtuple("Cause", "line text")

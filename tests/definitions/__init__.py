"""The definitions of a right trace, read plainly over the rows of its text."""

"""The cases of the built program, in tables by command."""

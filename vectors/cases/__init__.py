"""The chosen cases of vectors/, and the definitions that their expected answers come from."""

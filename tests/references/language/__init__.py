"""The whole language a second time, plainly, for the tests to hold the compiler against.

`texts` makes a tree of a text, `heads` and `bodies` hold it against the rules of `types` and regions, `flow` against those of variables
that are empty or locked, `frames` counts the words of frames, `warned` says what an accepted text is warned of, and `runs` evaluates the tree as it stands. Nothing
is shared with the compiler.
"""

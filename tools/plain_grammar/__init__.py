"""Makes a grammar that Perses takes of a public ANTLR 4 grammar.

`words` cuts a file into words, `reading` makes the tree of `tree` of them, and leaves out what
Perses has no use for; `joining` makes one grammar of several files. The changes are `names`, `modes`,
`commands`, `cases`, `loops`, `ends`, `empties`, `corners` and `lists`, in the order of `command`, which
is the command line. `characters` has sets of characters and `islands` loops up to a text, written out.
`printing` prints the result, and `check` asks Perses about it.
"""

"""Which definitions the promises of the public calls rest on, and how many lines a reader must believe.

    source     an antt file: its imports and its definitions
    code       a Rattle file: its declared types and the contracts of its functions
    scope      what a word of a file means
    uses       the words that a definition or a clause uses
    follow     all that a name reaches
    report     the table and the lists
"""

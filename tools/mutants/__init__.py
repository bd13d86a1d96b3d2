"""Tries wrong bodies, behind the command tools/wrong_bodies. A mutant is a crate in which wrong bodies stand.

Each module does one thing, and uses only those above it:

    kit          what is known of the kit's insides: its functions, and the patterns of what it prints
    functions    finds the functions of a source file
    statements   what rests on a statement of specs/, by the words of a crate's files
    goals        at which goals a check refuses a function, how surely, and which clause a goal is of
    edits        a wrong body, and the files that hold them
    half_counts  the sums of tools/halves, and the functions that need whole counts
    lanes        how many checks run side by side, and which crate's turn it is
    sources      the sources of one crate, with its functions and proofs
    paths        under which path a check prints a function
    placing      which functions an edit changes
    copies       a function that stands a second time in its file, for a further edit of it
    batches      which edits stand in one check
    rooms        the folder that a check runs in, where what isn't proved has a hole for its proof
    verdicts     what a check says of the edits that it carries
    bench        all of these for one crate, with what became of its edits
    in_batches   tries many edits in one check
    of_laws      tries edits of several laws in one check
    alone        tries one edit by itself
    trial        tries all edits of a crate, or proves what they edit with half counts
    command      the command line, and what all came to
"""

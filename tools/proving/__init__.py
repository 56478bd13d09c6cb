"""What tools/prove stands on: a reader of C texts, terms, intervals, and the search for rows and proofs."""

"""The mutants that the prover must refuse: what each says of itself, what the prover reports, and many tried at
once."""

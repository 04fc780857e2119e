"""What check-mutants is made of: changes of scripts, the judge of what a program writes for them, and their shrinking."""

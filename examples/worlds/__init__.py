"""What check-worlds is made of: scripts by chance, the judge of what a program writes for them, and their shrinking."""

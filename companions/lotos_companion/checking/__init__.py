"""What `lotos` answers to a specification, with what a reader needs to mend one that is refused."""

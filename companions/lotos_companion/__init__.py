"""What the companions of the program `lotos` are made of. They run the program and show what it says."""

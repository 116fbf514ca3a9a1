"""The page of a session: a server of this machine alone, and one file of HTML with its modules and its style."""

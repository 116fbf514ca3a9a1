"""A language server for editors: it says what the program says of a text, and finds names by the grammar of the language."""

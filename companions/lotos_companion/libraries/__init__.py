"""Types ready for use: the library files that come with the companions, copied into a folder and compared with it."""

"""The flat text of a specification, and which type each part of its data came from."""

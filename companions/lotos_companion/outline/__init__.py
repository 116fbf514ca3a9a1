"""The outline of a specification: its processes with their calls and gates, and its types with their sorts."""

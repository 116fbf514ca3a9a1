"""An order of the operations under which each equation of a specification is used from left to right, computed."""

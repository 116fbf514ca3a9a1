"""The scenarios and sessions of a project as its tests."""

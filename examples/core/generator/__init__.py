"""Random programs for the example cores."""

"""What the parts of the suite share."""

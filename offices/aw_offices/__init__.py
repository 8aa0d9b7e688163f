"""What the programs for running offices share."""

"""Small files with one fault each, and what was planted, in words that a reason has to have."""

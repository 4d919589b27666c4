"""A second renderer by the words of the rules, and what compares it with the first."""

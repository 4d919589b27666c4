"""What reads the sources in Rattle: crates, definitions, public calls, the page of the statement."""

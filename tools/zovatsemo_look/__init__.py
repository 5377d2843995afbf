"""Tables, verdicts and pictures of runs, read from their reports. Nothing here is proved."""

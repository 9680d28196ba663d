"""Answers for people to look at: summaries, pictures, and one page of all of it."""

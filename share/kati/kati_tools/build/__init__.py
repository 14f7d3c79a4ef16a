"""kati's translation and what is added to it for Ninja; builds beside those of make."""

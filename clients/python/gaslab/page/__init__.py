"""The page: what `gaslab-client page` serves, and the one file that it writes."""

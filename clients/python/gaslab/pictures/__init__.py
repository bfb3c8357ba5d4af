"""Pictures of a gas: files, films, and text for a terminal."""

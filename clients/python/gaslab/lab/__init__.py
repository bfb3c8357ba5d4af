"""Lab: one session with a laboratory. And Gas: what can be drawn and measured."""

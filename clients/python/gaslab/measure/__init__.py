"""Measuring: tables, charts, profiles and fields; and what builders of gates use."""

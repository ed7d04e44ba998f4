"""Recordings of many machines together."""

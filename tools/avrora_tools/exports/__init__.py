"""Traces in the formats of other programs: packets, call graphs, coverage, timelines, tables."""

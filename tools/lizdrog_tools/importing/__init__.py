"""Brings a design as synthesis and layout tools write it to the five documents that Lizdrog reads."""

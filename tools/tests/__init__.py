"""Tests of the tools, and of the program as a whole."""

"""What the project measures, compares and makes its pages by, and the tests of the program as a whole. Nothing of it is installed."""

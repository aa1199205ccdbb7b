"""Files of receivers whose places are known."""

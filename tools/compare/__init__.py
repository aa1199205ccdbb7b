"""The second checker beside the proved program, and numbers that the equations allow beside both."""

"""A true stream of one channel, the lines that carry it, and the frames of a capture. Used by tools/generate_capture.py."""

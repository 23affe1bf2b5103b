"""The version of the client; the build of the wheel reads it here."""
__version__ = "0.2.0"
